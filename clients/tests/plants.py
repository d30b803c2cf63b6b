"""A plant of texts, as the language server keeps it, for tests without a folder."""
from __future__ import annotations

from collections.abc import Mapping
from pathlib import Path

from bench61499.language.plant import Plant


def file_of(name: str) -> Path:
    return Path(f"/plant/{name}.fb")


def plant_of(texts: Mapping[str, str]) -> Plant:
    """A plant of these texts, each in the file of its name."""
    plant = Plant()
    for name, text in texts.items():
        plant.put(file_of(name), text)
    plant.refresh()
    return plant
