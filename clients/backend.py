"""Builds the package for pip (PEP 517 and 660), with nothing but Python, so that `pip install ./clients` needs no network."""
from __future__ import annotations

import base64
import hashlib
import tomllib
from collections.abc import Mapping
from pathlib import Path
from typing import Any
from zipfile import ZIP_DEFLATED, ZipFile, ZipInfo

HERE = Path(__file__).resolve().parent
SOURCES = HERE / "python"
WHEEL = "Wheel-Version: 1.0\nGenerator: bench61499\nRoot-Is-Purelib: true\nTag: py3-none-any\n"
Settings = Mapping[str, object] | None


def build_wheel(wheel_directory: str, config_settings: Settings = None, metadata_directory: str | None = None) -> str:
    """Writes a wheel of the package, and returns its name."""
    files = sorted(it for it in SOURCES.rglob("*") if it.is_file() and "__pycache__" not in it.parts and ".egg-info" not in str(it))
    return _write(Path(wheel_directory), {it.relative_to(SOURCES).as_posix(): it.read_bytes() for it in files})


def build_editable(wheel_directory: str, config_settings: Settings = None, metadata_directory: str | None = None) -> str:
    """As `build_wheel`, of a package that is used where it is."""
    return _write(Path(wheel_directory), {"bench61499.pth": f"{SOURCES}\n".encode()})


def _write(folder: Path, contents: dict[str, bytes]) -> str:
    """A wheel with these files; the same files give the same bytes."""
    project: dict[str, Any] = tomllib.loads((HERE / "pyproject.toml").read_text(encoding="utf-8"))["project"]
    name = f"{project['name']}-{project['version']}"
    contents |= {f"{name}.dist-info/{file}": text.encode() for file, text in _about(project).items()}
    record = f"{name}.dist-info/RECORD"
    rows = [f"{file},sha256={_hash(content)},{len(content)}" for file, content in contents.items()]
    contents[record] = "\n".join([*rows, f"{record},,", ""]).encode()
    wheel = f"{name}-py3-none-any.whl"
    with ZipFile(folder / wheel, "w", ZIP_DEFLATED) as it:
        for file, content in contents.items():
            entry = ZipInfo(file)
            entry.external_attr = 0o644 << 16
            it.writestr(entry, content, ZIP_DEFLATED)
    return wheel


def _about(project: Mapping[str, Any]) -> dict[str, str]:
    """What a wheel says of itself."""
    fields = {"Metadata-Version": "2.1", "Name": project["name"], "Version": project["version"], "Summary": project["description"],
              "License": project["license"], "Requires-Python": project["requires-python"]}
    scripts = [f"{name} = {function}" for name, function in project["scripts"].items()]
    return {
        "METADATA": "".join(f"{key}: {value}\n" for key, value in fields.items()),
        "WHEEL": WHEEL,
        "entry_points.txt": "\n".join(["[console_scripts]", *scripts, ""]),
    }


def _hash(content: bytes) -> str:
    return base64.urlsafe_b64encode(hashlib.sha256(content).digest()).rstrip(b"=").decode()
