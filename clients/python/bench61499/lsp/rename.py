"""Another name for what a name stands for, in all units at once."""
from __future__ import annotations

from typing import Any

from bench61499 import CHANGES_LIMIT, NAME_LIMIT, TEXT_LIMIT
from bench61499.language.declarations import INSTANCE, TYPE, VARIABLE, Key, is_elementary
from bench61499.language.imported import places_of
from bench61499.language.plant import Plant
from bench61499.language.tokens import RESERVED, is_name, tokens
from bench61499.lsp.edits import workspace_edit
from bench61499.lsp.navigation import Found, occurrences
from bench61499.lsp.sureness import captured, in_doubt


class CantRename(Exception):
    """Why it is not done, in the words for the user."""


def check_target(plant: Plant, found: Found | None) -> Found:
    """The name that is to be renamed, where it can be. Raises `CantRename`."""
    if not found:
        raise CantRename("there is no name here")
    key = found.key
    declared = list(plant.declarations(key))
    if not declared:
        raise CantRename(f"nothing declares {key.name} here")
    texts = plant.declaring(key.unit)
    if len(texts) > 1:
        raise CantRename(f"{key.unit} is declared by {_listed([it.file.name for it in texts])}; a unit has one text")
    if sum(it.key == key for it in texts[0].unit.declared) > 1:
        raise CantRename(f"{key.name} is declared more than once in {key.unit}; correct this first")
    if where := in_doubt(plant, key):
        raise CantRename(f"{key.name} may be used at {where}")
    return found


def renamed(plant: Plant, found: Found | None, name: str, with_file: bool = False) -> dict[str, Any]:
    """The workspace edit that renames; perhaps `with_file`, the one that was named after the unit. Raises `CantRename`."""
    key = check_target(plant, found).key
    _check_name(name)
    if name.upper() != key.name:
        _check_free(plant, key, name)
    changes: dict[str, list[dict[str, Any]]] = {}
    for text, those in occurrences(plant, key, with_declaration=True):
        changes.setdefault(text.uri, []).extend({"range": text.name_range(it.start, it.end), "newText": name} for it in those)
    for text in plant.declaring(key.unit) if key.space == VARIABLE else ():
        changes[text.uri] += ({"range": text.range(*it), "newText": name} for it in places_of(text.places.encoded, key.name))
    _check_size(plant, key, name, changes)
    return workspace_edit(changes, renamed=_file(plant, key, name) if with_file and key.space == TYPE else None)


def _file(plant: Plant, key: Key, name: str) -> tuple[str, str] | None:
    """The file that is named after a unit, and its new name, both as URIs; None if it has another name, or the new one is taken."""
    text = plant.declaring(key.unit)[0]
    new = text.file.with_stem(name)
    is_named = text.file.stem.upper() == key.name and text.file.stem != name
    is_free = not plant.text(new) and (not new.exists() or new.samefile(text.file))
    return (text.uri, new.as_uri()) if is_named and is_free else None


def _check_size(plant: Plant, key: Key, name: str, changes: dict[str, list[dict[str, Any]]]) -> None:
    """The workbench has to take it in one commit. A type is removed and put, which is one change more."""
    needed = len(changes) + (key.space == TYPE)
    if needed > CHANGES_LIMIT:
        raise CantRename(f"{key.name} stands in {len(changes):,} units. This takes {needed:,} changes, and a commit has at most {CHANGES_LIMIT}")
    for text in plant.texts_of(key):
        grown = len(text.places.encoded) + len(changes.get(text.uri, ())) * (len(name) - len(key.name))
        if grown > TEXT_LIMIT:
            raise CantRename(f"{text.unit.name} would have {grown:,} bytes, and the text of a unit has at most {TEXT_LIMIT:,}")


def _check_name(name: str) -> None:
    its = list(tokens(name))
    if len(its) == 1 and is_name(its[0]) and its[0].words == name:
        return
    if name.upper() in RESERVED:
        raise CantRename(f"{name} is a reserved word")
    if len(name) > NAME_LIMIT and name.isidentifier():
        raise CantRename(f"a name has at most {NAME_LIMIT} characters")
    raise CantRename(f"{name!r} is no name: a name is a letter or _, then letters, digits and _")


def _check_free(plant: Plant, key: Key, name: str) -> None:
    """The new name has to be new in its name space, and nothing may be waiting for it."""
    upper = name.upper()
    if key.space == TYPE and is_elementary(upper):
        raise CantRename(f"{name} is an elementary type")
    _check_members(plant, key, upper)
    new = key._replace(name=upper, unit=upper if key.space == TYPE else key.unit)
    if taken := plant.declaration(new):
        where = "there is a unit" if key.space == TYPE else f"{key.owner} has the {key.space}"
        raise CantRename(f"{where} {taken.words} already")
    for text, _ in plant.uses(new):
        raise CantRename(f"{text.unit.name} uses the {key.space} {upper} already, though nothing declares it")
    if place := captured(plant, key, upper):
        raise CantRename(f"{name} is taken at {place}")


def _check_members(plant: Plant, key: Key, name: str) -> None:
    """Before a point a plug or a socket hides a variable of its name, so neither may come to have the name of the other."""
    its = plant.unit(key.unit)
    if its and its.kind == "FUNCTION_BLOCK" and key.space in (VARIABLE, INSTANCE):
        variable, port = Key(key.unit, VARIABLE, "", name), its.plug_or_socket(name)
        if key.space == VARIABLE and port or its.plug_or_socket(key.name) and (variable in its.first or its.uses_of(variable)):
            raise CantRename(f"{name} is a {VARIABLE if key.space == INSTANCE else 'plug or a socket'} of {key.unit} already")


def _listed(words: list[str]) -> str:
    return f"{', '.join(words[:-1])} and {words[-1]}"
