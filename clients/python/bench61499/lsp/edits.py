"""Edits of texts and files, as an editor makes them."""
from __future__ import annotations

from pathlib import Path
from typing import Any

Edits = list[dict[str, Any]]
_AT_BEGIN = {"start": {"line": 0, "character": 0}, "end": {"line": 0, "character": 0}}


def workspace_edit(changes: dict[str, Edits], created: tuple[Path, str] | None = None, renamed: tuple[str, str] | None = None) -> dict[str, Any]:
    """The edit of texts, by their URIs, and perhaps of files: one with a text that is created before, and one that gets another URI afterwards.

    Without such files it has the form that each editor knows.
    """
    if not created and not renamed:
        return {"changes": changes}
    its: Edits = []
    if created:
        uri = created[0].as_uri()
        its += [{"kind": "create", "uri": uri, "options": {"ignoreIfExists": True}}, _of_text(uri, [{"range": _AT_BEGIN, "newText": created[1]}])]
    its += (_of_text(uri, edits) for uri, edits in changes.items())
    if renamed:
        its.append({"kind": "rename", "oldUri": renamed[0], "newUri": renamed[1], "options": {"ignoreIfExists": True}})
    return {"documentChanges": its}


def changes_of(edit: dict[str, Any]) -> dict[str, Edits]:
    """The edits of texts in an edit, by their URIs."""
    its = (it for it in edit.get("documentChanges", ()) if "edits" in it)
    return edit["changes"] if "changes" in edit else {it["textDocument"]["uri"]: it["edits"] for it in its}


def _of_text(uri: str, edits: Edits) -> dict[str, Any]:
    return {"textDocument": {"uri": uri, "version": None}, "edits": edits}


def file_operations(capabilities: Any) -> frozenset[str]:
    """What an editor has said that it can do with files in an edit: create, rename or delete them.

    Neovim says so and does not say that it takes edits of that form: it creates files by them, and skips or saves what it renames.
    """
    edit = capabilities
    for word in ("workspace", "workspaceEdit"):
        edit = edit.get(word) if isinstance(edit, dict) else None
    its = edit.get("resourceOperations") if isinstance(edit, dict) else None
    named = frozenset(it for it in its if isinstance(it, str)) if isinstance(its, list) else frozenset()
    return named if isinstance(edit, dict) and edit.get("documentChanges") is True else named & {"create"}
