"""The plant of this folder, requests about it, and the replies of the workbench that BENCH61499_PROGRAM names, or of the one built here."""
import json
import subprocess
import sys
from pathlib import Path

HERE = Path(__file__).resolve().parent
sys.path.insert(0, str(HERE.parents[1] / "clients/python"))

from bench61499 import NoWorkbench, find_program

TEXTS = {file.stem: file.read_text() for file in sorted(HERE.glob("*.fb"))}
WORK = {"op": "work", "turns": 100}


def commit(base, texts):
    """Puts these texts, all over this revision."""
    return {"op": "commit", "changes": [{"put": unit, "base": base, "text": text} for unit, text in texts.items()]}


def ask(unit, kind="faults"):
    return {"op": "ask", "kind": kind, "unit": unit}


def replies_to(requests):
    """The replies to these requests. With --requests it prints them alone and ends the program; so does a workbench that fails."""
    lines = [json.dumps(it) for it in requests]
    if "--requests" in sys.argv[1:]:
        print("\n".join(lines))
        sys.exit()
    try:
        ran = subprocess.run([find_program(), "script"], input="\n".join(lines), stdout=subprocess.PIPE, text=True)
    except (NoWorkbench, OSError) as error:
        sys.exit(str(error))
    replies = [json.loads(line) for line in ran.stdout.splitlines()]
    if len(replies) < len(lines):
        sys.exit(ran.returncode or 1)
    return replies
