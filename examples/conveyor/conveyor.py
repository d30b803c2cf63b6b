#!/usr/bin/env python3
"""Commits the plant of this folder, breaks each rule of the language once, and shows the fault with the words at its place.

    python3 examples/conveyor/conveyor.py              prints a table; runs BENCH61499_PROGRAM script, or the one built here
    python3 examples/conveyor/conveyor.py --requests   prints the request lines alone

Ends with status 1 where a fault is not the one that breaks.json expects.
"""
import json
import sys

from plant import HERE, TEXTS, WORK, ask, commit, replies_to


def requests_for(breaks):
    """The whole plant, the faults of each unit, and then each break with the unit's faults, repaired at once."""
    yield from (commit(0, TEXTS), WORK, *map(ask, TEXTS))
    revisions, commits = dict.fromkeys(TEXTS, 1), 1
    for it in breaks:
        unit, text = it["unit"], TEXTS[it["unit"]]
        assert text.count(it["old"]) == 1, it
        broken = text.replace(it["old"], it["new"])
        yield from (commit(revisions[unit], {unit: broken}), WORK, ask(unit), commit(commits + 1, {unit: text}))
        commits += 2
        revisions[unit] = commits


def words_at(text, faults):
    return [(code, text.encode()[start:end].decode()) for code, start, end in faults]


def main():
    breaks = json.loads((HERE / "breaks.json").read_text())
    replies = replies_to(requests_for(breaks))
    fine = all(reply == {"faults": []} for reply in replies[2 : 2 + len(TEXTS)])
    print(f"{len(TEXTS)} units, {'no faults' if fine else 'FAULTS'}")
    for at, it in enumerate(breaks):
        text = TEXTS[it["unit"]].replace(it["old"], it["new"])
        found = words_at(text, replies[2 + len(TEXTS) + 4 * at + 2]["faults"])
        expected = [(it["code"], words) for words in it["at"]]
        fine = fine and found == expected
        shown = ", ".join(f"{code} at `{words}`" for code, words in found)
        print(f"{it['unit']:9} `{it['new']}`: {shown}{'' if found == expected else '   EXPECTED ' + str(expected)}")
    return 0 if fine else 1


sys.exit(main())
