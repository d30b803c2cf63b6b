"""What conversations reach: things(line, reply) gives names of what a reply shows; NAMED are those that the documents name."""
import json
from contextlib import suppress

import lines
import oracle
from machine import Refused

REFUSALS = {
    "line": ["BadRequest"],
    "commit": ["BadRequest", "BadName", "TextTooLong", "HistoryFull", "NoChange", "TooManyChanges", "SameUnitTwice", "StaleBase", "NoSuchUnit",
               "TooManyUnits"],
    "ask": ["BadRequest", "BadName", "HistoryFull", "NoSuchKey"],
    "work": ["BadRequest", "HistoryFull"],
    "take": ["TooManyJobs", "HistoryFull"],
    "deliver": ["BadRequest", "NoSuchJob", "HistoryFull", "NoSuchKey", "NotPending", "Stale"],
    "give_back": ["BadRequest", "BadName", "HistoryFull"],
    "checkpoint": ["BadRequest", "UnitsOver"],
}
REPLIES = ["line: skipped", "commit: done", "ask: pending", "ask: value", "work: accepted", "take: job", "take: nothing", "deliver: accepted",
           "give_back: true", "give_back: false", "checkpoint: done"]
NETS = ["net: blocked", "net: recursive", "net: too_large", "net: flat", "net: block", "net: link event", "net: link data", "net: border event",
        "net: border data", "net: border adapter"]
PLANS = ["plan: stopped blocked", "plan: stopped recursive", "plan: stopped too_large", "plan: faulty UNMAPPED", "plan: faulty NO_SUCH_BLOCK",
         "plan: commands", "plan: cut event", "plan: cut data", "plan: CREATE FB", "plan: WRITE", "plan: CREATE CONNECTION", "plan: START"]
ENDS = ["end: status 0", "end: status 1", "end: status 2", "end: line too long"]
NAMED = (REPLIES + ["%s: %s" % (op, name) for op, names in REFUSALS.items() for name in names]
         + ["fault: none"] + ["fault: " + code for code in oracle.CODES[1:]] + NETS + PLANS + ENDS)


def things(line, reply):
    if reply is None:
        return {"line: skipped"}
    found = json.loads(reply)
    if "faults" in found:
        return {"ask: value"} | ({"fault: " + code for code, _, _ in found["faults"]} or {"fault: none"})
    if "net" in found:
        return {"ask: value"} | {"net: " + it for it in of_net(found["net"])}
    if "deploy" in found:
        return {"ask: value"} | {"plan: " + it for it in of_plan(found["deploy"])}
    if "refused" in found:
        return {"%s: %s" % (op_of(line), found["refused"])}
    return {of_call(found)}


def op_of(line):
    with suppress(Refused):
        op = lines.read(line).get("op")
        return op if isinstance(op, str) and op in REFUSALS else "line"
    return "line"


def of_call(found):
    if "job" in found:
        return "take: job" if found["job"] else "take: nothing"
    (member, it), = found.items()
    words = {"commit": "commit: done", "answer": "ask: pending", "accepted": "work: accepted", "delivered": "deliver: accepted",
             "checkpoint": "checkpoint: done", "returned": "give_back: %s" % str(it).lower()}
    return words[member]


def of_net(net):
    if isinstance(net, str):
        return {net}
    if "blocks" not in net:
        return set(net)
    return ({"flat"} | {"block" for _ in net["blocks"]} | {"link " + it[0] for it in net["links"]} | {"border " + it[0] for it in net["borders"]})


def of_plan(plan):
    if "stopped" in plan:
        return {"stopped " + it for it in of_net(plan["stopped"])}
    if "faulty" in plan:
        return {"faulty " + it[0] for it in plan["faulty"]}
    commands = [command for _, some in plan["resources"] for command in some]
    return ({"commands"} | {"cut " + it[0] for it in plan["cuts"]}
            | {it[6:] for it in NETS + PLANS if it.startswith("plan: ") and any(command.startswith(it[6:] + " ") for command in commands)})


def table(counts):
    """One line for each name, those of the documents first."""
    others = sorted(set(counts) - set(NAMED))
    return "\n".join("%9s  %s" % (counts[name] or "never", name) for name in NAMED + others)
