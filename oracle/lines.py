"""The lines: lines.py [--units N] [--history N] answers the requests of standard input as `bench61499 script` does.

Session(machine).reply(line) is the reply to a line without its LF, in bytes; None for a line that is skipped."""
import argparse
import json
import math
import os
import sys

import oracle
from machine import KINDS, LARGEST_NUMBER, Change, Machine, Refused

LONGEST_LINE = 1_048_576
LONGEST_TEXT = 65_536
MOST_TURNS = 1_000
MOST_JOBS = 64
MOST_UNITS = 16_384
LONGEST_HISTORY = 10_000_000
LONGEST_NAME = 64
DEEPEST = 127


# ---------------------------------------------------------------- requests

def whole(digits):
    """A whole number that is written by digits alone; of others only that they are no such numbers."""
    return int(digits) if digits.isdigit() and len(digits) <= 20 else finite(digits)


def finite(digits):
    """A number that a double holds, neither NaN nor Infinity."""
    if not math.isfinite(float(digits)):
        raise ValueError(digits)
    return float(digits)


def no_deeper(found, levels):
    """Objects and lists nest so deep and no deeper."""
    if isinstance(found, (dict, list)):
        if levels == 0:
            raise ValueError("too deep")
        for it in found.values() if isinstance(found, dict) else found:
            no_deeper(it, levels - 1)


def members(pairs):
    """An object: of a member that occurs twice the last one counts. No string may have one half of a surrogate pair alone."""
    json.dumps(pairs, ensure_ascii=False).encode()
    for _, found in pairs:
        no_deeper(found, DEEPEST - 1)
    return dict(pairs)


def read(line):
    """The object that a line is."""
    try:
        request = json.loads(line.decode(), object_pairs_hook=members, parse_int=whole, parse_float=finite, parse_constant=finite)
    except (ValueError, RecursionError):
        raise Refused("BadRequest") from None
    if not isinstance(request, dict):
        raise Refused("BadRequest")
    return request


def number(request, member, least=0, most=LARGEST_NUMBER):
    found = request.get(member)
    if type(found) is not int or not least <= found <= most:
        raise Refused("BadRequest")
    return found


def string(request, member, among=None):
    found = request.get(member)
    if not isinstance(found, str) or among and found not in among:
        raise Refused("BadRequest")
    return found


def changes(request):
    found = request.get("changes")
    if not isinstance(found, list):
        raise Refused("BadRequest")
    return [change(it) for it in found]


def change(found):
    if not isinstance(found, dict) or ("put" in found) == ("remove" in found):
        raise Refused("BadRequest")
    base = number(found, "base")
    if "remove" in found:
        return Change(string(found, "remove"), base, None)
    return Change(string(found, "put"), base, string(found, "text"))


def named(word):
    """A name as it is compared and printed."""
    if not oracle.WORD.fullmatch(word) or len(word) > LONGEST_NAME:
        raise Refused("BadName")
    return word.upper()


def checked(wanted):
    """A change with its unit's name in upper case."""
    unit = named(wanted.unit)
    if wanted.text is not None and len(wanted.text.encode()) > LONGEST_TEXT:
        raise Refused("TextTooLong")
    return wanted._replace(unit=unit)


# ---------------------------------------------------------------- replies

def spelled(reply):
    return json.dumps(reply, sort_keys=True, separators=(",", ":"), ensure_ascii=False).encode()


class Session:
    """The calls of one run of lines, with the jobs that it took."""
    def __init__(self, machine):
        self.machine, self.jobs = machine, []

    def reply(self, line):
        if not line.strip(b" \t\r"):
            return None
        try:
            request = read(line)
            op = string(request, "op", ["commit", "ask", "work", "take", "deliver", "give_back", "checkpoint"])
            return spelled(getattr(self, op)(request))
        except Refused as refused:
            return spelled(refused.reply)

    def commit(self, request):
        return {"commit": self.machine.commit([checked(it) for it in changes(request)])}

    def ask(self, request):
        kind, unit = string(request, "kind", KINDS), string(request, "unit")
        found = self.machine.ask(kind, named(unit))
        return {"answer": "pending"} if found is None else {kind: found}

    def work(self, request):
        accepted = 0
        try:
            for _ in range(number(request, "turns", 1, MOST_TURNS)):
                job = self.machine.take()
                if job is None:
                    break
                self.machine.deliver(job)
                accepted += 1
        except Refused as refused:
            if refused.reply != {"refused": "HistoryFull"}:
                raise
            return {"accepted": accepted, **refused.reply}
        return {"accepted": accepted}

    def take(self, _):
        if len(self.jobs) == MOST_JOBS:
            raise Refused("TooManyJobs")
        job = self.machine.take()
        if job is None:
            return {"job": 0}
        self.jobs.append(job)
        return {"job": len(self.jobs), "kind": job.kind, "unit": job.unit}

    def deliver(self, request):
        job = number(request, "job")
        if not 1 <= job <= len(self.jobs):
            raise Refused("NoSuchJob")
        self.machine.deliver(self.jobs[job - 1])
        return {"delivered": "accepted"}

    def give_back(self, request):
        kind, unit = string(request, "kind", KINDS), string(request, "unit")
        return {"returned": self.machine.give_back(kind, named(unit))}

    def checkpoint(self, request):
        units = number(request, "units", 1, MOST_UNITS)
        return {"checkpoint": self.machine.checkpoint(units, number(request, "history", 1, LONGEST_HISTORY))}


# ---------------------------------------------------------------- runs

def run(source, sink, session):
    """Answers each line; gives the status of the program and what it prints on standard error."""
    step = "read"
    try:
        while line := source.readline(LONGEST_LINE + 1):
            if len(line.removesuffix(b"\n")) > LONGEST_LINE:
                return 1, "bench61499: line too long\n"
            reply = session.reply(line.removesuffix(b"\n"))
            if reply is not None:
                step = "write"
                sink.write(reply + b"\n")
                sink.flush()
                step = "read"
    except OSError:
        return 1, "bench61499: %s failed\n" % step
    return 0, ""


def within(most):
    """Reads a limit from 1 to most."""
    def limit(word):
        if not (word.isascii() and word.isdigit() and 1 <= int(word) <= most):
            raise ValueError(word)
        return int(word)
    return limit


class Once(argparse.Action):
    """An option that occurs once at most."""
    def __call__(self, reader, limits, value, option=None):
        if hasattr(limits, self.dest):
            reader.error("%s occurs twice" % option)
        setattr(limits, self.dest, value)


def session(words):
    """A session of a new workbench with the limits that these arguments give; ends the program with status 2 if they are wrong."""
    reader = argparse.ArgumentParser(prog="lines.py", add_help=False, allow_abbrev=False, argument_default=argparse.SUPPRESS)
    reader.add_argument("--units", type=within(MOST_UNITS), action=Once)
    reader.add_argument("--history", type=within(LONGEST_HISTORY), action=Once)
    return Session(Machine(**vars(reader.parse_args(words))))


def main():
    status, said = 2, "bench61499: a word of the command line is not UTF-8\n"
    if not any("\udc80" <= c <= "\udcff" for word in sys.argv for c in word):
        status, said = run(sys.stdin.buffer, sys.stdout.buffer, session(sys.argv[1:]))
    os.write(2, said.encode())
    os._exit(status)  # no second flush of an output that failed


if __name__ == "__main__":
    main()
