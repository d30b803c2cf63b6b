#!/usr/bin/env python3
"""Asks for the commands of each resource of the plant, moves one block to the other controller, and asks again.

    python3 examples/conveyor/moving.py              prints networks and plans; runs BENCH61499_PROGRAM script, or the one built here
    python3 examples/conveyor/moving.py --requests   prints the request lines alone
"""
from plant import TEXTS, WORK, ask, commit, replies_to

MAPPED = "    LINE.SECOND ON SOUTH.MOTION;\n"
MOVED = MAPPED + "    LINE.SECOND.LIFT ON NORTH.MOTION;\n"


def show_net(unit, net):
    print(f"the network of {unit}")
    for path, type_name in net["blocks"]:
        print(f"    block {path}, of {type_name}")
    for kind in ("links", "borders"):
        for sort, first, second in net[kind]:
            print(f"    {sort} {kind[:-1]} {first} - {second}")


def show_plan(about, plan):
    print(about)
    for sort, source, destination in plan["cuts"]:
        print(f"    cut: {sort} {source} - {destination}")
    for resource, commands in plan["resources"]:
        print(f"    {resource}")
        for command in commands:
            print(f"        {command}")


def main():
    assert TEXTS["PLANT"].count(MAPPED) == 1
    moved = commit(1, {"PLANT": TEXTS["PLANT"].replace(MAPPED, MOVED)})
    plan = ask("PLANT", "deploy")
    replies = replies_to([commit(0, TEXTS), WORK, ask("STATION", "net"), ask("PLANT", "net"), plan, moved, WORK, plan])
    show_net("STATION", replies[2]["net"])
    show_net("PLANT", replies[3]["net"])
    show_plan("the plan", replies[4]["deploy"])
    show_plan("the plan with the second lifter on the other controller", replies[7]["deploy"])


main()
