"""Writes the reply to `explain` among the replies to a script, as check-plan reads it."""

import sys

import command
from plans import plans_in
from refusals import Refusal


def words():
    told = command.parser("plan-of", "Writes the reply to `explain` among replies, as check-plan reads it.")
    told.add_argument("--number", metavar="N", type=int, default=None, help="the plan of this number, from 1, where there are several")
    command.add_file(told, needed=False)
    return told


def plan_of(options, text, _):
    """The only plan, or that of the number."""
    found = plans_in(text)
    if not found:
        raise Refusal(None, "no plan is among these lines: 'explain NAME PROP' prints one")
    if options.number is None and len(found) > 1:
        lines = ", ".join(str(it) for it, _ in found)
        raise Refusal(None, f"{len(found)} plans, at the lines {lines}: --number says which")
    number = options.number or 1
    if not 1 <= number <= len(found):
        raise Refusal(None, f"there is no plan of the number {number}: there are {len(found)}")
    return command.joined(found[number - 1][1])


def main(arguments=None):
    return command.run(words(), plan_of, arguments)
