"""The members of a JSON object, and the rows of a list, with the lines on which they stand."""

import json
import re
from dataclasses import dataclass

from json_tokens import meant_at
from refusals import Fault, Refusal, told_name
from values import READER

WHITE = re.compile(r"[ \t\r\n]*")


@dataclass(frozen=True)
class Member:
    """A member of an object: its key and value, and where they begin."""

    key: str
    value: object
    line: int
    at: int


def behind_white(text, at):
    return WHITE.match(text, at).end()


def line_of(text, at):
    return text.count("\n", 0, at) + 1


def value_at(text, at):
    """The value that begins there, and where it ends."""
    try:
        return READER.raw_decode(text, at)
    except json.JSONDecodeError as fault:
        told, _ = meant_at(text, fault.pos)
        raise Refusal(fault.lineno, f"no JSON: {told or fault.msg}") from None
    except RecursionError:
        raise Refusal(line_of(text, at), "JSON that is nested too deeply") from None
    except Fault as fault:
        raise Refusal(line_of(text, at), fault.text) from None


def expect(text, at, marks, what):
    """The mark that stands behind white space, and where it ends."""
    at = behind_white(text, at)
    if at >= len(text) or text[at] not in marks:
        told, _ = meant_at(text, at)
        raise Refusal(line_of(text, at), f"no JSON: {told or f'{what} is expected'}")
    return text[at], at + 1


def member_at(text, at):
    """A key, a colon and a value, and where they end."""
    begin = behind_white(text, at)
    key, at = value_at(text, begin)
    if not isinstance(key, str):
        raise Refusal(line_of(text, begin), "no JSON: a key is expected")
    _, at = expect(text, at, ":", "a colon")
    at = behind_white(text, at)
    value, end = value_at(text, at)
    return Member(key, value, line_of(text, begin), at), end


def members(text):
    """The members of the one object that the text is, each key once."""
    found = {}
    _, at = expect(text, 0, "{", "an object")
    at = behind_white(text, at)
    mark = "}" if text[at : at + 1] == "}" else ","
    at += mark == "}"
    while mark == ",":
        member, at = member_at(text, at)
        if member.key in found:
            raise Refusal(member.line, f"the key {told_name(member.key)} stands twice")
        found[member.key] = member
        mark, at = expect(text, at, ",}", "a comma or the end of the object")
    if behind_white(text, at) != len(text):
        raise Refusal(line_of(text, behind_white(text, at)), "something stands behind the object")
    return found


def line_of_row(text, member, row):
    """The line of a row of a list; that of the member where it is no list or no row is meant."""
    if row is None or not isinstance(member.value, list):
        return member.line
    at = member.at + 1
    for _ in range(row):
        _, at = value_at(text, behind_white(text, at))
        at = behind_white(text, at) + 1
    return line_of(text, behind_white(text, at))
