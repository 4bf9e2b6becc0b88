"""Why and where a book is refused: by the checker, or by the program itself, which is given longer and longer parts."""

import argparse
import difflib
import os
import re
import subprocess
import sys
import tempfile
from pathlib import Path

from calls import TOP
from properties import PROGRAM_PROPERTIES, TYPES, Kind, by_name
from refusals import shown

# What check-book says of a fault, the tokens of a book, and a rule by its client.
FAULT = re.compile(r"(\w+) at line (\d+), column (\d+)")
TOKEN = re.compile(r"[A-Za-z0-9_.]+|\S")
RULE = re.compile(r"^\S+ : (rule .*? \{ (\S+) \}) weight [0-9.]+;( precondition : .*;)?$", re.M)

STATEMENT = re.compile(rb"#[^\n]*|;")
REFUSED = 7


def ends_of(book):
    """Where the statements of a book end, each behind its semicolon."""
    return [it.end() for it in STATEMENT.finditer(book) if it[0] == b";"]


def is_taken(program, book):
    with tempfile.TemporaryDirectory() as folder:
        (Path(folder) / "book").write_bytes(book)
        words = [program, "--rules", "book"]
        how = {"stdin": subprocess.DEVNULL, "stdout": subprocess.DEVNULL, "cwd": folder}
        return subprocess.run(words, **how).returncode != REFUSED


def first_refused(program, book, ends):
    """How many statements are taken: a part with a fault stays one, however it goes on."""
    low, high = 0, len(ends)
    while low < high:
        middle = (low + high + 1) // 2
        if is_taken(program, book[: ends[middle - 1]]):
            low = middle
        else:
            high = middle - 1
    return low


def known_properties():
    """The names that a book may have: those of polytopes, cones and fans, and of linear programs."""
    names = {name: it.kind for type_name in TYPES for name, it in by_name(type_name).items()}
    return names | {f"LP.{name}": kind for name, (kind, _) in PROGRAM_PROPERTIES.items()}


def meant(word, known):
    """A hint at the known word that is most like this one."""
    near = difflib.get_close_matches(word, known, 1, 0.5)
    return f": is {near[0]} meant?" if near else ""


def signatures():
    """What each client finds from what, as a rule says it, with the conditions that it asks for."""
    found = {}
    for it in RULE.finditer((TOP / "wide.rules").read_text()):
        found.setdefault(it[2], f"LABEL : {it[1]} weight 1;{it[3] or ''}")
    return found


def of_syntax(token, before):
    if not token:
        return "the text ends too soon: each statement ends with ';'"
    kind = known_properties().get(token)
    if kind is not None and kind is not Kind.TRUTH and re.search(r"precondition[^;]*$", before):
        return f"a precondition names truth values, as BOUNDED, and {token} is none"
    return f"{shown(token)} cannot stand there, in a statement LABEL : rule TARGETS : SOURCES {{ CLIENT }} weight N;"


def of_signature(_, before):
    """The rule that ends there, beside what its client finds."""
    client = re.findall(r"\{\s*([A-Za-z0-9_.]+)\s*\}", before)
    known = signatures().get(client[-1]) if client else None
    if known is None:
        return "the rule does not agree with what its client finds from what"
    return f"the client {client[-1]} finds other targets, or from other sources or conditions: {known}"


# What each fault means, by the token that stands there and the text before it.
MEANINGS = {
    "Syntax": of_syntax,
    "UnknownProperty": lambda token, _: f"no property is called {shown(token)}{meant(token, known_properties())}",
    "UnknownClient": lambda token, _: f"no client is called {shown(token)}{meant(token, signatures())}",
    "SignatureMismatch": of_signature,
    "SameLabel": lambda token, _: f"a rule before has the label {shown(token)}",
    "WeightRange": lambda *_: "a weight is N or CLASS.N, each at most 1,000,000, and not both 0",
    "TooManyRules": lambda *_: "a book has at most 256 rules",
}


def fault_of(checker, name, book):
    """The fault that the checker tells of a book, in one line, or None where it tells none."""
    with tempfile.TemporaryDirectory() as folder:
        (Path(folder) / "book").write_bytes(book)
        how = {"stdin": subprocess.DEVNULL, "capture_output": True, "cwd": folder}
        said = subprocess.run([checker, "check-book", "book"], **how).stdout.decode("utf-8", "replace")
    found = FAULT.fullmatch(said.rstrip("\n"))
    if not found or found[1] not in MEANINGS:
        return None
    lines = book.decode("utf-8").split("\n")
    line, column = int(found[2]), int(found[3])
    above = "\n".join([*lines[: line - 1], ""])
    text = lines[line - 1].encode()
    before, rest = above + text[: column - 1].decode("utf-8", "ignore"), text[column - 1 :].decode("utf-8", "ignore")
    token = TOKEN.match(rest)
    meaning = MEANINGS[found[1]](token[0] if token else "", before)
    return f"the book {shown(name)} is refused: {found[0]}: {meaning}"


def told(program, name, book, checker=None):
    """What is wrong with a book that is refused, in one line."""
    try:
        book.decode("utf-8")
    except UnicodeDecodeError as fault:
        line = book.count(b"\n", 0, fault.start) + 1
        return f"the book {shown(name)} has bytes in line {line} that are no UTF-8"
    if checker and os.access(checker, os.X_OK) and (fault := fault_of(checker, name, book)):
        return fault
    ends = ends_of(book)
    count = first_refused(program, book, ends)
    begin = ends[count - 1] if count else 0
    end = ends[count] if count < len(ends) else len(book)
    at = begin + len(re.match(rb"(\s|#[^\n]*\n?)*", book[begin:end])[0])
    line = book.count(b"\n", 0, at) + 1
    column = at - book.rfind(b"\n", 0, at)
    statement = " ".join(book[at:end].decode("utf-8").split())[:100]
    where = f"in the statement {shown(statement, 100)} at line {line}, column {column}"
    if not statement:
        where = "at its end"
    good = "the command 'rules' prints one that is not refused"
    return f"the book {shown(name)} is refused: its first fault is {where}; {good}"


def main():
    words = argparse.ArgumentParser(prog="bridge/book-fault", description=__doc__)
    words.add_argument("--program", required=True, metavar="PATH", help="the built program")
    words.add_argument("--checker", metavar="PATH", help="the built checker, which tells the fault itself")
    words.add_argument("book", metavar="FILE", help="the book")
    options = words.parse_args()
    text = told(options.program, options.book, Path(options.book).read_bytes(), options.checker)
    print(f"polymake: {text}", file=sys.stderr)
    return 0
