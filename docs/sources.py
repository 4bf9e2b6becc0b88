"""Reads the crates: their layers, their public items with comments and clauses, and the definitions of specs/."""

import functools
import pathlib
import re

TOP = pathlib.Path(__file__).resolve().parent.parent
CRATES = TOP / "crates"
ITEM = re.compile(r"pub (?:const )?(fn|struct|enum|trait|const|type) (\w+)")
METHOD = re.compile(r"    (?:pub )?fn (\w+)")
CLAUSE = re.compile(r"\s*ensures (\w+) \{")
DEFINES = re.compile(r"\s*(?:pub )?(?:abbrev|unfoldable|record|data)(?: pub)? (\S+)(?= |$)")


class NotFound(Exception):
    """What is named, and not there."""


class Item:
    """A public item: its kind, name, file, comment, clauses, and methods."""

    def __init__(self, kind, name, file, comment, head):
        self.kind = kind
        self.name = name
        self.file = file
        self.comment = comment
        self.clauses = [it[1] for it in map(CLAUSE.match, head) if it]
        self.head = "\n".join(head)
        self.methods = []


# Crates.


@functools.cache
def named_crates():
    """The crates of crates.txt, each with those of the project that it names."""
    lines = (TOP / "crates.txt").read_text().splitlines()
    return {name: {it for it in below.split() if it.startswith("pm_")} for name, _, below in (it.partition(":") for it in lines)}


@functools.cache
def all_below(crate):
    """All crates on which a crate stands."""
    named = named_crates()[crate]
    return frozenset(named.union(*map(all_below, named)))


def stands_on(crate):
    """The crates that a crate names and that no other crate that it names stands on."""
    named = named_crates()[crate]
    return sorted(it for it in named if not any(it in all_below(other) for other in named))


def layer_of(crate):
    return 1 + max(map(layer_of, named_crates()[crate]), default=0)


def source(crate):
    """The file of a crate with which the compiler begins."""
    lib = CRATES / crate / "src/lib.rt"
    return lib if lib.exists() else lib.with_name("main.rt")


# Comments.


def in_paragraphs(lines):
    """The lines of a comment as paragraphs, each one line."""
    text = "\n".join(it.strip() for it in lines)
    return [" ".join(it.split()) for it in text.split("\n\n") if it.strip()]


def first_comment(file, sign):
    """The paragraphs of the comment with which a file begins."""
    lines = []
    for line in file.read_text().splitlines():
        if not line.startswith(sign):
            break
        lines.append(line[len(sign):])
    return in_paragraphs(lines)


def comment_above(lines, at, sign):
    """The paragraphs of the comment above a line, over attributes, up to the head of a part of the file."""
    found = []
    while at > 0 and re.match(rf"\s*(?!-- --)({sign}|#\[)", lines[at - 1]):
        at -= 1
        if lines[at].strip().startswith(sign):
            found.insert(0, lines[at].strip()[len(sign):])
    return in_paragraphs(found)


# Items of the code.


def head_of(lines, at):
    """The lines of a function up to its body."""
    end = at
    while True:
        line = lines[end].strip()
        is_clause = line.startswith(("ensures", "requires"))
        if line in ("{", "{}") or line.endswith(";") or (line.endswith("{") and not is_clause):
            return lines[at : end + 1]
        end += 1


def block_end(lines, at):
    """The line that closes a block which begins at the left."""
    if lines[at].endswith(("}", ";")):
        return at
    while lines[at] != "}":
        at += 1
    return at


def methods(lines, at, file, is_trait):
    """The public functions of a block."""
    for i in range(at, block_end(lines, at)):
        found = METHOD.match(lines[i])
        if found and (is_trait or "pub fn" in lines[i]):
            yield Item("fn", found[1], file, comment_above(lines, i, "///"), head_of(lines, i))


@functools.cache
def items_of(file):
    """The items of a file that it shows to others, by name, without the methods of other blocks."""
    lines = file.read_text().splitlines()
    found = {}
    for i, line in enumerate(lines):
        match = ITEM.match(line)
        if match:
            head = head_of(lines, i) if match[1] == "fn" else [line]
            item = Item(match[1], match[2], file, comment_above(lines, i, "///"), head)
            if match[1] == "trait":
                item.methods += methods(lines, i, file, True)
            found[item.name] = item
    return found


@functools.cache
def methods_of(crate):
    """The public functions of the types of a crate, by type, in the order of the files."""
    found = {}
    for file in sorted((CRATES / crate / "src").glob("*.rt")):
        lines = file.read_text().splitlines()
        for i, line in enumerate(lines):
            match = re.match(r"impl(?:<[^>]*>)? (\w+)(?:<[^>]*>)? \{$", line)
            if match:
                found.setdefault(match[1], []).extend(methods(lines, i, file, False))
    return found


def uses_of(crate):
    """What the first file of a crate hands out: each path and its names."""
    text = source(crate).read_text()
    for path, names in re.findall(r"^pub use ([\w:]+?)(?:::\{([^}]*)\})?;", text, re.M):
        if names:
            yield path, [it.strip() for it in names.split(",") if it.strip()]
        else:
            yield path.rpartition("::")[0], [path.rpartition("::")[2]]


def found_item(crate, path, name):
    """An item of a crate by the path that its first file names."""
    places = [CRATES / crate / "src" / f"{path.split('::')[0]}.rt", *sorted((CRATES / crate / "src").glob("*.rt"))]
    for file in places:
        if file.exists() and name in items_of(file):
            return items_of(file)[name]
    raise NotFound(f"{crate} has no {path}::{name}")


def with_methods(crate, item):
    if item.kind in ("struct", "enum"):
        item.methods = methods_of(crate).get(item.name, [])
    return item


def public_items(crate):
    """What a crate hands out, in the order of its first file: what it names, its open modules, and its own items."""
    file = source(crate)
    found = [found_item(crate, path, name) for path, names in uses_of(crate) if not path.startswith("pm_") for name in names]
    for module in re.findall(r"^pub mod (\w+);", file.read_text(), re.M):
        found += items_of(file.with_name(f"{module}.rt")).values()
    found += items_of(file).values()
    return [with_methods(crate, it) for it in dict.fromkeys(found)]


def handed_on(crate):
    """What a crate hands on from crates below: each name with the crate."""
    return [(name, path.split("::")[0]) for path, names in uses_of(crate) if path.startswith("pm_") for name in names]


def examples_of(crate):
    """The worked examples of a crate, in the order of its files, with their comments."""
    file = source(crate)
    for file in [file, *(it for it in sorted(file.parent.glob("*.rt")) if it != file)]:
        lines = file.read_text().splitlines()
        for i, line in enumerate(lines):
            found = re.match(r"(?:pub(?:\(crate\))? )?fn (example_\w+)", line)
            if found:
                yield Item("fn", found[1], file, comment_above(lines, i, "///"), head_of(lines, i))


# Definitions.


@functools.cache
def definitions(file):
    """The definitions of a file of specs/: name, comment, and the comments of its lines."""
    lines = file.read_text().splitlines()
    found = {}
    for at, line in enumerate(lines):
        match = DEFINES.match(line)
        if match:
            end = at + 1
            while end < len(lines) and lines[end].strip() and not lines[end].startswith("--"):
                end += 1
            found[match[1]] = (" ".join(comment_above(lines, at, "-- ")), line_comments(lines[at + 1 : end]))
    return found


def line_comments(lines):
    """The comments within a definition, those of neighbouring lines as one."""
    found, is_open = [], False
    for line in lines:
        is_comment = line.strip().startswith("-- ")
        if is_comment and is_open:
            found[-1] += " " + line.strip()[3:]
        elif is_comment:
            found.append(line.strip()[3:])
        is_open = is_comment
    return found


def definition(path, name):
    """A definition's comment, and the comments of its lines; the path is from its crate on."""
    file = CRATES / path
    if not file.exists() or name not in definitions(file):
        raise NotFound(f"{path} has no {name}")
    return definitions(file)[name]


def cited_definitions(item):
    """The definitions that the clauses of a function name, each with its file from its crate on, in their order."""
    places = {}
    for crate, file, names in re.findall(r"^\s*ghost use Rattle\.(pm_\w+)\.specs\.(\w+)\.\{([^}]*)\}", item.file.read_text(), re.M):
        for name in names.split(","):
            places[name.strip()] = f"{crate}/specs/{file}.antt"
    clauses = item.head.partition("ensures")[2]
    return [(places[name], name) for name in dict.fromkeys(re.findall(r"\w+", clauses)) if name in places]


@functools.cache
def cited_proofs():
    """The files of proofs/ that another crate cites, by crate."""
    found = {}
    for file in sorted(CRATES.glob("*/proofs/**/*.antt")):
        user = file.relative_to(CRATES).parts[0]
        for crate, name in re.findall(r"^use Rattle\.(pm_\w+)\.proofs\.(\w+)", file.read_text(), re.M):
            if crate != user:
                found.setdefault(crate, set()).add(CRATES / crate / f"proofs/{name}.antt")
    return {crate: sorted(files) for crate, files in found.items()}
