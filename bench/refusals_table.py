"""The table of what was answered and refused, by the kinds of the family users, in Markdown."""

import users

HEAD = (
    "| Kind | Answered | Refused | Evidence of the rules that failed | Rows of the answers | Other programs |",
    "|---|---:|---:|---|---:|---|",
)

OWN = "polymake"


def by_kind(lines):
    """The lines of each kind, in their order."""
    found = {}
    for line in lines:
        if line.instance.family == users.FAMILY:
            found.setdefault(users.kind_of(line.instance), []).append(line)
    return found


def evidence_text(lines):
    """The rules that failed where no answer was given, each with its evidence."""
    results = [line.results[OWN] for line in lines]
    found = {it for result in results for it in result.evidence}
    cut = [it.fault for it in results if it.fault.startswith(">")]
    told = [f"`{label}` {kind}" for label, kind in sorted(found)]
    return ", ".join([*told, *([f"{len(cut)} cut off, {cut[0]}"] if cut else [])])


def rows_text(lines):
    """How many rows the answers have, of whatever program; none of linear programs."""
    counts = [it.answers for it in lines if it.answers and it.instance.asked == "hull"]
    least, most = (min(counts), max(counts)) if counts else ("", "")
    return f"{least}" if least == most else f"{least} to {most}"


def others_text(lines):
    """Which other programs answered all, and whether all answers are one."""
    names = [it for it in lines[0].results if it != OWN]
    whole = [it for it in names if all(line.results[it].answer is not None for line in lines)]
    asked = [it for it in names if any(line.results[it].answer for line in lines)]
    part = [it for it in asked if it not in whole]
    told = ", ".join([*whole, *(f"{it} in part" for it in part)]) or "none"
    differ = any(line.agree == "NO" for line in lines)
    return f"{told}; answers differ" if differ else told


def row(kind, lines):
    answered = sum(it.results[OWN].answer is not None for it in lines)
    refused = sum(bool(it.results[OWN].fault) for it in lines)
    cells = (kind, answered, refused, evidence_text(lines), rows_text(lines), others_text(lines))
    return f"| {' | '.join(map(str, cells))} |"


def table(lines):
    """The whole table, with its counts at the end."""
    kinds = by_kind(lines)
    rows = [row(kind, found) for kind, found in kinds.items()]
    every = [it for found in kinds.values() for it in found]
    answered = sum(it.results[OWN].answer is not None for it in every)
    counts = f"{answered} answered, {len(every) - answered} not"
    end = f"{len(every)} instances of {len(kinds)} kinds: {counts}."
    return "\n".join([*HEAD, *rows, "", end, ""])
