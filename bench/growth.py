"""How the times of programs grow with the size of an instance, series by series."""

import math


def series_of(line):
    """The name of an instance's series: its own without the size."""
    return line.instance.name.rsplit(" ", 1)[0]


def in_series(lines):
    """The lines of each series, by growing size."""
    found = {}
    for it in lines:
        if it.instance.size:
            found.setdefault(series_of(it), []).append(it)
    for it in found.values():
        it.sort(key=lambda line: line.instance.size)
    return found


def start_of(name, lines):
    """What starting costs the program: its least cost in the run."""
    costs = [it.results[name].cost for it in lines if it.results[name].cost]
    return min(costs, default=0.0)


def exponent(name, lines, start):
    """The e with which the program's cost grows as size^e between the last two sizes that it answered; the cost of
    starting is taken off. None where the first of these costs less than starting once more.
    """
    last = [it for it in lines if it.results[name].cost and not it.results[name].fault][-2:]
    if len(last) < 2:
        return None
    first, second = (it.results[name].cost - start for it in last)
    if first < start or second <= 0:
        return None
    return math.log(second / first) / math.log(last[1].instance.size / last[0].instance.size)


def table(lines):
    """A table of Markdown: a line a series, a column a program, with the exponents."""
    names = list(lines[0].results)
    rows = [f"| series | sizes | {' | '.join(names)} |", "|---|---|" + "---:|" * len(names)]
    starts = {it: start_of(it, lines) for it in names}
    for series, kept in in_series(lines).items():
        told = [exponent(it, kept, starts[it]) for it in names]
        cells = ["" if it is None else f"{it:.1f}" for it in told]
        sizes = ", ".join(str(it.instance.size) for it in kept)
        rows.append(f"| {series} | {sizes} | {' | '.join(cells)} |")
    return "\n".join(rows)
