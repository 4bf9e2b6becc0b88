"""Runs a program and measures it: processor time, or the instructions that valgrind counts."""

import os
import re
import resource
import shutil
import signal
import tempfile
from pathlib import Path


class Cut(Exception):
    """The run was cut off at its limit."""


def spawn(words, stdin, stdout):
    """Begins a process without a copy of this one, so that its times are its own."""
    null = os.open(os.devnull, os.O_RDWR)
    source = os.open(stdin, os.O_RDONLY) if stdin else null
    target = os.open(stdout, os.O_WRONLY | os.O_CREAT | os.O_TRUNC, 0o644)
    streams = [(os.POSIX_SPAWN_DUP2, at, to) for at, to in ((source, 0), (target, 1), (null, 2))]
    try:
        return os.posix_spawnp(words[0], words, os.environ, file_actions=streams)
    finally:
        for it in {null, source, target}:
            os.close(it)


def run(call, limit):
    """The processor time, user and system, of one run in seconds, cut off at the limit."""
    call.answer.unlink(missing_ok=True)
    pid = spawn(call.words, call.stdin, call.stdout)
    signal.signal(signal.SIGALRM, lambda *_: os.kill(pid, signal.SIGKILL))
    signal.alarm(20 * limit)
    try:
        resource.prlimit(pid, resource.RLIMIT_CPU, (limit, limit))
    except ProcessLookupError:
        pass
    _, status, used = os.wait4(pid, 0)
    signal.alarm(0)
    if os.WIFSIGNALED(status) and os.WTERMSIG(status) == signal.SIGKILL:
        raise Cut
    return used.ru_utime + used.ru_stime


def instructions(call, limit, folder, keep=None):
    """How many instructions one run takes, by callgrind; its file is kept where a name is given."""
    wrote = folder / "callgrind.out"
    words = ["valgrind", "--tool=callgrind", f"--callgrind-out-file={wrote}", *call.words]
    run(call.__class__(words, call.stdin, call.stdout, call.answer), 10 * limit)
    if keep:
        shutil.copy(wrote, keep)
    found = re.search(r"^(?:totals|summary): (\d+)", wrote.read_text(errors="replace"), re.M)
    return int(found[1]) if found else None


def load():
    """The machine's load over the last minute."""
    return os.getloadavg()[0]


def room():
    return tempfile.TemporaryDirectory(prefix="bench-")


def text_of(path: Path):
    return path.read_text(errors="replace") if path.exists() else ""


def by_function(kept, count):
    """The functions of callgrind's file with most instructions of their own."""
    costs, name, skips, names = {}, None, False, {}
    for line in kept.read_text(errors="replace").splitlines():
        found = re.match(r"(c?fn)=\((\d+)\)(?: (.*))?", line)
        if found:
            if found[3]:
                names[found[2]] = found[3]
            if found[1] == "fn":
                name = found[2]
        elif line.startswith("calls="):
            skips = True
        elif re.match(r"[+*\-\d]", line):
            if not skips and name:
                parts = line.split()
                costs[name] = costs.get(name, 0) + (int(parts[1]) if len(parts) > 1 else 0)
            skips = False
    total = sum(costs.values()) or 1
    best = sorted(costs.items(), key=lambda it: -it[1])[:count]
    line = lambda at, it: f"  {it / 1000:12.1f}k {100 * it / total:5.1f}%  {names.get(at, at)}\n"
    return "".join(line(at, it) for at, it in best)
