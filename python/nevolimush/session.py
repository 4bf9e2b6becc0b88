"""A session: the program as a process, and which objects it holds."""

import os
import shutil
import tempfile
import threading
import weakref
from collections import OrderedDict, deque
from contextlib import contextmanager
from contextvars import ContextVar
from dataclasses import dataclass, field
from pathlib import Path

from . import faults, finding
from .process import MOST_BYTES, Process
from .refusals import is_refused, is_tried, refusal_of
from .table import PROPERTIES

# How many objects the program holds, how long a line may be, and what is left for what a new start needs.
MOST_OBJECTS = 32
MOST_LINE = 1_048_576
SPARE_BYTES = 1_048_576

# The files of a session's folder: the book, and the object that is loaded or saved.
BOOK = "rules.book"
FILE = "o.json"

# What stands for an object's name in a step.
HERE = "\0"

# The property of linear programs that is given.
OBJECTIVE = next(it for it in PROPERTIES if it.first == "LP.LINEAR_OBJECTIVE")

ALL = weakref.WeakSet()


@dataclass
class Step:
    """A command by which an object became what it is, its name left open; maybe with the file that it loads.

    A step that loads what was saved here has the rounds and the evidence of that time too.
    """

    line: str
    file: bytes | None = None
    rounds: list = field(default_factory=list)
    evidence: list = field(default_factory=list)

    def of(self, name):
        """The command for an object of this name."""
        return self.line.replace(HERE, name)


def given_in(lines):
    """The value that the last of these commands gives, with the columns of those before; None where it gives none."""
    found = {}
    type_name = next((it.split(" ")[2] for it in lines if it.startswith("new ")), "")
    known = {it.names[type_name]: it for it in PROPERTIES if type_name in it.names}
    for line in lines:
        word, reference, name, text = line.split(" ", 3) if line.count(" ") > 2 else ("", "", "", "")
        if word != "take":
            given = None
            continue
        item = OBJECTIVE if "." in reference else known.get(name)
        if item is None:
            return None
        given = faults.Given(name, item.first, type_name, item.kind, faults.parsed(text), dict(found))
        columns = faults.columns_in(item.kind, item.first, given.value)
        found.update({} if columns is None else {name: columns})
        if item.first == "SITES":
            found["SITES rows"] = len(faults.rows_in(given.value)[0])
    return given


class Session:
    """The program, started at the first question and ended at exit, or where a `with` ends.

    `rules` is "wide", the book wide.rules that `./polymake FILE` takes too; None, the standard rules;
    or the path of a book. Objects that are made inside a `with` belong to its session, and each object
    goes on in its own session afterwards: a session that was ended starts anew when it is asked.

    The program holds 32 objects. Where more are there, the one that was used longest ago is saved to a
    text, which the session keeps, and let go; when it is asked again it is loaded. Then what was
    computed of it counts as stored, its rounds and evidence are kept here, and its values and their
    orders are the same. Where the process was killed, or forked, an object is made anew by the same
    commands as before, which takes the time that they take; so it is after the 16,777,216 bytes that
    the program reads of a script, but that the objects are saved before.
    """

    most_objects = MOST_OBJECTS
    most_bytes = MOST_BYTES
    spare_bytes = SPARE_BYTES

    def __init__(self, rules="wide", program=None):
        self.book, self.is_wide = self._text_of(rules), rules == "wide"
        self.program = None if program is None else Path(program).resolve()
        self._count = 0
        self._tokens = []
        self._forget()
        ALL.add(self)

    @staticmethod
    def _text_of(rules):
        """The book, as it is now."""
        if rules is None:
            return None
        return (finding.WIDE_RULES if rules == "wide" else Path(rules)).read_bytes()

    def _forget(self):
        """Nothing is held: no process, no folder, no objects."""
        self._lock = threading.RLock()
        self._process = None
        self._is_saving = False
        self._folder = None
        # the objects of the process by their names, the one used longest ago first
        self._live = OrderedDict()
        # the names of objects that Python let go
        self._gone = deque()

    def __enter__(self):
        self._tokens.append(_entered.set(self))
        return self

    def __exit__(self, *_):
        _entered.reset(self._tokens.pop())
        self.close()

    # The process.

    def _start(self):
        """Starts the program where it does not run."""
        if self._process is not None:
            return
        if self._folder is None:
            self._folder = Path(tempfile.mkdtemp(prefix="nevolimush-"))
            self._cleaner = weakref.finalize(self, shutil.rmtree, self._folder, True)
        words = []
        if self.book is not None:
            (self._folder / BOOK).write_bytes(self.book)
            words = ["--rules", BOOK]
        self._process = Process(self.program or finding.program(), words, self._folder)
        self._ender = weakref.finalize(self, self._process.close)

    def close(self):
        """Ends the program and removes its folder; objects that are asked later are made anew."""
        with self._lock:
            if self._process is not None:
                self._process.close()
            self._end()
            if self._folder is not None:
                self._cleaner()
                self._folder = None

    def _end(self):
        """The process is gone, and so are its objects."""
        if self._process is not None:
            self._ender.detach()
        self._process = None
        self._live.clear()
        self._gone.clear()

    def _leave_fork(self):
        """In the child of a fork: the process is the parent's, and so is the folder."""
        if self._process is not None:
            self._process.leave()
            self._ender.detach()
        if self._folder is not None:
            self._cleaner.detach()
        self._forget()

    def _ask(self, line):
        """The lines of the reply to one command of docs/manual.md, refusals too."""
        if "\n" in line or "\r" in line:
            raise ValueError("a name or a text with an end of line")
        if len(line.encode()) > MOST_LINE:
            return ["no 15 LineTooLong"]
        self._start()
        try:
            return self._process.ask(line)
        except BaseException:
            self._end()
            raise

    def rules(self):
        """The book, a line for each rule."""
        with self._lock:
            self._leave_room(0)
            return self._ask("rules")[1:]

    # Objects.

    def _leave_room(self, size):
        """Starts anew where so many bytes more would be more than the program reads; the objects are saved before."""
        if self._process is None or self._is_saving or self._process.sent + size + self.spare_bytes <= self.most_bytes:
            return
        for name in list(self._live):
            thing = self._live[name]()
            if thing is not None:
                thing._keep()
        self._process.close()
        self._end()

    @contextmanager
    def _saving(self):
        """The time in which an object is saved: the bytes for it were left."""
        was, self._is_saving = self._is_saving, True
        try:
            yield
        finally:
            self._is_saving = was

    def _put(self, thing, name):
        """The process holds the object under the name."""
        if thing._end is not None:
            thing._end.detach()
        thing._name = name
        self._live[name] = weakref.ref(thing)
        thing._end = weakref.finalize(thing, self._gone.append, name)
        thing._end.atexit = False

    def _holds(self, thing):
        """Whether the process holds the object, which is then the one used last."""
        found = self._live.get(thing._name)
        if found is None or found() is not thing:
            return False
        self._live.move_to_end(thing._name)
        return True

    def _new_name(self):
        """A name for one object more, for which there is room."""
        while self._gone:
            self._drop(self._gone.popleft())
        while len(self._live) >= self.most_objects:
            name = next(iter(self._live))
            thing = self._live[name]()
            if thing is not None:
                thing._keep()
            self._drop(name)
        self._count += 1
        return f"o{self._count}"

    def _drop(self, name):
        if self._live.pop(name, None) is not None:
            self._ask(f"drop {name}")

    def _ready(self, thing, size=0):
        """The object is held by the process: it is made anew where it is not."""
        self._leave_room(size + (0 if self._holds(thing) else sum(len(it.line) + 512 for it in thing._steps or [])))
        if self._holds(thing):
            return
        if not thing._steps:
            raise RuntimeError("this object is too large to be saved, so it cannot be made anew: make it again")
        name = self._new_name()
        self._repeat(thing._steps, name)
        thing._before = thing._steps[0]
        self._put(thing, name)

    def _repeat(self, steps, name):
        """Makes an object by its steps, and answers the last reply; that no chain leads to what is asked is no refusal of it."""
        for place, step in enumerate(steps):
            if step.file is not None:
                self.file().write_bytes(step.file)
            lines = self._ask(step.of(name))
            if is_refused(lines) and not is_tried(lines):
                if place:
                    self._ask(f"drop {name}")
                raise refusal_of(lines, given_in([it.line for it in steps[: place + 1]]))
        return lines

    def file(self):
        """The file by which objects are loaded and saved."""
        self._start()
        return self._folder / FILE


# The session that a `with` is in, and the one of all that is made outside of one.
_entered = ContextVar("session", default=None)
_outside = []


def current():
    """The session that a `with` is in, or the one that the module has."""
    if _entered.get() is not None:
        return _entered.get()
    if not _outside:
        _outside.append(Session())
    return _outside[0]


def _leave_forks():
    for session in list(ALL):
        session._leave_fork()


if hasattr(os, "register_at_fork"):
    os.register_at_fork(after_in_child=_leave_forks)
