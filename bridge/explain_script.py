"""Runs the program on a script and says on standard error, in words, what is refused of it.

What the program reads and writes goes on byte for byte: the script from standard input, the replies
to standard output. On a terminal alone a mark in a reply that it would obey is written out.
"""

import argparse
import os
import subprocess
import sys
import threading

from explaining import Telling, place_in
from refusals import told_path
from terminal import Screen

BLOCK = 65536


def say(text):
    print(f"polymake: {text}", file=sys.stderr, flush=True)


class Lines:
    """The lines of bytes that come in blocks."""

    def __init__(self):
        self.part = b""

    def of(self, block):
        """The lines that end in this block, without their ends."""
        *whole, self.part = (self.part + block).split(b"\n")
        return whole

    def rest(self):
        """What stands behind the last end of a line."""
        return [self.part] if self.part else []


def written(file, block):
    """Whether all of a block could be written."""
    rest = memoryview(block)
    try:
        while rest:
            rest = rest[os.write(file, rest) :]
    except OSError:
        return False
    return True


class Run:
    """The program between standard input and standard output."""

    def __init__(self, words, name, is_told):
        how = {"stdin": subprocess.PIPE, "stdout": subprocess.PIPE}
        self.program = subprocess.Popen(words, **how)
        self.telling = Telling(say if is_told else lambda _: None, place_in(name))
        self.screen = Screen() if os.isatty(1) else None
        self.is_input_lost = self.is_output_lost = False

    def feed(self):
        """Gives the program what standard input has; each line is known here before it is there."""
        lines, to = Lines(), self.program.stdin.fileno()
        while block := self.block():
            for line in lines.of(block):
                self.telling.feed(line)
            if not written(to, block):
                break
        for line in lines.rest():
            self.telling.feed(line)
        self.program.stdin.close()

    def block(self):
        try:
            return os.read(0, BLOCK)
        except OSError:
            self.is_input_lost = True
            return b""

    def answer(self):
        """Writes what the program writes, and explains it."""
        lines, from_program = Lines(), self.program.stdout.fileno()
        while block := os.read(from_program, BLOCK):
            if not written(1, self.screen.of(block) if self.screen else block):
                self.is_output_lost = True
                break
            for line in lines.of(block):
                self.telling.hear(line.decode("utf-8", "replace"))
        self.program.stdout.close()

    def status(self):
        """The exit status of the program, or 128 and the number of the signal that ended it."""
        threading.Thread(target=self.feed, daemon=True).start()
        self.answer()
        status = self.program.wait()
        self.telling.end()
        if status in (0, 1) and self.is_output_lost:
            return 4
        if status in (0, 1) and self.is_input_lost:
            return 3
        return status if status >= 0 else 128 - status


def main():
    words = argparse.ArgumentParser(prog="bridge/explain-script", description=__doc__.splitlines()[0])
    words.add_argument("--program", required=True, metavar="PATH", help="the built program")
    words.add_argument("--name", metavar="FILE", help="the file that standard input is")
    words.add_argument("--silent", action="store_true", help="say nothing of what is refused")
    words.add_argument("words", metavar="WORD", nargs="*", help="the words of the program, behind --")
    options = words.parse_args()
    name = told_path(options.name) if options.name else None
    try:
        status = Run([options.program, *options.words], name, not options.silent).status()
    except KeyboardInterrupt:
        status = 130
    # (the thread may still wait for standard input)
    os._exit(status)
