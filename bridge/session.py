"""A run of this program: a line is sent, and all lines of its reply are read."""

import secrets
import subprocess

# Two lines that are refused whatever was done before, and the replies to them.
REFUSED = (("?", "no 1 BadCommand"), ("new a b", "no 4 UnknownType"))

# How many of them, drawn anew for each run, end a reply: no file knows them before.
COUNT = 64


class Ended(Exception):
    """The program ended before it replied, with this exit status, after these lines."""

    def __init__(self, status, lines):
        super().__init__(status)
        self.status = status
        self.lines = lines


class Session:
    """The program in a folder, by whose files it loads and saves.

    A reply ends where the replies to the drawn lines begin. These lines change nothing, whatever
    objects there are. They take some 320 bytes, and a run at most 16,777,216: 50,000 commands.
    """

    def __init__(self, program, words, folder):
        how = {"stdin": subprocess.PIPE, "stdout": subprocess.PIPE, "cwd": folder}
        self.run = subprocess.Popen([program, *words], **how)
        drawn = [secrets.choice(REFUSED) for _ in range(COUNT)]
        self.asked = "".join(f"{line}\n" for line, _ in drawn)
        self.end = [reply for _, reply in drawn]

    def __enter__(self):
        return self

    def __exit__(self, *_):
        self.close()

    def ask(self, line):
        """The lines of the reply to one command, which is well formed."""
        try:
            self.run.stdin.write(f"{line}\n{self.asked}".encode())
            self.run.stdin.flush()
        except BrokenPipeError:
            raise Ended(self.run.wait(), []) from None
        lines = []
        for reply in self.run.stdout:
            lines.append(reply.decode("utf-8", "backslashreplace").removesuffix("\n"))
            if lines[-COUNT:] == self.end:
                return lines[:-COUNT]
        raise Ended(self.run.wait(), self.without_end(lines))

    def without_end(self, lines):
        """The lines of a reply, the first of which is its own, without those of an end in part."""
        for count in range(min(COUNT, len(lines) - 1), 0, -1):
            if lines[-count:] == self.end[:count]:
                return lines[:-count]
        return lines

    def close(self):
        """Ends the program, whose other replies nobody reads."""
        try:
            self.run.stdin.close()
        except BrokenPipeError:
            pass
        self.run.stdout.read()
        return self.run.wait()
