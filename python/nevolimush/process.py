"""The program as a process: a line is sent, and all lines of its reply are read.

bridge/session.py of the repository does the same in the same way; it stands here once more, since the
package has to stand alone where it is installed.
"""

import os
import secrets
import subprocess

# Two lines that are refused whatever was done before, and the replies to them.
REFUSED = (("?", "no 1 BadCommand"), ("new a b", "no 4 UnknownType"))

# How many of them, drawn anew for each process, end a reply: no file knows them before.
COUNT = 64

# How many bytes the program reads in all.
MOST_BYTES = 16_777_216

WHY_ENDED = {
    2: "it does not take its words",
    3: "its standard input failed",
    4: "its standard output failed",
    5: "memory ran out",
    6: f"it was sent more than {MOST_BYTES:,} bytes",
    7: "the book of rules is absent or at fault",
}


class Ended(Exception):
    """The program ended before it replied; `status` is its exit status, -9 where signal 9 ended it.

    Nothing is lost but time: the next question starts a new process, and makes the objects anew.
    """

    def __init__(self, status):
        self.status = status
        why = f"by signal {-status}" if status < 0 else WHY_ENDED.get(status, f"with status {status}")
        super().__init__(f"the program ended: {why}; the next question starts it anew")


class Process:
    """A run of the program in a folder, by whose files it loads and saves.

    A reply ends where the replies to the drawn lines begin. These lines change nothing, whatever
    objects there are.
    """

    def __init__(self, program, words, folder):
        how = {"stdin": subprocess.PIPE, "stdout": subprocess.PIPE, "cwd": folder}
        # a group of its own, so that Ctrl-C reaches the caller alone
        self.run = subprocess.Popen([str(program), *words], start_new_session=True, **how)
        drawn = [secrets.choice(REFUSED) for _ in range(COUNT)]
        self.asked = "".join(f"{line}\n" for line, _ in drawn).encode()
        self.end = [reply for _, reply in drawn]
        self.sent = 0

    def ask(self, line):
        """The lines of the reply to one command, which is well formed."""
        try:
            self.send(line.encode() + b"\n" + self.asked)
            return self.reply()
        except BaseException:
            # what is left of the reply is nobody's
            self.kill()
            raise

    def send(self, data):
        """Writes all of the bytes, past the buffer, so that a fork never copies a part of them."""
        self.sent += len(data)
        rest = memoryview(data)
        try:
            while rest:
                rest = rest[os.write(self.run.stdin.fileno(), rest) :]
        except BrokenPipeError:
            raise Ended(self.run.wait()) from None

    def reply(self):
        """The lines of one reply."""
        lines = []
        for line in self.run.stdout:
            lines.append(line.decode("utf-8", "backslashreplace").removesuffix("\n"))
            if lines[-COUNT:] == self.end:
                return lines[:-COUNT]
        raise Ended(self.run.wait())

    def let_go(self):
        """Closes this side of the pipes."""
        self.run.stdin.close()
        self.run.stdout.close()

    def leave(self):
        """In the child of a fork: the program is the parent's, and a thread that is not here may have held a pipe's lock."""
        for pipe in (self.run.stdin, self.run.stdout):
            pipe.raw.close()
        self.run.returncode = 0

    def close(self):
        """Ends the program at the end of its input."""
        self.let_go()
        try:
            self.run.wait(timeout=5)
        except subprocess.TimeoutExpired:
            self.kill()

    def kill(self):
        """Ends the program at once."""
        self.run.kill()
        self.let_go()
        self.run.wait()
