"""Runs a script, and lets the checker say of each plan that it explains whether none weighs less."""

import os
import sys

import command
from calls import TOP, wrapper
from explaining import Explainer, Line
from plans import explained, typed, verdict
from refusals import Refusal, told_path
from session import Ended, Session
from spoken import fault_of, is_silent

PROGRAM = TOP / "crates/pm_shell/out/pm_shell"
CHECKER = TOP / "crates/pm_check/out/pm_check"
AGREES = ("least ", "no chain")


class PutAside:
    """The rules that a script puts aside: labels by objects, and clients."""

    def __init__(self):
        self.labels, self.clients = {}, set()

    def note(self, line):
        """A line that was not refused."""
        word, *words = line.split(" ")
        if word == "disable":
            self.labels.setdefault(words[0], []).append(words[1])
        elif word == "copy":
            self.labels[words[1]] = list(self.labels.get(words[0], []))
        elif word == "unload":
            self.clients.add(words[0])
        elif word == "drop":
            self.labels.pop(words[0], None)

    def of(self, session, name):
        rules = [it.split(" : ", 1)[0] for it in session.ask("rules") if any(f"{{ {one} }}" in it for one in self.clients)]
        return self.labels.get(name, []) + rules


def checks(session, text, book, folder):
    """Of each plan the number of its line, the plan in short, and what the checker says."""
    explainer, aside = Explainer(), PutAside()
    for number, line in enumerate(command.lines_of(text), 1):
        if is_silent(line) or fault_of(line) is not None:
            continue
        word, *words = line.split(" ")
        reply = session.ask(line)
        if word == "explain" and words[0].partition(".")[0] in explainer.objects:
            kind = explainer.objects[words[0].partition(".")[0]].type_name
            found = explained(session, words[0], kind, list(dict.fromkeys(words[1:])), aside.of(session, words[0].partition(".")[0]))
            yield number, found, verdict(str(CHECKER), found, book, folder)
        elif not reply[0].startswith("no "):
            explainer.note(Line(number, line))
            aside.note(line)


def words():
    told = command.parser("check-plans", "Checks each plan that a script explains, by the built checker.")
    told.add_argument("--rules", metavar="NAME", help="a book of this folder")
    told.add_argument("file", metavar="SCRIPT", help="the script, which is run")
    return told


def run(options, text):
    """Whether the checker agrees with each plan, and there is one."""
    found = []
    with Session(str(PROGRAM), ["--rules", options.rules] if options.rules else [], ".") as session:
        for number, plan, said in checks(session, text, options.rules, "."):
            found.append(said.startswith(AGREES))
            print(f"{told_path(options.file)}:{number}: {plan.short}")
            print(f"    {said}: {typed(plan, options.rules)}", flush=True)
    return found


def main(arguments=None):
    """Exit status 0 where the checker agrees with each plan, 1 where not, 2 where nothing could be checked."""
    options = words().parse_args(arguments)
    for path in (PROGRAM, CHECKER):
        if not os.access(path, os.X_OK):
            print(f"bridge/check-plans: {path} is not built: {wrapper()} check-plan builds the checker", file=sys.stderr)
            return 2
    try:
        found = run(options, command.text_at(options.file))
    except Refusal as refusal:
        print(f"bridge/check-plans: {told_path(options.file)}: {refusal.text}", file=sys.stderr)
        return 2
    except Ended as ended:
        return ended.status
    if not found:
        print(f"bridge/check-plans: {told_path(options.file)}: no line explains a plan", file=sys.stderr)
    return 0 if found and all(found) else 1 if found else 2
