#!/usr/bin/env python3
"""Drives one living mshot as a planner: it writes a command, reads the reply, and only then decides on the next one.

A robot goes through three rooms, one door after the other. The horizon grows by one step until there is a plan.
Usage: client.py PROGRAM, where PROGRAM is mshot at the top of the repository.
"""
import subprocess
import sys

TEXT = """\
at(0,hall).
#program step(t).
{ go(t) }.
at(t,hall) :- at(t-1,hall), not go(t).
at(t,kitchen) :- at(t-1,hall), go(t).
at(t,kitchen) :- at(t-1,kitchen), not go(t).
at(t,garden) :- at(t-1,kitchen), go(t).
at(t,garden) :- at(t-1,garden), not go(t).
:- at(t-1,garden), go(t).
#program goal(t).
#external query(t).
:- query(t), not at(t,garden).
#show at/2."""


class Solver:
    """A process of mshot, which is asked line by line."""

    def __init__(self, program):
        self.process = subprocess.Popen([program, "run"], stdin=subprocess.PIPE, stdout=subprocess.PIPE, text=True)

    def ask(self, *lines):
        """Writes a command, and gives the lines of its reply. All but the last are answer sets."""
        self.process.stdin.write("".join(line + "\n" for line in lines))
        self.process.stdin.flush()
        reply = []
        while not reply or reply[-1].startswith("answer:"):
            line = self.process.stdout.readline()
            if not line:
                raise SystemExit(f"mshot ended with {self.process.wait()}")
            reply.append(line.rstrip("\n"))
        return reply

    def end(self):
        """Ends the script, and gives the status."""
        self.process.stdin.close()
        return self.process.wait()


def main():
    solver = Solver(sys.argv[1])
    print(*solver.ask("@add", TEXT, "@end"))
    horizon = 0
    print(*solver.ask("@ground base goal(0)"))
    while True:
        solver.ask(f"@assign query({horizon}) true")
        *plans, ending = solver.ask("@solve 1")
        print(f"horizon {horizon}: {ending}")
        if plans:
            break
        solver.ask(f"@release query({horizon})")
        horizon += 1
        solver.ask(f"@ground step({horizon}) goal({horizon})")
    print(plans[0])
    return solver.end()


if __name__ == "__main__":
    sys.exit(main())
