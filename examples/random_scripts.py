"""Compares the program with an independent brute force on random scripts.

    random_scripts.py PROGRAM FIRST LAST [declared | log]

For each seed from FIRST to LAST a script of a few atoms is made: parts with facts, rules, choices, constraints and
inputs; groundings, also refused ones; assignments and releases; solves with counts, limits and assumptions. Each reply
is compared with that of a machine that keeps the joined rules and tries every set of atoms by the definition of an
answer set. With `declared` the lines that declare things are read too, and with `log` the lines of solves: each is
tested by unit closure alone. It stands on Python's standard library alone.
"""
import itertools
import random
import subprocess
import sys

ATOMS = "abcdef"
KEPT_AT_MOST = 200_000


# --- scripts -----------------------------------------------------------------------------------------------------------

class Rule:
    def __init__(self, kind, head, pos=(), neg=()):
        self.kind, self.head = kind, head
        self.pos, self.neg = frozenset(pos), frozenset(neg)

    def text(self):
        body = ", ".join(sorted(self.pos) + ["not " + a for a in sorted(self.neg)])
        head = {"normal": self.head, "choice": "{%s}" % self.head, "constraint": ""}.get(self.kind)
        if self.kind == "external":
            return "#external %s." % self.head
        return head + (" :- " + body if body or not head else "") + "." if body or head else ":- 1 = 1."

    def key(self):
        return (self.kind, self.head, self.pos, self.neg)


def random_rule(rng, heads, names):
    kind = rng.choices(["normal", "choice", "constraint", "external"], [6, 3, 1, 2])[0]
    if kind == "external":
        return Rule(kind, rng.choice(heads))
    pos = rng.sample(names, rng.choice([0, 1, 1, 2]))
    neg = rng.sample([a for a in names if a not in pos or rng.random() < 0.1], rng.choice([0, 0, 1]))
    if kind == "constraint" and not pos and not neg:
        pos = [rng.choice(names)]
    return Rule(kind, None if kind == "constraint" else rng.choice(heads), pos, neg)


def random_commands(rng):
    """The commands of a script, each as a word and what it has."""
    count = rng.choice([1, 2, 2, 3])
    names = list(ATOMS[:rng.choice([3, 4, 5, 6])])
    owned = [names[i::count] for i in range(count)]
    parts = {"p%d" % i: [random_rule(rng, owned[i] if rng.random() < 0.9 else names, names)
                         for _ in range(rng.choice([2, 4, 6]))] for i in range(count)}
    waiting = list(parts)
    commands = [("add", parts), ("ground", waiting.pop(0))]
    for _ in range(rng.choice([4, 8, 12])):
        word = rng.choices(["ground", "assign", "release", "solve"], [3 if waiting else 0.3, 2, 1, 4])[0]
        if word == "ground":
            commands.append((word, waiting.pop(0) if waiting else rng.choice(list(parts))))
        elif word == "assign":
            commands.append((word, rng.choice(names), rng.choice(["true", "false", "free"])))
        elif word == "release":
            commands.append((word, rng.choice(names)))
        else:
            commands.append((word, rng.choice([1, 2, 3, None, None]), rng.choice([None, None, 1, 2, 3, 5]),
                             [(a, rng.random() < 0.5) for a in rng.sample(names, rng.choice([0, 0, 0, 1, 2]))]))
    return commands


def script_line(command):
    word = command[0]
    if word == "add":
        lines = ["@add"]
        for name, rules in command[1].items():
            lines += ["#program %s." % name] + [rule.text() for rule in rules]
        return "\n".join(lines + ["@end"])
    if word == "solve":
        _, count, limit, assume = command
        return "@solve %s%s%s" % (count or "all", " limit=%d" % limit if limit else "",
                                  " with " + " ".join(("" if t else "not ") + a for a, t in assume) if assume else "")
    return "@" + " ".join(command)


# --- the machine -------------------------------------------------------------------------------------------------------

class Machine:
    """The joined rules, and each atom of the base with what it is."""

    def __init__(self):
        self.parts, self.rules, self.base = {}, [], []
        self.outputs, self.inputs = set(), {}

    def add(self, parts):
        self.parts = parts
        count = sum(1 + len(rules) for rules in parts.values())
        return ["added %d" % count]

    def ground(self, name):
        source = self.parts[name]
        heads = {r.head for r in source if r.kind in ("normal", "choice")}
        declared = {r.head for r in source if r.kind == "external"}
        known = set(self.base) | heads | declared
        rules = {}
        for r in source:
            if r.kind != "external" and r.pos <= known:
                left = Rule(r.kind, r.head, r.pos, r.neg & known)
                rules[left.key()] = left
        again = heads & self.outputs
        if again:
            return ["refused redefined " + min(again)]
        joined = self.rules + list(rules.values())
        together = components(joined)
        loops = [(a, b) for a in heads for b in self.outputs if b in together(a)]
        if loops:
            return ["refused loop %s %s" % min(loops)]
        fresh = sorted(known - set(self.base))
        self.base += fresh
        self.rules = joined
        self.outputs |= heads
        for a in heads:
            self.inputs.pop(a, None)
        for a in declared - self.outputs:
            self.inputs.setdefault(a, False)
        return ["grounded atoms=%d rules=%d" % (len(fresh), len(rules))]

    def assign(self, atom, truth):
        if atom not in self.inputs:
            return ["no effect"]
        self.inputs[atom] = {"true": True, "false": False, "free": None}[truth]
        return ["assigned"]

    def release(self, atom):
        if atom not in self.inputs:
            return ["no effect"]
        del self.inputs[atom]
        self.outputs.add(atom)
        return ["released"]

    def is_answer_set(self, chosen):
        free = {a for a in self.inputs if a in chosen}
        if any(value is not None and (a in chosen) != value for a, value in self.inputs.items()):
            return False
        firing = [r for r in self.rules if not r.neg & chosen]
        if any(r.kind == "constraint" and r.pos <= chosen for r in firing):
            return False
        least, before = set(free), None
        while before != least:
            before = set(least)
            least |= {r.head for r in firing if r.pos <= before
                      and (r.kind == "normal" or r.kind == "choice" and r.head in chosen)}
        return least == chosen

    def answer_sets(self, assume):
        if any(truth and a not in self.base for a, truth in assume):
            return []
        sets = (set(c) for n in range(len(self.base) + 1) for c in itertools.combinations(sorted(self.base), n))
        return [s for s in sets if all((a in s) == t for a, t in assume) and self.is_answer_set(s)]


def components(rules):
    """For an atom, those that reach it and that it reaches through positive atoms."""
    edges = {}
    for r in rules:
        if r.head:
            edges.setdefault(r.head, set()).update(r.pos)

    def reach(a):
        seen, todo = set(), [a]
        while todo:
            for b in edges.get(todo.pop(), ()):
                if b not in seen:
                    seen.add(b)
                    todo.append(b)
        return seen

    return lambda a: {b for b in reach(a) if a in reach(b)}


# --- replies -----------------------------------------------------------------------------------------------------------

class Wrong(Exception):
    pass


def wanted(truth, message):
    if not truth:
        raise Wrong(message)


def check_solve(machine, command, reply):
    """The listed answers, where the reply is one that the machine may give."""
    _, count, limit, assume = command
    count = count or 1_000_000
    answers = [tuple(line.split()[1:]) for line in reply[:-1]]
    members = {tuple(sorted(s)) for s in machine.answer_sets(assume)}
    wanted(all(line.startswith("answer:") for line in reply[:-1]), "an answer line is malformed")
    wanted(len(set(answers)) == len(answers) and set(answers) <= members, "an answer is none, or is there twice")
    wanted(answers == sorted(answers), "the answers aren't in order")
    if len(members) < count:
        endings = {"complete %d" % len(answers)} if set(answers) == members else set()
    else:
        endings = {"open %d" % count} if len(answers) == count else set()
    if len(answers) < count:
        endings.add("cut %d limit=%d" % (len(answers), limit or 1_000_000))
    wanted(reply[-1] in endings, "the ending is %r of %d members, asked for %d" % (reply[-1], len(members), count))
    return answers


def is_last_line(line):
    return not line.startswith("answer:")


# --- the log -----------------------------------------------------------------------------------------------------------

def closure(nogoods, literals):
    """The unit closure, or None where the literals are refuted."""
    closed, grows = set(literals), True
    if any(-l in closed for l in closed):
        return None
    while grows:
        grows = False
        for nogood in nogoods:
            missing = [l for l in nogood if l not in closed]
            if not missing:
                return None
            if len(missing) == 1 and -missing[0] not in closed:
                closed.add(-missing[0])
                grows = True
    return closed


class Log:
    """The things that the log declared, and the nogoods that it keeps."""

    def __init__(self, lines):
        self.lines, self.at = lines, 0
        self.numbers, self.kept = {}, []

    def next(self):
        wanted(self.at < len(self.lines), "the log ends early")
        self.at += 1
        return self.lines[self.at - 1]

    def body(self, rule):
        signed = [self.numbers[a] for a in rule.pos] + [-self.numbers[a] for a in rule.neg]
        return ("body", tuple(sorted(signed, key=lambda l: (abs(l), -l))))

    def declare(self, machine):
        """Each new thing has one line, with the next number, behind what it is made of."""
        count = len(machine.base) + len({(r.pos, r.neg) for r in machine.rules})
        while len(self.numbers) < count:
            words = self.next().split(" ")
            wanted(words[0] == "v", "a declaration is missing")
            thing = words[2] if words[1] == "a" else ("body", tuple(map(int, words[2:])))
            wanted(thing not in self.numbers, "%s is declared twice" % (thing,))
            wanted(words[1] == "a" or all(abs(l) <= len(self.numbers) for l in thing[1]), "a line names a later thing")
            self.numbers[thing] = len(self.numbers) + 1
        wanted({t for t in self.numbers if isinstance(t, str)} == set(machine.base), "the atoms of the base aren't those declared")
        bodies = {self.body(r) for r in machine.rules}
        wanted({t for t in self.numbers if not isinstance(t, str)} == bodies, "the bodies aren't those declared")

    def completion(self, machine):
        nogoods = set()
        for r in machine.rules:
            literals = self.body(r)[1]
            number = self.numbers[self.body(r)]
            nogoods |= {frozenset(literals) | {-number}} | {frozenset({number, -l}) for l in literals}
            if r.kind == "normal":
                nogoods.add(frozenset({number, -self.numbers[r.head]}))
            if r.kind == "constraint":
                nogoods.add(frozenset({number}))
        for a in machine.outputs:
            bodies = {-self.numbers[self.body(r)] for r in machine.rules if r.head == a}
            nogoods.add(frozenset({self.numbers[a]} | bodies))
        return {n for n in nogoods if not any(-l in n for l in n)}

    def is_loop(self, machine, nogood):
        together = components(machine.rules)
        for a in machine.outputs & set(self.numbers):
            if self.numbers[a] not in nogood:
                continue
            others = sorted((together(a) | {a}) & machine.outputs - {a})
            for size in range(len(others) + 1):
                for chosen in itertools.combinations(others, size):
                    loop = set(chosen) | {a}
                    support = {-self.numbers[self.body(r)] for r in machine.rules if r.head in loop and not r.pos & loop}
                    if nogood == {self.numbers[a]} | support:
                        return True
        return False

    def truths(self, machine, chosen):
        """The literals of all things in a set."""
        literals = set()
        for thing, number in self.numbers.items():
            if isinstance(thing, str):
                holds = thing in chosen
            else:
                holds = all((l > 0) == (self.name(abs(l)) in chosen) for l in thing[1])
            literals.add(number if holds else -number)
        return literals

    def name(self, number):
        return next(t for t, n in self.numbers.items() if n == number)

    def solve(self, machine, command, reply, answers):
        _, count, limit, assume = command
        demanded = {(1 if value else -1) * self.numbers[a] for a, value in machine.inputs.items() if value is not None}
        demanded |= {(1 if truth else -1) * self.numbers[a] for a, truth in assume if a in machine.base}
        impossible = any(truth and a not in machine.base for a, truth in assume)
        words = self.next().split(" ")
        wanted(words == ["s"] + ["0"] * impossible + [str(l) for l in sorted(demanded, key=lambda l: (abs(l), -l))], "the s line")
        base = self.completion(machine)
        kept = [frozenset(n) for n in self.kept[-KEPT_AT_MOST:]]
        store, temporary, found, learned, owed = set(base) | set(kept), set(), [], 0, None
        while True:
            line = self.next()
            words = line.split(" ")
            if words[0] == "e":
                break
            nogood = frozenset(map(int, words[1:]))
            wanted(list(map(int, words[1:])) == sorted(nogood, key=abs), "the literals of %r aren't in order" % line)
            if words[0] == "m":
                wanted(owed is None, "an answer without its own line")
                atoms = {self.name(n) for n in nogood}
                wanted(atoms not in found and atoms in machine.answer_sets(assume), "%r is no new answer" % line)
                found.append(atoms)
                owed = atoms
                continue
            wanted(not any(small <= nogood for small in store | temporary), "%r contains one that stands" % line)
            wanted(words[0] == "t" or owed is None, "an answer without its own line")
            whole = {frozenset(l for l in self.truths(machine, s) if isinstance(self.name(abs(l)), str)) for s in found}
            if words[0] == "x":
                wanted(self.is_loop(machine, nogood), "%r is no loop nogood" % line)
                store.add(nogood)
                continue
            against = store if words[0] == "k" else store | temporary | whole
            wanted(closure(against, nogood) is None, "%r isn't refuted" % line)
            if owed is not None:
                wanted(nogood <= self.truths(machine, owed), "%r isn't in its answer" % line)
            else:
                wanted(words[0] == "k" or found, "%r before an answer" % line)
                wanted(any(self.is_new(store | temporary, nogood, l) for l in nogood), "%r brings nothing new" % line)
                learned += 1
            owed = None
            (store if words[0] == "k" else temporary).add(nogood)
            if words[0] == "k":
                self.kept.append(nogood)
        wanted(owed is None, "the last answer has no line")
        wanted(line == "e " + reply[-1], "the e line is %r" % line)
        wanted({tuple(sorted(s)) for s in found} == set(answers), "the m lines aren't the listed answers")
        wanted(learned <= (limit or 1_000_000), "too many lines")
        if reply[-1].startswith("cut"):
            wanted(learned == limit, "cut too early")
        if reply[-1].startswith("complete"):
            wanted(impossible or closure(store | temporary | whole_of(self, machine, found), demanded) is None, "the s line isn't refuted")

    @staticmethod
    def is_new(nogoods, nogood, literal):
        closed = closure(nogoods, nogood - {literal})
        return closed is not None and -literal not in closed


def whole_of(log, machine, found):
    return {frozenset(l for l in log.truths(machine, s) if isinstance(log.name(abs(l)), str)) for s in found}


# --- runs --------------------------------------------------------------------------------------------------------------

def check_script(program, commands, mode):
    script = "\n".join(map(script_line, commands)) + "\n"
    words = ["log", "run"] if mode else ["run"]
    run = subprocess.run([program] + words, input=script.encode(), capture_output=True)
    lines, machine = run.stdout.decode().splitlines(), Machine()
    log = Log(run.stderr.decode().splitlines()) if mode else None
    at = 0
    for command in commands:
        start = at
        while at < len(lines) and not is_last_line(lines[at]):
            at += 1
        at += 1
        reply = lines[start:at]
        wanted(reply and is_last_line(reply[-1]), "the reply to %r is missing" % script_line(command))
        try:
            if command[0] == "solve":
                answers = check_solve(machine, command, reply)
                if mode == "log":
                    log.solve(machine, command, reply, answers)
                continue
            should = getattr(machine, command[0])(*command[1:])
            wanted(reply == should, "got %r, wanted %r" % (reply, should))
            if mode and command[0] == "ground" and reply[0].startswith("grounded"):
                log.declare(machine)
        except Wrong as wrong:
            raise Wrong("%s: %s" % (script_line(command), wrong))
    wanted(at == len(lines), "there are more replies than commands")
    wanted(not mode or log.at == len(log.lines), "there are more lines in the log")
    refused = any(line.startswith("refused") for line in lines)
    wanted(run.returncode == (1 if refused else 0), "the status is %d" % run.returncode)


def main():
    program, first, last = sys.argv[1], int(sys.argv[2]), int(sys.argv[3])
    mode = sys.argv[4] if len(sys.argv) > 4 else None
    failed = 0
    for seed in range(first, last + 1):
        commands = random_commands(random.Random(seed))
        try:
            check_script(program, commands, mode)
        except (Wrong, ValueError, IndexError) as wrong:
            failed += 1
            print("seed %d: %s" % (seed, wrong))
            print("\n".join(map(script_line, commands)))
    print("%d scripts, %d failed" % (last + 1 - first, failed))
    return 1 if failed else 0


if __name__ == "__main__":
    sys.exit(main())
