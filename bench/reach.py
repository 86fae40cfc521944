#!/usr/bin/env python3
"""How far the search reaches: random modules of u64 sums, each condition decided apart by the solver z3.

usage: reach.py BINARY [MODULES] [SEED]

Each module has one function with up to 8 parameters and random clauses, some of them made to be true. The truth of a
condition is decided by z3 on a translation of the source that this script makes by itself: the run is the whole
numbers of the body from left to right, and it aborts where one of them leaves u64. Prints how many of the valid
conditions are proved, how many of the others end `open`, and each disagreement. A condition that is proved and not
valid ends the script with status 1.
"""

import os
import random
import re
import subprocess
import sys
import tempfile

MAX = 2**64 - 1
CONSTANTS = [0, 1, 2, 3, 7, 10, 255, 2**32, 2**63, MAX - 1, MAX]
COMPARISONS = ["==", "<", ">", "<=", ">="]
NAMES = ["a", "b", "c", "d", "e", "f", "g", "h"]


class Sum:
    """Atoms with signs; the first has a plus."""

    def __init__(self, parts):
        self.parts = parts

    def text(self):
        words = []
        for sign, atom in self.parts:
            if words:
                words.append(sign)
            words.append(str(atom))
        return " ".join(words)

    def smt(self, result):
        total = term(self.parts[0][1], result)
        for sign, atom in self.parts[1:]:
            total = f"({sign} {total} {term(atom, result)})"
        return total

    def prefixes(self):
        return [Sum(self.parts[: i + 1]) for i in range(1, len(self.parts))]


def term(atom, result):
    if atom == "MAX_U64":
        return str(MAX)
    if atom == "result":
        return result
    return str(atom)


def random_sum(rng, atoms, longest):
    count = rng.randint(1, longest)
    return Sum([("+" if i == 0 or rng.random() < 0.6 else "-", rng.choice(atoms)) for i in range(count)])


class Clause:
    def __init__(self, kind, left, comparison, right):
        self.kind, self.left, self.comparison, self.right = kind, left, comparison, right

    def text(self):
        return f"{self.kind} {self.left.text()} {self.comparison} {self.right.text()};"

    def smt(self, result):
        sign = "=" if self.comparison == "==" else self.comparison
        return f"({sign} {self.left.smt(result)} {self.right.smt(result)})"


def apart(total, subtracted):
    """Both sides of `total - subtracted`, with no minus."""
    left = [("+", a) for s, a in total.parts if s == "+"]
    right = [("+", a) for s, a in total.parts if s == "-"]
    return Sum(left), Sum(right + [("+", a) for a in subtracted] or [("+", 0)])


def true_clauses(rng, body):
    """Clauses that hold of the body by their making."""
    clauses = []
    left, right = apart(body, [])
    if rng.random() < 0.7:
        clauses.append(Clause("ensures", Sum([("+", "result")] + right.parts), "==", left))
    for prefix in body.prefixes():
        plus, minus = apart(prefix, [])
        if prefix.parts[-1][0] == "+":
            clauses.append(Clause("aborts_if", plus, ">", Sum(minus.parts + [("+", "MAX_U64")])))
        else:
            clauses.append(Clause("aborts_if", plus, "<", minus))
    if rng.random() < 0.3 and clauses:
        clauses.pop(rng.randrange(len(clauses)))
    return clauses


def module(rng):
    names = NAMES[: rng.randint(0, 8)]
    constants = [rng.choice(CONSTANTS) for _ in range(2)]
    atoms = names * 3 + constants
    body = random_sum(rng, atoms, 6)
    clauses = true_clauses(rng, body) if rng.random() < 0.6 else []
    for kind, chance in (("requires", 0.5), ("ensures", 0.5), ("aborts_if", 0.3)):
        while rng.random() < chance:
            more = ["result"] if kind == "ensures" else []
            clauses.append(
                Clause(
                    kind,
                    random_sum(rng, atoms + more * 4, 4),
                    rng.choice(COMPARISONS),
                    random_sum(rng, atoms + ["MAX_U64"], 3),
                )
            )
    rng.shuffle(clauses)
    parameters = ", ".join(f"{n}: u64" for n in names)
    lines = ["module 0x1::m {", f"fun f({parameters}): u64 {{ {body.text()} }}", "spec f {"]
    lines += [c.text() for c in clauses] + ["}", "}"]
    return names, body, clauses, "\n".join(lines) + "\n"


def conditions(names, body, clauses):
    """Each condition by kind and line, as the SMT text of its negation."""
    result = body.smt("0")
    fits = ["true"] + [f"(and (<= 0 {p.smt('0')}) (<= {p.smt('0')} {MAX}))" for p in body.prefixes()]
    returns = f"(and {' '.join(fits)})"
    given = ["true"] + [c.smt(result) for c in clauses if c.kind == "requires"]
    ranges = ["true"] + [f"(<= 0 {n} {MAX})" for n in names]
    premises = f"(and {' '.join(ranges + given)})"
    aborts = [c.smt(result) for c in clauses if c.kind == "aborts_if"]
    found = []
    for line, clause in enumerate(clauses, 4):
        if clause.kind == "ensures":
            found.append(("ensures", line, f"(and {premises} {returns} (not {clause.smt(result)}))"))
        elif clause.kind == "aborts_if":
            found.append(("aborts_if", line, f"(and {premises} {clause.smt(result)} {returns})"))
    if aborts:
        found.append(("aborts", 2, f"(and {premises} (not {returns}) (not (or {' '.join(aborts)})))"))
    return found


def decided(names, negations):
    """Whether each negation has no solution; None where the solver gives up."""
    text = "".join(f"(declare-const {n} Int)\n" for n in names)
    for negation in negations:
        text += f"(push)\n(assert {negation})\n(check-sat)\n(pop)\n"
    answers = subprocess.run(["z3", "-in", "-T:60"], input=text, capture_output=True, text=True).stdout.split()
    return [{"unsat": True, "sat": False}.get(answer) for answer in answers]


def verdicts(binary, folder, text):
    with open(os.path.join(folder, "a.move"), "w") as file:
        file.write(text)
    out = subprocess.run([binary, "a.move"], cwd=folder, capture_output=True, text=True).stdout
    return {(kind, int(line)): verdict for kind, line, verdict in re.findall(r"^  (\w+) a\.move:(\d+): (.+)$", out, re.M)}


def main():
    binary = os.path.abspath(sys.argv[1])
    count = int(sys.argv[2]) if len(sys.argv) > 2 else 300
    seed = int(sys.argv[3]) if len(sys.argv) > 3 else 1
    rng = random.Random(seed)
    table = {}
    wrong = 0
    with tempfile.TemporaryDirectory() as folder:
        for number in range(count):
            names, body, clauses, text = module(rng)
            wanted = conditions(names, body, clauses)
            found = verdicts(binary, folder, text)
            if set(found) != {(kind, line) for kind, line, _ in wanted}:
                print(f"module {number}: other conditions than wanted\n{text}{found}")
                wrong += 1
                continue
            for (kind, line, _), valid in zip(wanted, decided(names, [n for _, _, n in wanted])):
                verdict = found[(kind, line)]
                table[(valid, verdict)] = table.get((valid, verdict), 0) + 1
                if valid is False and verdict == "proved":
                    print(f"module {number}: {kind} of line {line} is proved and not valid\n{text}")
                    wrong += 1
                if valid is True and verdict != "proved":
                    print(f"module {number}: {kind} of line {line} is valid and {verdict}\n{text}")
    for (valid, verdict), times in sorted(table.items(), key=str):
        print(f"{ {True: 'valid', False: 'not valid', None: 'undecided'}[valid]:10} {verdict:18} {times}")
    total = sum(times for (valid, _), times in table.items() if valid)
    proved = table.get((True, "proved"), 0)
    print(f"{proved} of {total} valid conditions of {count} modules are proved")
    return 1 if wrong else 0


if __name__ == "__main__":
    sys.exit(main())
