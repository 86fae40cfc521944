#!/usr/bin/env python3
"""names.py PROGRAM: how long the program takes for files with many declarations, up to the rules on names.

Each input is of the whole language. What breaks no rule so far has to end with `refused 18 NotBuilt`, and is tried once
more with a last declaration that breaks a rule; the circles have to end with `refused 8 Cycle`. Prints the least time of
five runs in milliseconds, with the greatest memory, and ends with status 1 where an answer is another one, or where an
input takes longer than its bar. Beside the time stands that of half the input, so that growth shows: near 2 is linear.
"""
import os
import resource
import subprocess
import sys
import tempfile
import time


def module(name, members):
    return "module 0x1::%s {\n%s\n}\n" % (name, "\n".join(members))


def functions(count):
    return ["fun f%d(x: u64, y: u64): bool { let z = x + y; if (z < 10) { f%d(z, x) } else { z == y } }" % (k, max(k - 1, 0)) for k in range(count)]


def many_functions(count):
    return [module("m", functions(count))]


def calls(count):
    return [module("m", ["fun f%d(): bool { f%d() }" % (k, max(k - 1, 0)) for k in range(count)])]


def structs(count):
    return [module("m", ["struct S%d<T> has copy, drop { a: u64, b: vector<T>, c: bool }" % k for k in range(count)])]


def uses(count):
    owner = module("n", ["fun g%d() {}" % k for k in range(count)]).replace("0x1::n", "0x2::n")
    return [owner, module("m", ["use 0x2::n::g%d as h%d;" % (k, k) for k in range(count)])]


def included(count):
    schema = ["spec schema Bounded { x: u64; result: u64; requires x < 1000; ensures result == x; }"]
    return [module("m", schema + ["fun f%d(x: u64): u64 { x } spec f%d { include Bounded; }" % (k, k) for k in range(count)])]


def chain(count):
    schemas = ["spec schema S%d { x: u64; include S%d; include S%d { x: x + 1 }; }" % (k, k + 1, k + 1) for k in range(count)]
    last = ["spec schema S%d { x: u64; requires x < 1000; }" % count, "fun f(x: u64): u64 { x } spec f { include S0; }"]
    return [module("m", schemas + last)]


def lets(count):
    spec = " ".join("let x%d = %s + 1; ensures result != x%d;" % (k, "x%d" % (k - 1) if k else "x", k) for k in range(count))
    return [module("m", ["fun f(x: u64): u64 { x } spec f { %s }" % spec])]


def files(count):
    return [module("m%d" % k, functions(64)) for k in range(count)]


def struct_circle(count):
    return [module("m", ["struct S%d { s: S%d }" % (k, (k + 1) % count) for k in range(count)])]


def module_circle(count):
    each = 12000
    texts = []
    for first in range(0, count, each):
        numbers = range(first, min(first + each, count))
        texts.append("\n".join("module 0x1::m%d { use 0x1::m%d; }" % (k, (k + 1) % count) for k in numbers))
    return texts


BREAKS = {
    5: ("fun unknown(): u64 { nowhere }", "refused 5 UnknownName "),
    6: ("fun twice() {} fun twice() {}", "refused 6 TwiceDeclared "),
    7: ("struct Own { s: u64 } } module 0x1::other { fun make(): 0x1::%s::Own { 0x1::%s::Own { s: 1 } }", "refused 7 NotVisible "),
    8: ("struct Round { s: vector<Round> }", "refused 8 Cycle "),
}
BUILT = "refused 18 NotBuilt "
CIRCLE = "refused 8 Cycle "

# what it is, the texts by a number, that number, the answer, and the bar in milliseconds
INPUTS = [
    ("4,400 functions, nearly 200,000 tokens", many_functions, 4400, BUILT, 500),
    ("5,000 functions that each call the one before", calls, 5000, BUILT, 1000),
    ("2,000 structs", structs, 2000, BUILT, 1000),
    ("1,000 uses", uses, 1000, BUILT, 1000),
    ("a schema included in 5,000 functions", included, 5000, BUILT, 1000),
    ("a chain of 30 schemas that each include the next twice", chain, 30, BUILT, 1000),
    ("5,000 lets that each stand on the one before", lets, 5000, BUILT, 1000),
    ("64 files of 64 functions each", files, 64, BUILT, 500),
    ("a circle of 20,000 structs", struct_circle, 20000, CIRCLE, 1000),
    ("a circle of 50,000 modules over five files", module_circle, 50000, CIRCLE, 2000),
]


def run(program, texts, times):
    least = None
    with tempfile.TemporaryDirectory() as folder:
        names = []
        for number, text in enumerate(texts):
            names.append("%d.move" % number)
            with open(os.path.join(folder, names[-1]), "w") as out:
                out.write(text)
        for _ in range(times):
            begun = time.monotonic()
            ended = subprocess.run([program] + names, cwd=folder, stdout=subprocess.PIPE, check=False)
            least = min(least or 1e9, time.monotonic() - begun)
    return ended.stdout.decode(), least * 1000


def broken(texts, rule):
    last = texts[-1]
    name = last[last.index("::") + 2 : last.index(" {")]
    member = BREAKS[rule][0]
    member = member % (name, name) if "%s" in member else member
    at = last.rindex("}")
    return texts[:-1] + [last[:at] + member + "\n}\n"]


def measure(program, inputs, breaks):
    """Prints a line for each of `inputs`, and ends the script; `breaks` are pairs of what breaks texts, and the answer then."""
    failed = False
    for what, texts_of, count, answer, bar in inputs:
        texts = texts_of(count)
        printed, took = run(program, texts, 5)
        _, half = run(program, texts_of(count // 2), 5)
        memory = resource.getrusage(resource.RUSAGE_CHILDREN).ru_maxrss // 1024
        told = [printed.strip().split("\n")[0]]
        wrong = not printed.startswith(answer) or took > bar
        for broken_of, refused in breaks if answer == BUILT else []:
            printed, _ = run(program, broken_of(texts), 1)
            wrong |= not printed.startswith(refused)
            told.append(printed.strip())
        failed |= wrong
        print("%s: %.0f ms, half of it %.0f ms, %d MB so far; %s%s" % (what, took, half, memory, "; ".join(told), "  <-- not as it should be" if wrong else ""), flush=True)
    sys.exit(1 if failed else 0)


if __name__ == "__main__":
    measure(os.path.abspath(sys.argv[1]), INPUTS, [(lambda texts, rule=rule: broken(texts, rule), refused) for rule, (_, refused) in BREAKS.items()])
