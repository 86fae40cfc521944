#!/usr/bin/env python3
"""types.py PROGRAM: how long the program takes for files with much to type, up to the rules on locals.

Each input keeps the rules on names, types and locals, so it has to end with `refused 18 NotBuilt`; it is tried once more
with a last function that breaks each rule on types or locals. Prints the least time of five runs in milliseconds, with the
greatest memory, and ends with status 1 where an answer is another one, or where an input takes longer than its bar. Beside
the time stands that of half the input, so that growth shows: near 2 is linear.
"""
import os
import sys

sys.path.insert(0, os.path.dirname(os.path.abspath(__file__)))
from names import BUILT, measure, module


def statements(count):
    return [module("m", ["fun f(): u64 { let x = 0; %sx }" % ("x = x + 1; " * count)])]


def lets(count):
    # a function has 256 locals at most
    each = 250
    chain = "let x0 = 0; " + "".join("let x%d = x%d; " % (k + 1, k) for k in range(each))
    return [module("m", ["fun f%d(): u64 { %sx%d }" % (k, chain, each) for k in range(count // each)])]


def pairs(count):
    first = "struct P<A, B> has copy, drop { a: A, b: B } fun pair<A: copy + drop, B: copy + drop>(a: A, b: B): P<A, B> { P { a, b } }"
    return [module("m", [first, "fun f() { let x0 = 1; %s }" % "".join("let x%d = pair(x%d, x%d); " % (k + 1, k, k) for k in range(count))])]


def functions(count):
    body = "let c = a * b; if (c > 10) { c = c - 1; } else { c = c + b; }; while (c < 100) { c = c + 1; }; c"
    return [module("m", ["fun g%d(a: u64, b: u64): u64 { %s }" % (k, body) for k in range(count)])]


def branches(count):
    return [module("m", ["fun f(a: bool): u64 { let x = 0; %sx }" % ("if (a) { x = x + 1; }; " * count)])]


def loops(count):
    return [module("m", ["fun f(a: bool) { %s%s }" % ("while (a) { " * count, "};" * (count - 1) + "}")])]


def schemas(count):
    chain = ["spec schema S%d<T> { include S%d<vector<T>>; include S%d<vector<T>>; }" % (k, k + 1, k + 1) for k in range(count)]
    return [module("m", chain + ["spec schema S%d<T> { ensures true; }" % count, "fun f() {} spec f { include S0<u64>; }"])]


def clauses(count):
    return [module("m", ["fun f(x: u64): u64 { x } spec f { %s }" % ("ensures result == x + 0 || old(x) > 3; " * count)])]


def resources(count):
    one = "struct R%d has key { a: u64 } fun g%d(at: address): u64 acquires R%d { borrow_global<R%d>(at).a }"
    return [module("m", [one % (k, k, k, k) for k in range(count)])]


BREAKS = [
    ("fun last(): bool { 1 }", "refused 9 NoTyping "),
    ("fun last() { let v = 0x1::vector::empty(); }", "refused 10 Ambiguous "),
    ("struct Kept {} fun last(s: Kept) { s; }", "refused 11 Ability "),
    ("struct Stored has key {} fun last(a: address) { borrow_global<Stored>(a); }", "refused 12 Acquires "),
    ("fun last(): u64 { let y: u64; y }", "refused 13 Unassigned "),
    ("struct Left {} fun last(s: Left) {}", "refused 14 Undropped "),
]

# what it is, the texts by a number, that number, and the bar in milliseconds
INPUTS = [
    ("a function of 20,000 statements", statements, 20000, 1000),
    ("10,000 lets that are each typed by the next, 250 in a function", lets, 10000, 1000),
    ("a chain of 100 pairs of pairs", pairs, 100, 1000),
    ("3,200 functions, nearly 200,000 tokens", functions, 3200, 1000),
    ("5,000 branches in a row", branches, 5000, 1000),
    ("20 nested loops", loops, 20, 1000),
    ("a chain of 30 generic schemas that each include the next twice", schemas, 30, 1000),
    ("5,000 clauses of one function", clauses, 5000, 1000),
    ("2,000 resources, each borrowed", resources, 2000, 1000),
]


def broken(texts, member):
    at = texts[-1].rindex("}")
    return texts[:-1] + [texts[-1][:at] + member + "\n}\n"]


if __name__ == "__main__":
    inputs = [(what, texts_of, count, BUILT, bar) for what, texts_of, count, bar in INPUTS]
    measure(os.path.abspath(sys.argv[1]), inputs, [(lambda texts, member=member: broken(texts, member), refused) for member, refused in BREAKS])
