#!/usr/bin/env python3
"""How far and how fast `certificate_text::prover::prove` reaches: families of formulas, valid ones and others.

Writes a program over a copy of the crates below it into a folder of its own, proves and runs it on formulas that this
script draws, and prints for each family how many valid formulas are proved, how many of the others end open, the median
and the greatest time, and each disagreement. Whether a formula is valid is known by how it was made, or by an evaluation
of this script's own. A formula that is proved and not valid ends the script with status 1.

    bench/families.py [--folder FOLDER] [--count N] [--seed N] [--seconds N] [FAMILY..]

FOLDER is where the copy is made; a temporary one if it is left out. Each formula has a run of its own, which is ended after
so many seconds, 10 if they are left out, and then counts as `late`.
"""

import argparse
import itertools
import os
import random
import shutil
import statistics
import subprocess
import sys
import tempfile

ROOT = os.path.dirname(os.path.dirname(os.path.abspath(__file__)))

PROGRAM = r"""//! Proves the formulas that stand on the standard input, one a line, as words.
#![tactic(auto)]

mod structs;
mod words;

ghost use Rattle.std.specs.Prelude.{◌≡◌, ◌<◌};
ghost use Rattle.axiom_instances.specs.StructRows.{HasFewFields};

use crate::structs::shapes;
use crate::words::formula_of;
use fol::formula::Formula;
use fol::shapes::Shapes;
use strategy::deciders::FormulaDeciders;
use certificate_text::prover::answer::Answer;
use certificate_text::prover::prove;
use search::end::End;
use base::memory::NoMemory;
use base::steps::Steps;
use std::alloc::Global;
use std::io::{BufRead, BufReader};
use std::marker::Brand;
use std::sync::ledger::{Blank, Ledger};
use std::time::Instant;

const BUDGET: u64 = 20_000;

fn main(rt: HostRuntime) -> anyhow::Result<()> {
    let alloc = rt.alloc();
    let input = BufReader::new(alloc, rt.stdin())?;
    let shapes = shapes(alloc)?;
    for line in input.lines(alloc) {
        let line = line?;
        if let Ok(formula) = formula_of(alloc, line.as_str()) {
            timed::<Brand>(&rt, &shapes, &formula, Blank::new(1))?;
        }
    }
    Ok(())
}

fn timed<L: Ledger>(
    rt: &HostRuntime,
    shapes: &Shapes,
    formula: &Formula,
    blank: Blank,
) -> anyhow::Result<()>
    requires few { HasFewFields shapes.now }
    requires name { blank.name ≡ L.name }
    requires parts { blank.parts ≡ L.parts }
    requires some { 0 < L.parts }
{
    let start = Instant::now(rt)?;
    let answer = answer_to::<L>(rt.alloc(), shapes, formula, blank)?;
    let micros = start.elapsed(rt)?.as_micros();
    let word = word(&answer);
    println!(rt; "{word} {micros}")?;
    Ok(())
}

fn answer_to<L: Ledger>(
    alloc: Global,
    shapes: &Shapes,
    formula: &Formula,
    blank: Blank,
) -> Result<Answer, NoMemory>
    requires few { HasFewFields shapes.now }
    requires name { blank.name ≡ L.name }
    requires parts { blank.parts ≡ L.parts }
    requires some { 0 < L.parts }
{
    let mut steps = Steps::<L>::new(blank);
    let mut deciders = FormulaDeciders::new(alloc, shapes);
    prove(alloc, &mut deciders, formula, BUDGET, &mut steps)
}

fn word(answer: &Answer) -> &'static str {
    match answer {
        Answer::Ended(search) => word_of(&search.outcome.end),
        Answer::TooLong(_, _) => "long",
        Answer::WideNumeral(_) => "numeral",
    }
}

fn word_of(end: &End) -> &'static str {
    match end {
        End::Proved => "proved",
        End::Open(_) => "open",
        End::Spent | End::SpentInChain(_, _) => "budget",
        End::Wide(_, _) => "wide",
        End::TooManyRows(_) => "rows",
        End::Full => "full",
    }
}
"""

# What the program is proved with: by file below proofs/.
PROOFS = {
    "main/Invariants.antt": """use Rattle.families.proofs.main.Given as goal

abbrev pub ghosts-timed : goal.ghosts-timed
ghosts-timed a = record { name = a.blank.name; parts = a.blank.parts }
""",
    "answer_to/Invariants.antt": """use Rattle.families.proofs.answer_to.Given as goal

abbrev pub ghost-prove : goal.ghost-prove
ghost-prove g a = record { formula = a.formula.now; budget = a.budget }
""",
}


# ---- formulas as words

def x(k):
    return f"x:{k}"


def n(i):
    return f"n:{i}"


def words(*parts):
    return " ".join(parts)


def op(head, *parts):
    return words(*parts, head)


def conj(parts):
    return words(*parts, f"and:{len(parts)}")


def disj(parts):
    return words(*parts, f"or:{len(parts)}")


def neg(p):
    return op("not", p)


def implies(premises, claim):
    return op("implies", conj(premises), claim)


def total(parts):
    """The sum of terms, from the left."""
    made = parts[0]
    for part in parts[1:]:
        made = op("+", made, part)
    return made


def scaled(c, t):
    return op("*", n(c), t)


# ---- families: each gives pairs of a formula and whether it is valid

def sums(draw):
    """A positive combination of inequalities follows from them; one with a greater bound does not."""
    names = draw.randint(3, 8)
    rows = []
    for _ in range(draw.randint(3, 8)):
        rows.append([draw.randint(-3, 3) for _ in range(names)])
    at = [draw.randint(-20, 20) for _ in range(names)]
    premises, bounds = [], []
    for row in rows:
        value = sum(c * v for c, v in zip(row, at))
        bounds.append(value)
        premises.append(op("<=", total([scaled(c, x(i)) for i, c in enumerate(row)]), n(value)))
    factors = [draw.randint(0, 3) for _ in rows]
    combined = [sum(f * row[i] for f, row in zip(factors, rows)) for i in range(names)]
    bound = sum(f * b for f, b in zip(factors, bounds))
    valid = draw.random() < 0.7
    # all premises are met with equality at the point, where the sum is the bound
    claimed = bound if valid else bound - draw.randint(1, 5)
    claim = op("<=", total([scaled(c, x(i)) for i, c in enumerate(combined)]), n(claimed))
    return implies([op("is:num", x(i)) for i in range(names)] + premises, claim), valid


def parity(draw):
    """No multiple of k lies between two bounds, or k*x = k*y + r."""
    k = draw.randint(2, 9)
    whole = [op("is:num", x(0)), op("is:num", x(1))]
    if draw.random() < 0.5:
        r = draw.randint(0, k - 1) if draw.random() < 0.8 else 0
        claim = neg(op("=", scaled(k, x(0)), op("+", scaled(k, x(1)), n(r))))
        return implies(whole, claim), r % k != 0
    low = draw.randint(-30, 30)
    high = low + draw.randint(0, k)
    none = not any(i % k == 0 for i in range(low, high + 1))
    t = scaled(k, x(0))
    return implies(whole[:1] + [op("<=", n(low), t)], neg(op("<=", t, n(high)))), none


def division(draw):
    d = draw.randint(1, 50)
    kind = draw.randrange(4)
    whole = [op("is:num", x(0))]
    q, r = op("/", x(0), n(d)), op("%", x(0), n(d))
    if kind == 0:
        off = 0 if draw.random() < 0.7 else draw.choice([-1, 1])
        return implies(whole, op("=", x(0), op("+", op("+", scaled(d, q), r), n(off)))), off == 0
    if kind == 1:
        most = d - 1 if draw.random() < 0.7 else d - 2
        return implies(whole, conj([op("<=", n(0), r), op("<=", r, n(most))])), most >= d - 1
    if kind == 2:
        k = draw.randint(-5, 5)
        more = k if draw.random() < 0.7 else k + 1
        moved = op("/", op("+", x(0), n(k * d)), n(d))
        return implies(whole, op("=", moved, op("+", q, n(more)))), more == k
    rest = draw.randint(0, d - 1)
    said = rest if draw.random() < 0.7 else (rest + 1) % (d + 1)
    made = op("+", scaled(d, x(0)), n(rest))
    return implies(whole, op("=", op("%", made, n(d)), n(said))), said == rest


def stores(draw):
    """A chain of 30 stores at whole numbers, read at one of them or at another."""
    values, memory = {}, x(0)
    for step in range(30):
        key = draw.randint(0, 15)
        memory = op("store", memory, n(key), x(1 + step))
        values[key] = x(1 + step)
    key = draw.randint(0, 17)
    right = values.get(key, op("select", x(0), n(key)))
    said = right if draw.random() < 0.7 else x(40)
    return op("=", op("select", memory, n(key)), said), said == right


def vectors(draw):
    """20 operations on a vector of known elements, each result named; a length or an element is asked for."""
    items, vector, premises = [], "empty", []
    for step in range(20):
        fresh = x(100 + step)
        kind = draw.randrange(6)
        if kind <= 2 or len(items) < 2:
            made = op("push", vector, fresh)
            items.append(fresh)
        elif kind == 3:
            made = op("pop", vector)
            items.pop()
        elif kind == 4:
            i = draw.randrange(len(items))
            made = op("set", vector, n(i), fresh)
            items[i] = fresh
        else:
            i, j = draw.sample(range(len(items)), 2)
            one, other = op("at", vector, n(i)), op("at", vector, n(j))
            made = op("set", op("set", vector, n(i), other), n(j), one)
            items[i], items[j] = items[j], items[i]
        vector = x(step)
        premises.append(op("=", vector, made))
    if draw.random() < 0.3 or not items:
        off = 0 if draw.random() < 0.7 else 1
        return implies(premises, op("=", op("len", vector), n(len(items) + off))), off == 0
    i = draw.randrange(len(items))
    said = items[i] if draw.random() < 0.7 else x(200)
    return implies(premises, op("=", op("at", vector, n(i)), said)), said == items[i]


def structs(draw):
    """20 fields are set in a struct, each result named, and one is read."""
    count = draw.randint(5, 9)
    premises, values = [op(f"is:{count}", x(0))], {}
    for step in range(20):
        j, fresh = draw.randrange(count), x(100 + step)
        premises.append(op("is:num", fresh))
        premises.append(op("=", x(step + 1), op(f"put:{count}:{j}", x(step), fresh)))
        # no axiom gives the type of a struct with a field set, so the type of each value is said, as of any other value
        premises.append(op(f"is:{count}", x(step + 1)))
        values[j] = fresh
    j = draw.choice(sorted(values))
    said = values[j] if draw.random() < 0.7 else x(200)
    return implies(premises, op("=", op(f"field:{count}:{j}", x(20)), said)), said == values[j]


def choices(draw):
    """A nest of 12 choices between numbers, each at most a bound."""
    depth = 12
    value = x(depth)
    bounded = [op("<=", x(depth), n(100))]
    for k in range(depth):
        value = op("if", op("holds", x(20 + k)), x(k), value)
        bounded.append(op("<=", x(k), n(100)))
    valid = draw.random() < 0.7
    if not valid:
        bounded.pop(draw.randrange(len(bounded)))
    return implies(bounded, op("<=", value, n(100))), valid


def clauses(draw):
    """30 clauses over 12 names have no model."""
    names, made = 12, []
    for _ in range(30):
        made.append([(k, draw.random() < 0.5) for k in draw.sample(range(names), draw.choice([2, 2, 3]))])
    if draw.random() < 0.3:
        made = [[(k, draw.random() < 0.5) for k in draw.sample(range(names), 3)] for _ in range(30)]
    has_model = any(
        all(any(bits[k] == sign for k, sign in clause) for clause in made)
        for bits in itertools.product([False, True], repeat=names)
    )
    atoms = [op("holds", x(k)) for k in range(names)]
    said = [disj([atoms[k] if sign else neg(atoms[k]) for k, sign in clause]) for clause in made]
    return neg(conj(said)), not has_model


def between(low, t, high):
    return [op("<=", low, t), op("<=", op("+", t, n(1)), high)]


def quantifiers(draw):
    kind = draw.randrange(3)
    valid = draw.random() < 0.7
    v, i = x(0), x(9)
    if kind == 0:
        # all elements below a bound stay so when one below it is pushed, or set
        read = op("at", v, i)
        all_below = words(op("implies", conj([op("is:num", i)] + between(n(0), i, op("len", v))), op("<=", read, n(10))), read, "all:9:1")
        made = op("push", v, x(1)) if draw.random() < 0.5 else op("set", v, x(3), x(1))
        j = x(2)
        premises = [op("is:vector", v), op("is:num", x(1)), op("is:num", x(3)), all_below, op("is:num", j)]
        premises += between(n(0), j, op("len", made)) + between(n(0), x(3), op("len", v))
        if valid:
            premises.append(op("<=", x(1), n(10)))
        return implies(premises, op("<=", op("at", made, j), n(10))), valid
    if kind == 1:
        # a frame condition over all keys but one
        one, other = x(0), x(1)
        read = op("select", other, i)
        frame = words(op("implies", neg(op("=", i, x(2))), op("=", read, op("select", one, i))), read, "all:9:1")
        premises = [frame] + ([neg(op("=", x(3), x(2)))] if valid else [])
        return implies(premises, op("=", op("select", other, x(3)), op("select", one, x(3)))), valid
    # two sorted facts
    j = x(8)
    ordered = op("<=", op("at", v, i), op("at", v, j))
    inner = words(op("implies", op("<=", i, j), ordered), op("at", v, j), "all:8:1")
    sorted_fact = words(inner, op("at", v, i), "all:9:1")
    claim = op("<=", op("+", op("at", v, x(1)), op("at", v, x(2))), op("+", op("at", v, x(3)), op("at", v, x(4))))
    premises = [sorted_fact, op("<=", x(1), x(3))] + ([op("<=", x(2), x(4))] if valid else [])
    return implies(premises, claim), valid


FAMILIES = {
    "sums": sums,
    "parity": parity,
    "division": division,
    "stores": stores,
    "vectors": vectors,
    "structs": structs,
    "choices": choices,
    "clauses": clauses,
    "quantifiers": quantifiers,
}


# ---- the program

def lines_below(name):
    """The names of the crates that this one stands on, and the lines of crates.txt about them."""
    lines = {}
    with open(os.path.join(ROOT, "crates.txt"), encoding="utf-8") as file:
        for line in file:
            if ":" in line:
                lines[line.split(":")[0]] = line
    wanted, waiting = set(), [name]
    while waiting:
        next_name = waiting.pop()
        if next_name in lines and next_name not in wanted:
            wanted.add(next_name)
            waiting += lines[next_name].split(":")[1].split()
    return wanted, "".join(line for key, line in lines.items() if key in wanted)


def copy(crates, name):
    """Copies a crate, with the library that was proved of it, if there is one; rt tells whether it is of this text."""
    source, target = os.path.join(ROOT, "crates", name), os.path.join(crates, name)
    shutil.copytree(source, target, dirs_exist_ok=True, ignore=shutil.ignore_patterns("out", "must-fail"))
    proved = os.path.join(source, "out", "rlib")
    if os.path.isdir(proved):
        shutil.copytree(proved, os.path.join(target, "out", "rlib"), dirs_exist_ok=True)


def write(path, text):
    os.makedirs(os.path.dirname(path), exist_ok=True)
    with open(path, "w", encoding="utf-8") as file:
        file.write(text)


def proofs(reader):
    """The proofs of the program, with those of what it takes from the tests."""
    found = dict(PROOFS)
    top = os.path.join(reader, "proofs", "structs")
    for folder, _, names in os.walk(top):
        for name in names:
            path = os.path.join(folder, name)
            with open(path, encoding="utf-8") as file:
                found[os.path.relpath(path, os.path.dirname(top))] = file.read().replace("Rattle.prover_tests.", "Rattle.families.")
    return found


def built(folder):
    """The program, made in the folder."""
    crates = os.path.join(folder, "crates")
    names = set()
    lines = ""
    for top in ["certificate_text", "strategy"]:
        below, said = lines_below(top)
        names |= below
        lines += "".join(line for line in said.splitlines(True) if line not in lines)
    for name in names:
        copy(crates, name)
    write(os.path.join(folder, "crates.txt"), lines + "families: base fol axiom_instances search certificate_text strategy anyhow\n")
    target = os.path.join(crates, "families")
    reader = os.path.join(ROOT, "crates", "prover_tests")
    os.makedirs(os.path.join(target, "src"), exist_ok=True)
    for name in ["words.rt", "structs.rt"]:
        shutil.copy(os.path.join(reader, "src", name), os.path.join(target, "src"))
    write(os.path.join(target, "src", "main.rt"), PROGRAM)
    for name, text in proofs(reader).items():
        write(os.path.join(target, "proofs", name), text)
    for name in ["stdin", "stdout"]:
        write(os.path.join(target, name), "")
    made = subprocess.run(["rt", "run", "--jobs", "1"], cwd=target, check=False, capture_output=True, text=True)
    program = os.path.join(target, "out", "families")
    if not os.path.exists(program):
        sys.exit(made.stdout[-3000:] + made.stderr[-3000:])
    return program


def answer(program, formula, seconds):
    """The word that the program answers for a formula, and the time in microseconds."""
    try:
        done = subprocess.run([program], input=formula + "\n", check=False, capture_output=True, text=True, timeout=seconds)
    except subprocess.TimeoutExpired:
        return "late", seconds * 1_000_000
    said = done.stdout.split()
    return (said[0], said[1]) if len(said) == 2 else ("none", 0)


def measure(program, name, given):
    """Runs a family and prints what came out; gives the number of formulas that are proved and not valid."""
    draw = random.Random(f"{name} {given.seed}")
    formulas = [FAMILIES[name](draw) for _ in range(given.count)]
    answers = [answer(program, formula, given.seconds) for formula, _ in formulas]
    valid, proved, others, wrong, words_of_valid, times = 0, 0, {}, 0, {}, []
    for (formula, is_valid), (word, micros) in zip(formulas, answers):
        times.append(int(micros) / 1000)
        if is_valid:
            valid += 1
            proved += word == "proved"
            words_of_valid[word] = words_of_valid.get(word, 0) + 1
        else:
            others[word] = others.get(word, 0) + 1
            if word == "proved":
                wrong += 1
                print(f"{name}: proved and not valid: {formula}")
    median = statistics.median(times) if times else 0
    print(f"{name}: {proved} of {valid} valid ones proved {words_of_valid}, others {others}; median {median:.1f} ms, greatest {max(times, default=0):.1f} ms")
    return wrong


def main() -> int:
    words_of = argparse.ArgumentParser(description=__doc__.splitlines()[0])
    words_of.add_argument("--folder")
    words_of.add_argument("--count", type=int, default=100)
    words_of.add_argument("--seed", type=int, default=1)
    words_of.add_argument("--seconds", type=int, default=10)
    words_of.add_argument("families", nargs="*")
    given = words_of.parse_args()
    with tempfile.TemporaryDirectory(prefix="families.") as room:
        program = built(given.folder or room)
        wrong = sum(measure(program, name, given) for name in given.families or FAMILIES)
    return 1 if wrong else 0


if __name__ == "__main__":
    sys.exit(main())
