#!/usr/bin/env python3
"""Times the checker of certificates, the length of certificates, instances, axioms and substitution.

Writes a program over a copy of the crates below it into a folder of its own, proves and runs it, and prints what it
measured: of each row the processor time, the least of several runs, and how it grew from the row of half the size
before it. What stands proved in this repository, in the crates' out/, is taken over and not proved again.

    bench/certificates.py [FOLDER]      FOLDER: where the copy is made; a temporary one if it is left out
"""

import os
import shutil
import subprocess
import sys
import tempfile

ROOT = os.path.dirname(os.path.dirname(os.path.abspath(__file__)))

NAMES = ["base", "fol", "substitution", "linear_arith", "axioms", "certificates"]

PROGRAM = r"""//! Times certificates and formulas that grow.
#![tactic(auto)]

use axioms::axiom::{Axiom, Equation, Fact};
use axioms::instance::is_axiom;
use certificates::certificate::{Cause, Cert, Close, Move, MoveNode, Multiple, Step, StepNode};
use certificates::checker::check;
use certificates::bytes::cert_len::cert_len;
use fol::formula::{Formula, Term, TermNode};
use fol::shapes::Shapes;
use substitution::instances::substitute::substitute;
use base::memory::NoMemory;
use base::types::{TypeNode, TypeTerm};
use std::alloc::Global;
use std::time::CpuClock;
use substitution::instance::is_instance;

// How often each call is made; the least time counts.
const RUNS: u32 = 7;

fn main(rt: HostRuntime) -> anyhow::Result<()> {
    time_checks(&rt)?;
    time_formulas(&rt)
}

fn time_checks(rt: &HostRuntime) -> anyhow::Result<()> {
    let alloc = rt.alloc();
    for cuts in [13, 26, 52] {
        timed(rt, "moves in branches of 3,900 entries", &seven(alloc)?, &long(alloc, cuts, 3_900)?)?;
    }
    for count in [999, 1_999, 3_999] {
        timed(rt, "moves of one branch", &seven(alloc)?, &long(alloc, 0, count)?)?;
    }
    for count in [975, 1_950, 3_900] {
        timed(rt, "names on one branch", &unnamed(alloc)?, &named(alloc, count)?)?;
    }
    for count in [250, 500, 1_000] {
        timed(rt, "rows, each with unknowns of its own", &unordered(alloc, count)?, &ordered(alloc, count)?)?;
    }
    Ok(())
}

fn time_formulas(rt: &HostRuntime) -> anyhow::Result<()> {
    let alloc = rt.alloc();
    for count in [12_500, 25_000, 50_000, 100_000] {
        let body = wide(alloc, count)?;
        timed_put(rt, "put in", count, &body, &Term::variable(2))?;
        timed_put(rt, "put in, with binders renamed", count, &body, &Term::variable(1))?;
        timed_axiom(rt, count)?;
    }
    for count in [125, 250, 500, 1_000] {
        let body = nested(alloc, count)?;
        timed_put(rt, "put in, below nested quantifiers", count, &body, &Term::variable(0))?;
    }
    Ok(())
}

// The processor time so far, in microseconds.
fn spent(rt: &HostRuntime) -> anyhow::Result<u128> {
    Ok(rt.thread_cpu_time()?.as_micros())
}

fn whole() -> TypeTerm {
    TypeTerm {
        node: TypeNode::Num,
    }
}

fn seven(alloc: Global) -> Result<Formula, NoMemory> {
    Ok(Formula::has_type(whole(), Box::new(alloc, Term::number(7))?))
}

fn not(alloc: Global, formula: Formula) -> Result<Formula, NoMemory> {
    Ok(Formula::not(Box::new(alloc, formula)?))
}

fn equal(alloc: Global, left: u32, right: u32) -> Result<Formula, NoMemory> {
    let left = Box::new(alloc, Term::variable(left))?;
    Ok(Formula::equal(left, Box::new(alloc, Term::variable(right))?))
}

fn some_equal(alloc: Global) -> Result<Formula, NoMemory> {
    let body = Box::new(alloc, equal(alloc, 0, 1)?)?;
    Ok(Formula::exists(1, Vec::new(alloc), body))
}

fn add(moves: &mut Vec<Move>, node: MoveNode) -> Result<(), NoMemory> {
    moves.push(Move { node })?;
    Ok(())
}

fn add_step(moves: &mut Vec<Move>, node: StepNode) -> Result<(), NoMemory> {
    add(moves, MoveNode::Straight(Step { node }))
}

// So many steps that say that 7 is a whole number, and then a clash with the first entry.
fn add_branch(alloc: Global, moves: &mut Vec<Move>, count: u32) -> Result<(), NoMemory> {
    for _ in 0..count {
        add_step(moves, StepNode::Axiom(Axiom::Plain(Fact::Whole), seven(alloc)?))?;
    }
    add(moves, MoveNode::Closed(Close::Clash(count, 0)))
}

// Cuts one after another, of which each has such a branch in its first case, and such a branch in the last case.
fn long(alloc: Global, cuts: u32, count: u32) -> Result<Cert, NoMemory> {
    let mut moves = Vec::new(alloc);
    for _ in 0..cuts {
        let mut cases = Vec::new(alloc);
        cases.push(seven(alloc)?)?;
        cases.push(not(alloc, seven(alloc)?)?)?;
        add(&mut moves, MoveNode::Forked(Cause::Cut, cases))?;
        add_branch(alloc, &mut moves, count)?;
    }
    add_branch(alloc, &mut moves, count)?;
    Ok(Cert { moves })
}

fn unnamed(alloc: Global) -> Result<Formula, NoMemory> {
    not(alloc, some_equal(alloc)?)
}

// So many names of one value; the branch is not closed.
fn named(alloc: Global, count: u32) -> Result<Cert, NoMemory> {
    let mut moves = Vec::new(alloc);
    let mut parts = Vec::new(alloc);
    parts.push(some_equal(alloc)?)?;
    add_step(&mut moves, StepNode::Parts(0, parts))?;
    for i in 0..count {
        let name = 10u32.saturating_add(i);
        add_step(&mut moves, StepNode::Name(1, name, equal(alloc, 0, name)?))?;
    }
    Ok(Cert { moves })
}

fn rows(alloc: Global, count: u32) -> Result<Vec<Formula>, NoMemory> {
    let mut rows = Vec::new(alloc);
    for i in 0..count {
        let next = i.saturating_add(1);
        let left = Box::new(alloc, Term::variable(i))?;
        rows.push(Formula::at_most(left, Box::new(alloc, Term::variable(next))?))?;
    }
    let last = Box::new(alloc, Term::variable(count))?;
    let more = Term::sum(last, Box::new(alloc, Term::number(1))?);
    let more = Box::new(alloc, more)?;
    rows.push(Formula::at_most(more, Box::new(alloc, Term::variable(0))?))?;
    Ok(rows)
}

fn unordered(alloc: Global, count: u32) -> Result<Formula, NoMemory> {
    not(alloc, Formula::all_of(rows(alloc, count)?))
}

// The rows go in a circle, and their sum says that 1 is at most 0.
fn ordered(alloc: Global, count: u32) -> Result<Cert, NoMemory> {
    let mut moves = Vec::new(alloc);
    let mut parts = Vec::new(alloc);
    parts.push(Formula::all_of(rows(alloc, count)?))?;
    add_step(&mut moves, StepNode::Parts(0, parts))?;
    add_step(&mut moves, StepNode::Parts(1, rows(alloc, count)?))?;
    let mut multiples = Vec::new(alloc);
    for i in 0..count.saturating_add(1) {
        let entry = i.saturating_add(2);
        multiples.push(Multiple { entry, multiplier: 1 })?;
    }
    add(&mut moves, MoveNode::Closed(Close::Linear(multiples)))?;
    Ok(Cert { moves })
}

fn timed(rt: &HostRuntime, name: &str, formula: &Formula, cert: &Cert) -> anyhow::Result<()> {
    let shapes = Shapes::new(rt.alloc());
    let moves = cert.moves.len();
    let mut accepted = false;
    let mut bytes = 0;
    let mut checked = u128::MAX;
    let mut counted = u128::MAX;
    for _ in 0..RUNS {
        let start = spent(rt)?;
        accepted = check(&shapes, formula, cert);
        let between = spent(rt)?;
        bytes = cert_len(cert);
        let end = spent(rt)?;
        checked = checked.min(between.saturating_sub(start));
        counted = counted.min(end.saturating_sub(between));
    }
    println!(rt; "{name}, accepted {accepted}|{moves}|{checked}")?;
    println!(rt; "length of {name}|{bytes}|{counted}")?;
    Ok(())
}

// All of so many formulas that say that each value of 1 equals 0.
fn wide(alloc: Global, count: u32) -> Result<Formula, NoMemory> {
    let mut formulas = Vec::new(alloc);
    for _ in 0..count {
        let body = Box::new(alloc, equal(alloc, 0, 1)?)?;
        formulas.push(Formula::for_all(1, Vec::new(alloc), body))?;
    }
    Ok(Formula::all_of(formulas))
}

// So many quantifiers, each over those further inside and an equation of its variable and 0.
fn nested(alloc: Global, count: u32) -> Result<Formula, NoMemory> {
    let mut body = equal(alloc, 0, 0)?;
    for i in 0..count {
        let bound = i.saturating_add(1);
        let mut both = Vec::new(alloc);
        both.push(equal(alloc, 0, bound)?)?;
        both.push(body)?;
        let both = Box::new(alloc, Formula::all_of(both))?;
        body = Formula::for_all(bound, Vec::new(alloc), both);
    }
    Ok(body)
}

fn timed_put(
    rt: &HostRuntime,
    name: &str,
    count: u32,
    body: &Formula,
    term: &Term,
) -> anyhow::Result<()> {
    let mut is_one = false;
    let mut put = u128::MAX;
    let mut told = u128::MAX;
    for _ in 0..RUNS {
        let start = spent(rt)?;
        let made = substitute(rt.alloc(), body, 0, term)?;
        let between = spent(rt)?;
        is_one = is_instance(body, 0, term, &made);
        let end = spent(rt)?;
        put = put.min(between.saturating_sub(start));
        told = told.min(end.saturating_sub(between));
    }
    println!(rt; "{name}|{count}|{put}")?;
    println!(rt; "instance, {name}, {is_one}|{count}|{told}")?;
    Ok(())
}

fn timed_axiom(rt: &HostRuntime, count: u32) -> anyhow::Result<()> {
    let alloc = rt.alloc();
    let left = pack(alloc, count)?;
    let same = Formula::equal(Box::new(alloc, left)?, Box::new(alloc, pack(alloc, count)?)?);
    let shapes = Shapes::new(alloc);
    let mut is_one = false;
    let mut told = u128::MAX;
    for _ in 0..RUNS {
        let start = spent(rt)?;
        is_one = is_axiom(&shapes, Axiom::Equal(Equation::Itself), &same);
        told = told.min(spent(rt)?.saturating_sub(start));
    }
    println!(rt; "axiom, {is_one}|{count}|{told}")?;
    Ok(())
}

fn pack(alloc: Global, count: u32) -> Result<Term, NoMemory> {
    let mut terms = Vec::new(alloc);
    for _ in 0..count {
        terms.push(Term::variable(0))?;
    }
    let node = TermNode::Pack(whole(), terms);
    Ok(Term { node })
}
"""


def crates_below():
    """The lines of crates.txt about the crates that the program stands on."""
    with open(os.path.join(ROOT, "crates.txt"), encoding="utf-8") as file:
        return "".join(line for line in file if line.split(":")[0] in NAMES)


def copy(crates, name):
    """Copies a crate, with the library that was proved of it, if there is one; rt tells whether it is of this text."""
    source, target = os.path.join(ROOT, "crates", name), os.path.join(crates, name)
    left_out = shutil.ignore_patterns("out", "must-fail")
    shutil.copytree(source, target, dirs_exist_ok=True, ignore=left_out)
    proved = os.path.join(source, "out", "rlib")
    if os.path.isdir(proved):
        shutil.copytree(proved, os.path.join(target, "out", "rlib"), dirs_exist_ok=True)


def prepare(folder):
    """Writes the program and the crates below it, and gives the program's folder."""
    crates = os.path.join(folder, "crates")
    for name in NAMES:
        copy(crates, name)
    with open(os.path.join(folder, "crates.txt"), "w", encoding="utf-8") as file:
        file.write(crates_below() + "times: base fol substitution axioms certificates anyhow\n")
    target = os.path.join(crates, "times")
    os.makedirs(os.path.join(target, "src"), exist_ok=True)
    with open(os.path.join(target, "src", "main.rt"), "w", encoding="utf-8") as file:
        file.write(PROGRAM)
    open(os.path.join(target, "stdin"), "w", encoding="utf-8").close()
    open(os.path.join(target, "stdout"), "w", encoding="utf-8").close()
    return target


def measure(folder) -> int:
    target = prepare(folder)
    made = subprocess.run(["rt", "run", "--jobs", "1"], cwd=target, check=False, capture_output=True, text=True)
    program = os.path.join(target, "out", "times")
    if not os.path.exists(program):
        print(made.stdout[-3000:], made.stderr[-3000:])
        return 1
    done = subprocess.run([program], check=False, capture_output=True, text=True)
    last = {}
    for line in done.stdout.splitlines():
        name, size, micros = line.rsplit("|", 2)
        grown = ""
        if name in last:
            before = last[name]
            grown = f", {int(micros) / max(1, before[1]):.1f} times for {int(size) / before[0]:.1f}"
        last[name] = int(size), int(micros)
        print(f"{name}: {int(size):,}, {int(micros) / 1000:.1f} ms{grown}")
    return done.returncode


def main() -> int:
    if len(sys.argv) > 1:
        return measure(sys.argv[1])
    with tempfile.TemporaryDirectory(prefix="certificates.") as folder:
        return measure(folder)


if __name__ == "__main__":
    sys.exit(main())
