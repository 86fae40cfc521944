#!/usr/bin/env python3
"""Times `linear_arith::solve` on systems of rows.

Writes a program over a copy of the crates below it into a folder of its own, proves and runs it on
systems that this script draws, and prints of each its rows, its unknowns, the answer, and the time.

    bench/linear_rows.py [FOLDER]      FOLDER: where the copy is made; a temporary one if it is left out
"""

import os
import random
import shutil
import subprocess
import sys
import tempfile

ROOT = os.path.dirname(os.path.dirname(os.path.abspath(__file__)))

PROGRAM = r"""//! Times the solver on the systems that stand on the standard input: a row a line, its coefficients and its
//! bound; `end` ends a system.
#![tactic(auto)]

use linear_arith::solve;
use linear_arith::rows::{LinAnswer, LinRow, Rows};
use std::alloc::Global;
use std::io::{BufRead, BufReader};
use std::time::Instant;

fn main(rt: HostRuntime) -> anyhow::Result<()> {
    let alloc = rt.alloc();
    let input = BufReader::new(alloc, rt.stdin())?;
    let mut rows = Rows::new(alloc);
    for line in input.lines(alloc) {
        let line = line?;
        if line.as_str() == "end" {
            timed(&rt, &rows)?;
            rows = Rows::new(alloc);
        } else {
            rows.push(row_of(alloc, line.as_str())?)?;
        }
    }
    Ok(())
}

fn row_of(alloc: Global, line: &str) -> anyhow::Result<LinRow> {
    let mut coefficients = Vec::new(alloc);
    for word in line.split(' ') {
        coefficients.push(word.parse::<i128>()?)?;
    }
    let bound = coefficients.pop().unwrap_or(0);
    Ok(LinRow::new(coefficients, bound))
}

fn timed(rt: &HostRuntime, rows: &Rows) -> anyhow::Result<()> {
    let start = Instant::now(rt)?;
    let answer = solve(rt.alloc(), rows)?;
    let micros = start.elapsed(rt)?.as_micros();
    let kind = match &answer {
        LinAnswer::Infeasible(_) => "infeasible",
        LinAnswer::Feasible(_) => "feasible",
        LinAnswer::Wide(_, _) => "wide",
        LinAnswer::TooManyRows(_) => "too many rows",
    };
    println!(rt; "{kind}, {micros} us")?;
    Ok(())
}
"""


def row(width, entries, bound):
    numbers = [0] * width
    for unknown, number in entries:
        numbers[unknown] += number
    return numbers + [bound]


def sums(draw, count, width, equations):
    """Bounds of each unknown as of a u64, equations of sums of two, and orders between two unknowns."""
    rows = []
    for unknown in range(width):
        rows.append(row(width, [(unknown, 1)], 2**64 - 1))
        rows.append(row(width, [(unknown, -1)], 0))
    for _ in range(equations):
        total, left, right = draw.sample(range(width), 3)
        rows.append(row(width, [(total, 1), (left, -1), (right, -1)], 0))
        rows.append(row(width, [(total, -1), (left, 1), (right, 1)], 0))
    while len(rows) < count:
        less, greater = draw.sample(range(width), 2)
        rows.append(row(width, [(less, 1), (greater, -1)], draw.randrange(1000)))
    return rows


def sparse(draw, count, width):
    """Rows with two small coefficients each."""
    rows = []
    for _ in range(count):
        left, right = draw.sample(range(width), 2)
        rows.append(row(width, [(left, draw.randint(-4, 4)), (right, draw.randint(-4, 4))], draw.randrange(200)))
    return rows


def systems():
    draw = random.Random(1)
    for count in (60, 80, 100):
        for equations in (0, 2, 4, 8):
            if 40 + 2 * equations <= count:
                yield f"sums of u64, {equations} equations", 20, sums(draw, count, 20, equations)
    for count, width in ((10, 5), (10, 20), (100, 5), (100, 20), (100, 40), (1000, 5), (1000, 40)):
        yield "two small coefficients", width, sparse(draw, count, width)


def main() -> int:
    folder = sys.argv[1] if len(sys.argv) > 1 else tempfile.mkdtemp(prefix="linear_rows.")
    crates = os.path.join(folder, "crates")
    for name in ["base", "linear_arith"]:
        target = os.path.join(crates, name)
        shutil.copytree(os.path.join(ROOT, "crates", name), target, dirs_exist_ok=True, ignore=shutil.ignore_patterns("out", "must-fail"))
    with open(os.path.join(folder, "crates.txt"), "w", encoding="utf-8") as file:
        file.write("base: indexmap\nlinear_arith: base\ntimes: linear_arith anyhow\n")
    target = os.path.join(crates, "times")
    os.makedirs(os.path.join(target, "src"), exist_ok=True)
    with open(os.path.join(target, "src", "main.rt"), "w", encoding="utf-8") as file:
        file.write(PROGRAM)
    drawn = list(systems())
    with open(os.path.join(target, "stdin"), "w", encoding="utf-8") as file:
        for _, _, rows in drawn:
            for numbers in rows:
                file.write(" ".join(str(number) for number in numbers) + "\n")
            file.write("end\n")
    open(os.path.join(target, "stdout"), "w", encoding="utf-8").close()
    made = subprocess.run(["rt", "run"], cwd=target, check=False, capture_output=True, text=True)
    if made.returncode != 0:
        print(made.stdout[-2000:], made.stderr[-2000:])
        return 1
    with open(os.path.join(target, "stdin"), encoding="utf-8") as file:
        done = subprocess.run([os.path.join(target, "out", "times")], stdin=file, check=False, capture_output=True, text=True)
    for (name, width, rows), line in zip(drawn, done.stdout.splitlines()):
        print(f"{name}: {len(rows)} rows, {width} unknowns: {line}")
    return done.returncode


if __name__ == "__main__":
    sys.exit(main())
