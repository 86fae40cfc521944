#!/usr/bin/env python3
"""speed.py PROGRAM [COUNT..]: the program's time and peak memory on files of COUNT functions.

Without counts: 100, 1,000 and 2,000 functions with comments, of which the last file has about 1 MiB; then
3,990 functions with no comment, which is a file of nearly 200,000 tokens, and the same functions over 64
files. The times of one run of this script are to be compared with one another: they grow in proportion to
the file. The peak is never shown below what this script itself takes, about 10 MB.
"""
import os
import subprocess
import sys
import tempfile
import time

COUNTS = [100, 1000, 2000]

FUNCTION = """\
    /// What number {k:04} costs, and how much of it there is: the sum of an amount and a fee. The caller has
    /// looked at both, and neither is above what is left of a balance, so that the sum is in range, or
    /// the call aborts and nothing is taken from any account.
    fun cost_{k:04}(amount: u64, fee: u64): u64 {{ amount + fee }}
    spec cost_{k:04} {{
        aborts_if amount + fee > MAX_U64;
        ensures result == amount + fee;
        ensures result >= amount;
        ensures fee <= result;
    }}
"""

# 50 tokens
DENSE_COUNT = 3990
DENSE = """\
#[view] fun cost_{k:04}(a: u64, b: u64): u64 {{ a + b }}
spec cost_{k:04} {{
aborts_if a + b > MAX_U64;
ensures result == a + b;
ensures result >= a;
ensures b <= result;
}}
"""


def module(count, function=FUNCTION, name="m"):
    """A module of so many functions, each with four clauses."""
    functions = "\n".join(function.format(k=k) for k in range(count))
    return "module 0x1::" + name + " {\n" + functions + "}\n"


def run(program, folder, names):
    """The status, the last line of output, the seconds and the peak megabytes of one run."""
    begin = time.monotonic()
    with open(os.path.join(folder, "out"), "w+") as out:
        child = subprocess.Popen([program] + names, cwd=folder, stdout=out)
        _, wait_status, usage = os.wait4(child.pid, 0)
        seconds = time.monotonic() - begin
        out.seek(0)
        lines = out.read().splitlines()
    child.returncode = os.waitstatus_to_exitcode(wait_status)
    return child.returncode, lines[-1] if lines else "", seconds, usage.ru_maxrss / 1024


def measure(program, count, texts):
    """One line of the table: of files with these texts, which have so many functions together."""
    with tempfile.TemporaryDirectory() as folder:
        names = [f"a{number:02}.move" for number in range(len(texts))]
        for name, text in zip(names, texts):
            with open(os.path.join(folder, name), "w") as file:
                file.write(text)
        status, last, seconds, peak = run(program, folder, names)
    size = sum(len(text) for text in texts)
    each = 1000 * seconds / count
    print(f"{len(texts):5} {count:9} {size:8} {seconds:8.3f} {each:12.3f} {peak:8.1f} {status:7}  {last}")


def main():
    if len(sys.argv) < 2:
        sys.exit(__doc__)
    program = os.path.abspath(sys.argv[1])
    counts = [int(word) for word in sys.argv[2:]]
    print("files functions    bytes  seconds  ms/function  peak MB  status  last line")
    for count in counts or COUNTS:
        measure(program, count, [module(count)])
    if not counts:
        measure(program, DENSE_COUNT, [module(DENSE_COUNT, DENSE)])
        share = DENSE_COUNT // 64
        measure(program, share * 64, [module(share, DENSE, f"m{number}") for number in range(64)])


main()
