#!/usr/bin/env python3
"""Times the readers of files and of spec blocks, and the spelling of files, and gives the readers broken texts.

Writes a program over a copy of the crates below it into a folder of its own, proves and builds it, and runs it on
texts that this script makes: files of 2,000 to 200,000 tokens, texts of the greatest weight, every prefix of a
file, and files with one token taken out, doubled, or swapped with the next, by a seed. Prints the times, how many
of the broken texts were read or refused, and each line that is none of the answers.

    bench/reading.py [FOLDER]      FOLDER: where the copy is made; a temporary one if it is left out
"""

import collections
import os
import random
import re
import shutil
import subprocess
import sys
import tempfile

ROOT = os.path.dirname(os.path.dirname(os.path.abspath(__file__)))

PROGRAM = r"""//! Times the readers on the texts that stand on the standard input: `end` on a line of its own ends a text. A
//! text that begins with `spec` is the spec block of a function, another one a file.
#![tactic(auto)]

use syntax_tree::slot::Slot;
use syntax_tree::member::File;
use spelling::spell_member::spell;
use parser_base::explain::ParseFault;
use item_parser::denoted::modules;
use item_parser::spec::denoted_block::spec_block;
use tokens::scanner::tokens;
use tokens::token::Tokens;
use tokens::weight::weight;
use std::io::{BufRead, BufReader};
use std::time::Instant;

fn main(rt: HostRuntime) -> anyhow::Result<()> {
    let alloc = rt.alloc();
    let input = BufReader::new(alloc, rt.stdin())?;
    let mut text = Vec::new(alloc);
    for line in input.lines(alloc) {
        let line = line?;
        if line.as_str() == "end" {
            timed(&rt, text.as_slice())?;
            text = Vec::new(alloc);
        } else {
            text.extend_from_slice(line.as_str().as_bytes())?;
            text.push(b'\n')?;
        }
    }
    Ok(())
}

fn kind_of(fault: ParseFault) -> &'static str {
    match fault {
        ParseFault::Grammar(_) => "grammar",
        ParseFault::LeftOut(_, _) => "left out",
        ParseFault::NoMemory => "no memory",
    }
}

fn timed(rt: &HostRuntime, text: &[u8]) -> anyhow::Result<()> {
    if text.len() > 100_000_000 {
        return Ok(());
    }
    let Ok(found) = tokens(rt.alloc(), 0, text) else {
        println!(rt; "no tokens")?;
        return Ok(());
    };
    let weight = weight(&found);
    let count = found.len();
    if text.starts_with(b"spec") {
        timed_block(rt, &found)?;
    } else {
        timed_file(rt, &found)?;
    }
    println!(rt; ", {count} tokens of weight {weight}")?;
    Ok(())
}

fn timed_block(rt: &HostRuntime, found: &Tokens) -> anyhow::Result<()> {
    let start = Instant::now(rt)?;
    let answer = spec_block(rt.alloc(), Slot::Function, found);
    let micros = start.elapsed(rt)?.as_micros();
    let kind = match answer {
        Ok(_) => "read",
        Err(fault) => kind_of(fault),
    };
    print!(rt; "{kind}, {micros} us")?;
    Ok(())
}

fn timed_file(rt: &HostRuntime, found: &Tokens) -> anyhow::Result<()> {
    let start = Instant::now(rt)?;
    let answer = modules(rt.alloc(), found);
    let micros = start.elapsed(rt)?.as_micros();
    match answer {
        Ok(file) => {
            print!(rt; "read, {micros} us, ")?;
            timed_spelling(rt, &file, found)
        }
        Err(fault) => {
            let kind = kind_of(fault);
            print!(rt; "{kind}, {micros} us")?;
            Ok(())
        }
    }
}

fn timed_spelling(rt: &HostRuntime, file: &File, found: &Tokens) -> anyhow::Result<()> {
    let start = Instant::now(rt)?;
    let spelled = spell(rt.alloc(), file);
    let micros = start.elapsed(rt)?.as_micros();
    let kind = match spelled {
        Ok(spelled) => {
            if spelled.as_slice().len() == found.len() {
                "spelled"
            } else {
                "spelled by others"
            }
        }
        Err(_) => "no memory",
    };
    print!(rt; "{kind} in {micros} us")?;
    Ok(())
}
"""

MEMBERS = """
    /// One of many.
    #[test]
    public(friend) entry fun f{0}<T: copy + drop>(x: &mut u64, y: vector<T>, z: bool): (u64, bool) acquires S {{
        let a: u64 = *x + 1 * 2 - (3 as u64);
        let S {{ v, w: _ }} = copy s;
        while ({{ spec {{ invariant a <= 10; }}; a < 10 }}) {{ a = a + 1; if (z) break else continue; }};
        loop {{ a = a + g(vector<u64>[1, 2, 3,], 0x1::m::g<T>(y, @0x1)).v; }};
        assert!(a << 2 > 3 && !z || a >> 1 == 4, 7);
        if (z) {{ return (a, true) }} else {{ abort 3 }};
        (a, a != 4)
    }}
    struct S{0} has copy, drop {{ v: u64, w: vector<vector<u8>> }}
    const C{0}: u64 = 0x10;
    spec f{0} {{ aborts_if x > 3; ensures result_1 == old(x)[1] + {{ 2 }}; }}
"""

SMALL = """module 0x1::m {
    use 0x2::n::{Self, t as u};
    friend a::b;
""" + MEMBERS.format("") + "}\n"


SPEC = """spec f {
    pragma opaque, verify = true;
    requires x > 0 && !y; ensures result == old(x) + g(1, 2)[3].a;
    aborts_if forall i in 0..n {f(i)}: v[i] == S { a: 1, b };
    modifies global<m::S<u64>>(@0x1), global<R>(a);
    let post z = if (a) b else c; include S<u64> { a: 1, b, };
}
"""


def long_file(members):
    return "module 0x1::m {" + "".join(MEMBERS.format(number) for number in range(members)) + "}\n"


def in_function(body):
    return "module 0x1::m { fun f() { " + body + " } }\n"


def speed_texts():
    for members in (9, 90, 790):
        yield f"{members} times four members", long_file(members)
    yield "one block of 60,000 statements", in_function("a; " * 60000)
    yield "one block of assignments", in_function("a = b + c; " * 33000)
    yield "one call of arguments", in_function("f(" + "a, " * 99000 + ")")
    yield "operators", in_function("a" + " + a" * 197)
    yield "parentheses", in_function("(" * 197 + "a" + ")" * 197)
    yield "blocks", in_function("{ " * 197 + "a" + " }" * 197)
    yield "conditions", in_function("if (a) " * 197 + "b")
    yield "types", "module 0x1::m { struct S { a: " + "vector<" * 98 + "u8" + " >" * 98 + " } }\n"
    for clauses in (100, 8000):
        yield f"{clauses} clauses", "spec f { " + "ensures result == old(x)[1] + y && (forall z: u64: z < 2); " * clauses + "}\n"
    yield "parentheses in a clause", "spec f { ensures " + "(" * 198 + "a" + ")" * 198 + "; }\n"
    yield "quantifiers in a clause", "spec f { ensures " + "forall x: u64: " * 198 + "a; }\n"


def pieces(text):
    """The tokens of a text, each with the blanks behind it."""
    text = re.sub(r"//.*", "", text)
    return re.findall(r"(?:\w+|==|!=|<=|>=|<<|&&|\|\||::|\S)\s*", text)


def broken_texts():
    yield from broken(SMALL)
    yield from broken(SPEC)
    for marker in ("inline", "with", "u256", "// u256", "/* inline */", "b\"with\""):
        yield SMALL.replace("loop {", marker + "\n loop {", 1)


def broken(text):
    words = pieces(text)
    for end in range(len(words)):
        yield "".join(words[:end])
    draw = random.Random(1)
    for _ in range(3000):
        index = draw.randrange(len(words) - 1)
        kind = draw.randrange(4)
        if kind == 0:
            changed = words[:index] + words[index + 1:]
        elif kind == 1:
            changed = words[:index] + [words[index]] + words[index:]
        elif kind == 2:
            changed = words[:index] + [words[index + 1], words[index]] + words[index + 2:]
        else:
            changed = words[:index] + [draw.choice(words)] + words[index + 1:]
        yield "".join(changed)


def crates():
    """Each crate up to the readers, in order, with its line of `crates.txt`."""
    with open(os.path.join(ROOT, "crates.txt"), encoding="utf-8") as file:
        lines = [line.strip() for line in file if ":" in line and not line.startswith("#")]
    uses = {line.split(":")[0]: line.split(":")[1].split() for line in lines}
    needed = set(uses["item_parser"]) | {"item_parser", "spelling"}
    return [line for line in lines if line.split(":")[0] in needed], sorted(needed)


def run(program, texts):
    lines = "".join(text.rstrip("\n") + "\nend\n" for text in texts)
    return subprocess.run([program], input=lines, check=False, capture_output=True, text=True)


def main() -> int:
    folder = sys.argv[1] if len(sys.argv) > 1 else tempfile.mkdtemp(prefix="reading.")
    lines, needed = crates()
    for name in needed:
        target = os.path.join(folder, "crates", name)
        shutil.copytree(os.path.join(ROOT, "crates", name), target, dirs_exist_ok=True, ignore=shutil.ignore_patterns("out", "must-fail"))
    with open(os.path.join(folder, "crates.txt"), "w", encoding="utf-8") as file:
        file.write("\n".join(lines) + "\ntimes: tokens syntax_tree parser_base item_parser spelling anyhow\n")
    target = os.path.join(folder, "crates", "times")
    os.makedirs(os.path.join(target, "src"), exist_ok=True)
    with open(os.path.join(target, "src", "main.rt"), "w", encoding="utf-8") as file:
        file.write(PROGRAM)
    for name in ("stdin", "stdout"):
        open(os.path.join(target, name), "w", encoding="utf-8").close()
    made = subprocess.run(["rt", "run"], cwd=target, check=False, capture_output=True, text=True)
    if made.returncode != 0:
        print(made.stdout[-2000:], made.stderr[-2000:])
        return 1
    program = os.path.join(target, "out", "times")
    timed = list(speed_texts())
    done = run(program, [text for _, text in timed])
    for (name, _), line in zip(timed, done.stdout.splitlines()):
        print(f"{name}: {line}")
    texts = list(broken_texts())
    broken = run(program, texts)
    answers = broken.stdout.splitlines()
    counts = collections.Counter(line.split(",")[0] for line in answers)
    print(f"broken files: {len(texts)}, answers: {dict(counts)}, status {broken.returncode}")
    strange = [line for line in answers if line.split(",")[0] not in ("read", "grammar", "left out", "no tokens")]
    for line in strange:
        print("strange:", line)
    return 1 if strange or len(answers) != len(texts) or done.returncode or broken.returncode else 0


if __name__ == "__main__":
    sys.exit(main())
