#!/usr/bin/env python3
"""locals.py: how long the rules on locals, and the states of locals at all nodes, take for bodies of nearly 200,000 tokens with 256 locals.

Makes a program of its own in crates/locals_bench, proves, builds and runs it over bodies of branches in a row, alone and in
20 and in 40 nested loops, and takes the program away again. Prints what the program prints: of each body the microseconds
that `broken_rules` and `local_states` took; ends with status 1 where one took a second or more.
"""
import os
import re
import shutil
import subprocess
import sys

LINE = "locals_bench: base tokens syntax_tree expression_parser program scopes body_names definite_assignment\n"

MAIN = r'''
//! How long the rules on locals take.
#![tactic(auto)]

use body_names::code::body::{ResolvedBody, resolve_body};
use body_names::code::context::Context;
use expression_parser::block::read_block;
use definite_assignment::rules::broken_rules;
use definite_assignment::points::states::local_states;
use tokens::scanner::tokens;
use base::memory::NoMemory;
use base::name::Name;
use base::span::Span;
use scopes::addresses::Addresses;
use scopes::environment::Environment;
use scopes::types::TypePlace;
use program::declaration::AbilitySet;
use program::program::ModuleId;
use program::sequence::Sequence;
use std::alloc::{AllocError, Global};
use std::io;
use std::time::Instant;

fn text_of(alloc: Global, branches: usize, loops: usize) -> Result<String, AllocError> {
    let mut text = String::new(alloc);
    for _ in 0..loops {
        text.push_str("while (a0) { ")?;
    }
    for k in 0..branches {
        let place = k % 256;
        let piece = format!(in alloc; "if (a0) {{ a{place} = a255 }}; ")?;
        text.push_str(piece.as_str())?;
    }
    for _ in 0..loops {
        text.push_str("}; ")?;
    }
    text.push_str("}")?;
    Ok(text)
}

fn parameters(alloc: Global) -> Result<Sequence<Name>, NoMemory> {
    let mut found = Sequence::new(alloc);
    for k in 0..256usize {
        let text = format!(in alloc; "a{k}")?;
        found.push(Name::from_slice(alloc, text.as_str().as_bytes())?)?;
    }
    Ok(found)
}

fn types(alloc: Global) -> Result<Vec<AbilitySet>, AllocError> {
    let mut found = Vec::new(alloc);
    for _ in 0..256 {
        found.push(AbilitySet {
            has_copy: true,
            has_drop: true,
            has_store: false,
            has_key: false,
        })?;
    }
    Ok(found)
}

fn body_of(alloc: Global, text: &str) -> Option<ResolvedBody> {
    if text.len() >= 10000000 {
        return None;
    }
    let found = tokens(alloc, 0, text.as_bytes()).ok()?;
    let place = Span {
        file: 0,
        start: 0,
        end: 0,
    };
    let Ok((block, _rest)) = read_block(alloc, place, found.as_slice(), 1000) else {
        return None;
    };
    let own = ModuleId {
        address: 1,
        name: Name::from_slice(alloc, b"m").ok()?,
    };
    let addresses = Addresses::standard(alloc).ok()?;
    let names = Environment::new(alloc, addresses, own);
    let context = Context {
        alloc,
        types: TypePlace {
            environment: &names,
            parameters: &[],
            is_spec: false,
        },
    };
    let locals = parameters(alloc).ok()?;
    resolve_body(&context, locals, &block).ok()
}

fn main(rt: HostRuntime) -> io::Result<()> {
    let alloc = rt.alloc();
    let kinds = types(alloc)?;
    for (branches, loops) in [(5000, 0), (16000, 0), (16000, 20), (16000, 40)] {
        let text = text_of(alloc, branches, loops)?;
        if let Some(resolved) = body_of(alloc, text.as_str()) {
            let start = Instant::now(&rt)?;
            if let Ok(broken) = broken_rules(alloc, &kinds, 256, &resolved.body) {
                let took = start.elapsed(&rt)?;
                let took = took.as_micros();
                let nodes = resolved.body.len();
                println!(rt; "{branches} branches, {loops} loops, {nodes} nodes: {took} microseconds {broken:?}")?;
            }
            let start = Instant::now(&rt)?;
            if let Ok(states) = local_states(alloc, &kinds, 256, &resolved.body) {
                let took = start.elapsed(&rt)?;
                let took = took.as_micros();
                let nodes = resolved.body.len();
                if nodes > 0 {
                    let last = states.at(nodes - 1, 255);
                    println!(rt; "  the states at all nodes: {took} microseconds {last:?}")?;
                }
            }
        }
    }
    Ok(())
}
'''


def main():
    top = os.path.dirname(os.path.dirname(os.path.abspath(__file__)))
    own = os.path.join(top, "crates", "locals_bench")
    listed = os.path.join(top, "crates.txt")
    with open(listed) as read:
        before = read.read()
    os.makedirs(os.path.join(own, "src"), exist_ok=True)
    try:
        with open(os.path.join(own, "src", "main.rt"), "w") as out:
            out.write(MAIN.lstrip())
        with open(listed, "w") as out:
            out.write(before + LINE)
        ended = subprocess.run(["rt", "run"], cwd=own, stdout=subprocess.PIPE, check=False)
    finally:
        with open(listed, "w") as out:
            out.write(before)
        shutil.rmtree(own)
    lines = [line for line in ended.stdout.decode().splitlines() if " microseconds " in line]
    print("\n".join(lines))
    took = [int(re.search(r"(\d+) microseconds", line).group(1)) for line in lines]
    sys.exit(0 if len(took) == 8 and max(took) < 1000000 else 1)


if __name__ == "__main__":
    main()
