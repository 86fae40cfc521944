#!/usr/bin/env python3
"""mutations.py PROGRAM [COUNT [SEED]]: that no file that is nearly a program crashes the program or lets it run on.

Takes the modules of examples/ and changes a few tokens of them at random: mostly for one of the same kind (a name, a type,
a number, an operator), so that what comes out is read and judged further on; else one is left out, doubled, swapped with
another, or replaced by any other. Runs the program on each of COUNT files so made, with 10 seconds and 400 MB.
Prints how often it ended with which answer, and the inputs that ended by a signal, late or with a status above 6; ends with
status 1 if there is one.
"""
import collections
import os
import random
import re
import resource
import subprocess
import sys
import tempfile

TOKEN = re.compile(r"//[^\n]*|\s+|0x[0-9a-fA-F]+|\w+|::|&mut|&&|\|\||==>|<==>|==|!=|<=|>=|<<|>>|\.\.|.", re.S)


def limits():
    resource.setrlimit(resource.RLIMIT_AS, (400 << 20, 400 << 20))


KEYWORDS = set("abort acquires as break const continue copy else false friend fun has if let loop module move mut native phantom public return spec struct true use while".split())
TYPES = set("u8 u16 u32 u64 u128 bool address signer vector num".split())


def kind_of(token):
    if token in TYPES:
        return "type"
    if re.fullmatch(r"[0-9]\w*", token):
        return "number"
    if re.fullmatch(r"[A-Z]\w*", token):
        return "upper"
    if re.fullmatch(r"[a-z_]\w*", token):
        return "keyword" if token in KEYWORDS else "lower"
    return "operator" if re.fullmatch(r"[-+*/%<>=!&|]+", token) else "sign"


def mutated(tokens, others, chance):
    tokens = list(tokens)
    places = [k for k, token in enumerate(tokens) if token.strip() and not token.startswith("//")]
    words = [k for k in places if kind_of(tokens[k]) not in ("sign", "keyword")]
    for _ in range(chance.randint(1, 3)):
        kind = chance.randrange(40)
        at = chance.choice(words if kind > 3 else places)
        if kind > 3:
            alike = [token for token in others if kind_of(token) == kind_of(tokens[at])]
            tokens[at] = chance.choice(alike) if alike else tokens[at]
        elif kind == 0:
            tokens[at] = ""
        elif kind == 1:
            tokens[at] += " " + tokens[at]
        elif kind == 2:
            other = chance.choice(places)
            tokens[at], tokens[other] = tokens[other], tokens[at]
        else:
            tokens[at] = chance.choice(others)
    return "".join(tokens)


def main():
    program = os.path.abspath(sys.argv[1])
    count = int(sys.argv[2]) if len(sys.argv) > 2 else 2000
    chance = random.Random(int(sys.argv[3]) if len(sys.argv) > 3 else 1)
    examples = os.path.join(os.path.dirname(os.path.abspath(__file__)), "..", "examples")
    texts = {name: TOKEN.findall(open(os.path.join(examples, name)).read()) for name in sorted(os.listdir(examples)) if name.endswith(".move")}
    others = [token for tokens in texts.values() for token in tokens if token.strip() and not token.startswith("//")]
    ends, bad = collections.Counter(), []
    for number in range(count):
        name = chance.choice(list(texts))
        text = mutated(texts[name], others, chance)
        with tempfile.TemporaryDirectory() as folder:
            with open(os.path.join(folder, "a.move"), "w") as out:
                out.write(text)
            words = [program, "a.move"]
            if name in ("escrow.move", "auction.move", "vesting.move"):
                with open(os.path.join(folder, "coin.move"), "w") as out:
                    out.write("".join(texts["coin.move"]))
                words = [program, "coin.move", "a.move"]
            try:
                ended = subprocess.run(words, cwd=folder, stdout=subprocess.PIPE, stderr=subprocess.DEVNULL, timeout=10, preexec_fn=limits, check=False)
            except subprocess.TimeoutExpired:
                ends["late"] += 1
                bad.append((number, "late", text))
                continue
        answer = ended.stdout.decode().split("\n")[0]
        ends[" ".join(answer.split()[:3]) if answer.startswith("refused") else "status %d" % ended.returncode] += 1
        if ended.returncode < 0 or ended.returncode > 6:
            bad.append((number, ended.returncode, text))
    for answer, times in ends.most_common():
        print("%6d %s" % (times, answer))
    for number, why, text in bad:
        print("== %d: %s\n%s" % (number, why, text))
    sys.exit(1 if bad else 0)


if __name__ == "__main__":
    main()
