#!/usr/bin/env python3
"""Compares the program with an independent recognizer of the grammar, on broken texts.

The recognizer is Earley's, over a table of productions and tests of single tokens; it knows nothing of the readers.
It tells whether a text is of a file, and else the first token that no file could have there, or the last token where
more would have to follow. Each text is a small module with no, one or two changes by a seed: a token taken out,
doubled, swapped with the next, replaced by another or put in, or the rest of the text cut off. Each token stands on a
line of its own, but for a `<` or `>` that is glued to the one before.

The program has to refuse exactly what the recognizer refuses, with the first marker of a form that is left out where
the text holds one; the line that it names without a marker is compared too, and counted by itself.

    bench/grammar.py BINARY [TEXTS [SEED]]      BINARY: crates/movep/out/movep; without TEXTS they are 2,000
"""

import collections
import os
import random
import re
import subprocess
import sys
import tempfile

KEYWORDS = set("""abort acquires as break const continue copy else false friend fun has if let loop module move mut
native phantom public return spec struct true use while""".split())
MARKERS = set("""inline script enum match native assume axiom choose emits apply aborts_with TRACE where package
with""".split())
TOKEN = re.compile(r"""(?P<blank>[ \t\r\n]+|//[^\n\r]*)
    |(?P<bytes>[bx]"(?:[^"\\\n]|\\[^\n])*")
    |(?P<number>[0-9][A-Za-z0-9_]*)
    |(?P<word>[A-Za-z_][A-Za-z0-9_]*)
    |(?P<punctuation>==>|<==>|::|\.\.|==|!=|<=|<<|>=|&&|\|\||[(){}\[\],;:.=!<>+\-*/%&|^@\#])""", re.X)
SUFFIX = re.compile(r"(?:0x[0-9A-Fa-f][0-9A-Fa-f_]*?|[0-9][0-9_]*)(u8|u16|u32|u64|u128|u256)?$")


class Token:
    def __init__(self, kind, text, glued):
        self.kind = kind
        self.text = text
        self.glued = glued


def tokens_of(text):
    found, at, glued = [], 0, False
    while at < len(text):
        match = TOKEN.match(text, at)
        kind = match.lastgroup
        if kind == "blank":
            glued = False
        else:
            found.append(Token(kind, match.group(), glued))
            glued = True
        at = match.end()
    return found


def suffix(token):
    return SUFFIX.match(token.text).group(1)


# The tests of a token: a function of the tokens and of a place in them.

def sign(text):
    return lambda tokens, at: tokens[at].text == text and tokens[at].kind != "bytes"


def word(tokens, at):
    return tokens[at].kind == "word" and tokens[at].text not in KEYWORDS


def following(tokens, at):
    return tokens[at + 1] if at + 1 < len(tokens) else None


def capital(tokens, at):
    return word(tokens, at) and tokens[at].text[0].isupper()


def small(tokens, at):
    return word(tokens, at) and not tokens[at].text[0].isupper()


def number(tokens, at):
    return tokens[at].kind == "number" and suffix(tokens[at]) != "u256"


def plain_number(tokens, at):
    return tokens[at].kind == "number" and suffix(tokens[at]) is None


def type_word(tokens, at):
    """The one word of a type's path."""
    return word(tokens, at) and (tokens[at].text != "u256" or is_text(following(tokens, at), "::"))


def is_text(token, text):
    return token is not None and token.text == text


def term_word(tokens, at):
    """The one word of a term's path: `vector` before `<` and `[` is a sign."""
    after = following(tokens, at)
    if not word(tokens, at):
        return False
    return not (tokens[at].text == "vector" and after is not None and after.text in ("<", "["))


def quantified(tokens, at):
    """The one word of a path in a spec: `exists` before a word begins a quantifier."""
    after = following(tokens, at)
    if not term_word(tokens, at):
        return False
    return not (tokens[at].text == "exists" and after is not None and word(tokens, at + 1))


def path_before(tokens, at):
    """Whether the token before ends a path of a term, and not a field or the name of a move."""
    if at == 0 or not word(tokens, at - 1):
        return False
    before = tokens[at - 2].text if at > 1 else ""
    return before not in (".", "move", "copy")


def arguments_open(tokens, at):
    return tokens[at].text == "<" and tokens[at].glued


def compared(text):
    return lambda tokens, at: tokens[at].text == text and not (tokens[at].glued and path_before(tokens, at))


def glued(text):
    return lambda tokens, at: tokens[at].text == text and tokens[at].glued


PRODUCTIONS = r"""
File     = ~ File Module
Attrs    = ~ Attrs Attr
Attr     = # [ Balanced ]
Balanced = ~ Balanced other ~ Balanced ( Balanced ) ~ Balanced [ Balanced ] ~ Balanced { Balanced }
Module   = Attrs module Addr :: Word { Members }
Members  = ~ Members Attrs Member
Addr     = plain ~ Word
Member   = Use ~ Friend ~ Struct ~ Const ~ Fun ~ Spec
Use      = use Addr :: Word As ; ~ use Addr :: Word :: Import ; ~ use Addr :: Word :: { Import+ }  ;
As       = ~ as Word
Import   = Word As
Friend   = friend Addr :: Word ;
Struct   = struct Capital SParams? Has { Fields }
SParams? = ~ < SParam+ >
SParam   = TParam ~ phantom TParam
Has      = ~ has Ability+
Fields   = ~ Field+
Field    = Word : Type
Const    = const Capital : Type = Exp ;
Fun      = Public Entry fun Word TParams? ( Params ) Result Acquires Block
Public   = ~ public ~ public ( friend )
Entry    = ~ entry
TParams? = ~ < TParam+ >
TParam   = Word ~ Word : Abilities
Abilities = Ability ~ Abilities + Ability
Ability  = copy ~ drop ~ store ~ key
Params   = ~ Param+
Param    = Small : Type
Result   = ~ : Type
Acquires = ~ acquires Path+
Type     = & Type ~ & mut Type ~ TPath ~ TPath TArgs ~ ( Types )
Types    = ~ Type+
TArgs    = < Type+ >
GArgs    = open Type+ >
TPath    = TypeWord ~ Word :: Word ~ Addr :: Word :: Word
Path     = Word ~ Word :: Word ~ Addr :: Word :: Word
Block    = { Items Last }
Items    = ~ Items Item ;
Last     = ~ Exp
Item     = Exp ~ let Pat Typed Value
Typed    = ~ : Type
Value    = ~ = Exp
Pat      = Small ~ _ ~ PPath { PFields } ~ PPath TArgs { PFields } ~ ( Pat+ )
PPath    = Path
PFields  = ~ PField+
PField   = Small ~ Word : Pat
Exp      = E3 ~ Unary = Exp ~ if ( Exp ) Exp ~ if ( Exp ) Exp else Exp ~ while ( Cond ) Exp ~ loop Body ~ return ~ return Exp ~ abort Exp ~ break ~ continue
Cond     = Exp ~ { LoopSpec ; Items Exp }
Body     = Exp ~ { LoopSpec ; Items Last }
LoopSpec = spec { Invariants }
Invariants = ~ Invariants invariant SExp ;
E3       = E4 ~ E3 || E4
E4       = E5 ~ E4 && E5
E5       = E7 ~ E5 Compare E7
Compare  = == ~ != ~ less ~ > ~ <= ~ >=
E7       = E8 ~ E7 | E8
E8       = E9 ~ E8 ^ E9
E9       = E10 ~ E9 & E10
E10      = E11 ~ E10 Shift E11
Shift    = shl ~ > glued>
E11      = E12 ~ E11 + E12 ~ E11 - E12
E12      = Unary ~ E12 * Unary ~ E12 / Unary ~ E12 % Unary
Unary    = ! Unary ~ * Unary ~ & Unary ~ & mut Unary ~ move Word ~ copy Word ~ Fielded
Fielded  = Term ~ Fielded . Word
Term     = number ~ true ~ false ~ @ Addr ~ EPath ~ EPath Call ~ EPath GArgs Call ~ EPack { EFields } ~ EPack GArgs { EFields } ~ vector [ Exps ] ~ vector TArgs [ Exps ] ~ assert ! ( Exp , Exp ) ~ ( ) ~ ( Exp ) ~ ( Exp , Exp+ ) ~ ( Exp as Type ) ~ Block
Call     = ( Exps )
Exps     = ~ Exp+
EFields  = ~ EField+
EField   = Word ~ Word : Exp
EPath    = TermWord ~ Word :: Word ~ Addr :: Word :: Word
EPack    = Capital ~ Word :: Capital ~ Addr :: Word :: Capital
Spec     = spec module { ModuleClauses } ~ spec CapitalStruct { StructClauses } ~ spec FunctionName { FunctionClauses } ~ spec schema Capital TParams? { SchemaClauses } ~ spec fun Word TParams? ( Params ) : Type { SExp }
FunctionClauses = ~ FunctionClauses FunctionClause
FunctionClause = Pragma ~ requires SExp ; ~ ensures SExp ; ~ aborts_if SExp ; ~ modifies SExp+ ; ~ SLet ~ Include
StructClauses = ~ StructClauses StructClause
StructClause = Pragma ~ invariant SExp ; ~ SLet ~ Include
ModuleClauses = ~ ModuleClauses ModuleClause
ModuleClause = Pragma ~ invariant SExp ; ~ invariant update SExp ; ~ SLet ~ Include
SchemaClauses = ~ SchemaClauses SchemaClause
SchemaClause = FunctionClause ~ invariant SExp ; ~ invariant update SExp ; ~ Word : Type ;
Pragma   = pragma Property+ ;
Property = Word ~ Word = true ~ Word = false ~ Word = number
SLet     = let Word = SExp ; ~ let post Word = SExp ;
Include  = include Path ; ~ include Path TArgs ; ~ include Path { SFields } ; ~ include Path TArgs { SFields } ;
SFields  = ~ SField+
SField   = Word ~ Word : SExp
SExp     = S1 ~ forall Binds Triggers : SExp ~ exists Binds Triggers : SExp ~ if ( SExp ) SExp else SExp
Binds    = Bind ~ Binds , Bind
Bind     = Word : Type ~ Word in BExp
Triggers = ~ Triggers { SExp+ }
S1       = S2 ~ S1 <==> S2
S2       = S3 ~ S3 ==> S2
S3       = S4 ~ S3 || S4
S4       = S5 ~ S4 && S5
S5       = S6 ~ S5 Compare S6
S6       = S7 ~ S6 .. S7
S7       = S8 ~ S7 | S8
S8       = S9 ~ S8 ^ S9
S9       = S10 ~ S9 & S10
S10      = S11 ~ S10 Shift S11
S11      = S12 ~ S11 + S12 ~ S11 - S12
S12      = SUnary ~ S12 * SUnary ~ S12 / SUnary ~ S12 % SUnary
SUnary   = ! SUnary ~ SFielded
SFielded = STerm ~ SFielded . Word ~ SFielded [ SExp ]
STerm    = number ~ true ~ false ~ @ Addr ~ SPath ~ SPath SCall ~ SPath GArgs SCall ~ EPack { SFields } ~ EPack GArgs { SFields } ~ ( SExp )
SPath    = SpecWord ~ Word :: Word ~ Addr :: Word :: Word
SCall    = ( SExps )
SExps    = ~ SExp+
"""

def other(tokens, at):
    return tokens[at].kind == "bytes" or tokens[at].text not in ("(", ")", "[", "]", "{", "}")


def of_struct(tokens, at):
    return capital(tokens, at) and not tokens[at].of_function


def of_function(tokens, at):
    return word(tokens, at) and (tokens[at].of_function or not tokens[at].text[0].isupper())


TESTS = {
    "Word": word, "Capital": capital, "Small": small, "_": sign("_"), "number": number, "plain": plain_number,
    "TypeWord": type_word, "TermWord": term_word, "SpecWord": quantified, "open": arguments_open,
    "less": compared("<"), "shl": compared("<<"), "glued>": glued(">"), "other": other,
    "CapitalStruct": of_struct, "FunctionName": of_function,
}


def productions():
    """The table, with the lists `X+` and the spec expressions of binds."""
    table = {}
    for line in PRODUCTIONS.strip().splitlines():
        name, right = line.split(" = ", 1) if " = " in line else (line.split()[0], "")
        table[name.strip()] = [alternative.split() for alternative in (" " + right + " ").split(" ~ ")]
    family = [name for name in table if re.fullmatch(r"SExp|S\d+|SUnary|SFielded|STerm", name)]
    for name in family:
        table["B" + name] = [bare(alternative, family) for alternative in table[name] if alternative[0] != "EPack"]
    table["BExp"] = [["BSExp"]]
    for name in {symbol for right in table.values() for one in right for symbol in one if symbol.endswith("+")}:
        if name != "+":
            item = name[:-1]
            table[name] = [[name + "L"], [name + "L", ","]]
            table[name + "L"] = [[item], [name + "L", ",", item]]
    return table


def bare(alternative, family):
    """An alternative of a spec expression in a bind, where a pack stands within brackets alone."""
    depth, found = 0, []
    for symbol in alternative:
        if symbol in ("(", "[", "{"):
            depth += 1
        if symbol in (")", "]", "}"):
            depth -= 1
        found.append("B" + symbol if depth == 0 and symbol in family else symbol)
    return found


class Grammar:
    def __init__(self):
        table = productions()
        self.rules, self.of = [], {}
        for name, alternatives in table.items():
            self.of[name] = []
            for alternative in alternatives:
                self.of[name].append(len(self.rules))
                self.rules.append((name, alternative))
        self.tests = dict(TESTS)
        for name, alternative in self.rules:
            for symbol in alternative:
                if symbol not in table and symbol not in self.tests:
                    self.tests[symbol] = sign(symbol)
        self.nullable = set()
        grows = True
        while grows:
            grows = False
            for name, alternative in self.rules:
                if name not in self.nullable and all(symbol in self.nullable for symbol in alternative):
                    self.nullable.add(name)
                    grows = True

    def place(self, tokens):
        """None where the tokens are of a file; else the number of the first that can't stand there."""
        sets = [self.closed({(rule, 0, 0) for rule in self.of["File"]}, [], 0)]
        for at in range(len(tokens)):
            passed = {}
            next_items = set()
            for rule, dot, start in sets[at][0]:
                right = self.rules[rule][1]
                if dot < len(right) and right[dot] not in self.of:
                    symbol = right[dot]
                    if symbol not in passed:
                        passed[symbol] = self.tests[symbol](tokens, at)
                    if passed[symbol]:
                        next_items.add((rule, dot + 1, start))
            if not next_items:
                return at
            sets.append(self.closed(next_items, sets, at + 1))
        if any(self.rules[rule][0] == "File" and dot == len(self.rules[rule][1]) and start == 0
               for rule, dot, start in sets[-1][0]):
            return None
        return len(tokens) - 1

    def closed(self, items, sets, at):
        items = set(items)
        waiting = {}
        work = list(items)

        def add(item):
            if item not in items:
                items.add(item)
                work.append(item)

        while work:
            rule, dot, start = work.pop()
            name, right = self.rules[rule]
            if dot == len(right):
                if start < at:
                    for other_rule, other_dot, other_start in sets[start][1].get(name, ()):
                        add((other_rule, other_dot + 1, other_start))
                continue
            symbol = right[dot]
            if symbol in self.of:
                waiting.setdefault(symbol, []).append((rule, dot, start))
                for one in self.of[symbol]:
                    add((one, 0, at))
                if symbol in self.nullable:
                    add((rule, dot + 1, start))
        return items, waiting


def mark_functions(tokens):
    """Says of each word whether a function of its module has this name."""
    begins = [at for at in range(len(tokens)) if is_text(tokens[at], "module")
              and not (at and is_text(tokens[at - 1], "spec"))] + [len(tokens)]
    for token in tokens:
        token.of_function = False
    for begin, end in zip(begins, begins[1:]):
        names = {tokens[at + 1].text for at in range(begin, end - 1)
                 if is_text(tokens[at], "fun") and not is_text(tokens[at - 1], "spec")}
        for token in tokens[begin:end]:
            token.of_function = token.text in names


def first_marker(tokens):
    for at, token in enumerate(tokens):
        after = following(tokens, at)
        if token.kind == "bytes":
            return at, token.text[0]
        if token.kind == "number" and suffix(token) == "u256":
            return at, "u256"
        if token.kind == "word" and (token.text in MARKERS or token.text == "u256"):
            return at, token.text
        if token.text == "assert" and not is_text(after, "!"):
            return at, token.text
    return None


MEMBERS = """
use 0x2::n;
use 0x2::n as k;
use std::n::{Self, t as u,};
use 0x2::n::t as u;
friend a::b;
#[test, expected_failure(abort_code = 1)] #[b[c](d{e})] fun g() { }
struct S<phantom T: copy + drop, U,> has copy, drop { v: u64, w: vector<vector<u8>>, }
struct R { }
struct T<A> has key { a: &mut A, b: (u64, bool), c: 0x1::m::S<A>, d: n::X }
const C: u64 = 0x10 + 2;
public(friend) entry fun f<T: copy + drop, U>(x: &mut u64, y: vector<T>, z: bool): (u64, bool) acquires S, R { let a: u64 = *x + 1 * 2 - (3 as u64); a }
public fun h(x: u64): u64 { let S { v, w: _ } = copy s; let (a, b) = (1, 2,); let n::R<u64> { } = move r; v }
fun k(a: u64) { while ({ spec { invariant a <= 10; invariant a > 1 && b; }; a < 10 }) { a = a + 1; if (a) break else continue; }; }
fun l() { loop { spec { invariant x == 1; }; let y = 1; break } }
fun p(): u64 { loop { a = a + g(vector<u64>[1, 2, 3,], 0x1::m::g<T>(y, @0x1)).v; }; 3 }
fun q(a: bool, b: u64) { assert!(b << 2 > 3 && !a || b >> 1 == 4, 7); if (a) { return (a, true) } else { abort 3 }; (a, a != 4) }
fun r() { *x = &mut y.z; &x.f; let z; x.a.b = S { a: 1, b, }; m::S<u64> { a: 2 }; n::f(); return }
fun s(i: u64, n: u64): bool { i < n && (i <= n || !(i >= n)) & a ^ b | c }
fun t() { if (a) if (b) c else d; { { } }; (); (a); vector[]; x % y / z; @std == @0x1 }
fun u<T>(_: T, _x: u64) { f<T, u64>(a<b>(c)) < d; a.b < c; a > b; x.y >> z }
spec f { pragma opaque, verify = true, aborts = 3; requires x > 0 && !y; ensures result == old(x) + g(1, 2)[3].a; }
spec f { aborts_if forall i in 0..n {f(i)} {g(i), h(i)}: v[i] == S { a: 1, b }; modifies global<m::S<u64>>(@0x1), global<R>(a); }
spec g { include n::X { y: 1 }; include T<A>; include Y { }; requires a; }
spec f { let post z = if (a) b else c; let y = exists x: u64, k in v: x == k ==> b <==> c; include S<u64> { a: 1, b, }; include n::X; }
spec module { pragma verify; invariant update x > 1; invariant forall a: address: exists<R>(a) ==> b; let y = 1; include T; }
spec S { invariant v > 0; pragma p; let q = v; }
spec schema X<T: copy> { x: u64; requires x > 0; ensures y == (x); aborts_if false; invariant x; let z = 3; modifies global<R>(a); }
spec schema Y { x: u64; post: bool; requires x << 2 > 3; ensures x | y ^ z & w; }
spec fun sum<T>(a: u64, b: vector<T>): u64 { a + len(b) * 2 - 1 / 3 % 4 }
spec f { ensures (b)[a]; }
spec g { ensures 1..2 == x || update; aborts_if post != in; ensures result_1 < m::f<u64>(a) >= c; }
""".strip().splitlines()


def text_of(tokens):
    pieces = []
    for token in tokens:
        joined = token.glued and token.text in ("<", ">", ">=", "<<") and pieces and pieces[-1][-1:] not in "<>=-!&|"
        joined = joined or (token.glued and token.text == ">" and pieces and pieces[-1] == ">")
        if pieces and not joined:
            pieces.append("\n")
        pieces.append(token.text)
    return "".join(pieces) + "\n"


def broken(tokens, pool, draw):
    tokens = list(tokens)
    if not tokens:
        return tokens
    at = draw.randrange(len(tokens))
    way = draw.randrange(6)
    if way == 0:
        del tokens[at]
    elif way == 1:
        tokens.insert(at, tokens[at])
    elif way == 2 and at + 1 < len(tokens):
        tokens[at], tokens[at + 1] = tokens[at + 1], tokens[at]
    elif way == 3:
        tokens[at] = draw.choice(pool)
    elif way == 4:
        tokens.insert(at, draw.choice(pool))
    else:
        del tokens[at:]
    return tokens


def lines_of(text):
    """The line of each token of a text that has one piece a line."""
    lines = []
    for number, line in enumerate(text.splitlines(), 1):
        lines += [number] * len(tokens_of(line))
    return lines


def expected(grammar, text):
    tokens = tokens_of(text)
    lines = lines_of(text)
    mark_functions(tokens)
    at = grammar.place(tokens) if tokens else None
    if at is None:
        return "read"
    marker = first_marker(tokens)
    if marker:
        return f"refused 3 LeftOut {marker[1]} {{}}:{lines[marker[0]]}"
    return f"refused 2 Grammar {{}}:{lines[at]}"


def answer(binary, path, text):
    with open(path, "w") as file:
        file.write(text)
    done = subprocess.run([binary, path], stdout=subprocess.PIPE, text=True)
    first = done.stdout.splitlines()[0]
    return first.replace(path, "{}") if re.match("refused [23] ", first) else "read"


def main():
    binary = os.path.abspath(sys.argv[1])
    count = int(sys.argv[2]) if len(sys.argv) > 2 else 2000
    draw = random.Random(int(sys.argv[3]) if len(sys.argv) > 3 else 1)
    grammar = Grammar()
    pool = [token for member in MEMBERS for token in tokens_of(member)]
    found = collections.Counter()
    with tempfile.TemporaryDirectory() as folder:
        path = os.path.join(folder, "a.move")
        for number in range(count):
            chosen = [draw.choice(MEMBERS) for _ in range(draw.randrange(1, 4))]
            tokens = tokens_of("module 0x1::m { " + " ".join(chosen) + " }")
            for _ in range(draw.choice((0, 1, 1, 1, 1, 1, 2))):
                tokens = broken(tokens, pool, draw)
            text = text_of(tokens)
            wanted, got = expected(grammar, text), answer(binary, path, text)
            kinds = [re.sub(r"Grammar .*", "Grammar", it) for it in (wanted, got)]
            same = "alike" if wanted == got else "at another line" if kinds[0] == kinds[1] else "different"
            found[re.sub(r" .*", "", wanted) + ", " + same] += 1
            if same != "alike":
                print(f"--- text {number} is {same}: the recognizer: {wanted}; the program: {got}")
                print(" ".join(text.splitlines()))
    print(", ".join(f"{kind}: {found[kind]}" for kind in sorted(found)))
    return 1 if any("different" in kind for kind in found) else 0


sys.exit(main())
