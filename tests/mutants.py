#!/usr/bin/env python3
"""How strong are the contracts? Small wrong versions of a crate's code, and what the prover says of each.

usage: tests/mutants.py [OPTION..] CRATE..

  --list         print the mutants and try none
  --only REGEX   only in functions and constants whose name the expression matches whole
  --most N       at most N mutants of a crate (default: all that are made)
  --seed N       which ones, where there are more, and in what order (default 1)
  --jobs N       how many are tried at a time (default 1)
  --seconds N    begin no mutant after so many seconds; what was tried is in the log, and a second run goes on from there
  --work FOLDER  where the log stands (default: target/mutants)
  --self-test    check the making of mutants on a small text, and try none

A mutant differs from the code in one place: another comparison or operator, a number one more or less, another value of an enum,
another parameter or field of the same type, two arguments exchanged, a test turned round, a statement left out. Only bodies of
functions and values of constants are changed, never a contract, a definition or a proof.

Each is checked in a copy of its crate, over what `rt check` kept of it; what is accepted there is checked again from nothing. Verdicts:
  refused      a fact that a contract asks for has no proof
  misfit       a proof file no longer fits the code, or the prover met a limit of its own; this says nothing of the contract
  no program   the mutant does not compile
  survived     proved: a wrong program that the contract allows, unless it answers as before. A person looks at each
The rows of docs/MUTANTS.md stand at the end. The log is WORK/log.jsonl, a line for each mutant; a mutant that is in it, made from
the same text of the file, is not tried again. `rt` must be on the PATH. The exit status is 0 where none survived.
"""
import argparse
import hashlib
import itertools
import json
import os
import random
import re
import sys
import threading
import time
import prover

ROOT = os.path.dirname(os.path.dirname(os.path.abspath(__file__)))

TOKEN = re.compile(
    r"//[^\n]*|b?'(?:\\.|[^'\\])'|b?\"(?:\\.|[^\"\\])*\"|[A-Za-z_]\w*|\d[\d_]*(?:\.\d+)?(?:[iu](?:8|16|32|64|size)|f64)?"
    r"|<=|>=|==|!=|\+=|-=|&&|\|\||->|=>|::|\.\.=?|[^\s]"
)
BRACKETS = {"(": ")", "[": "]", "{": "}"}
COMPARISONS = {"<": "<=", "<=": "<", ">": ">=", ">=": ">", "==": "!=", "!=": "=="}
OPERATORS = {"+": "-", "-": "+", "*": "+", "/": "%", "%": "/", "&&": "||", "||": "&&", "+=": "-=", "-=": "+="}
WHOLE = re.compile(r"(\d[\d_]*)([iu](?:8|16|32|64|size))?")
KEYWORDS = ("return", "in", "if", "while", "else", "match")
VERDICTS = ["refused", "misfit", "no program", "survived"]


class Token:
    def __init__(self, match):
        self.text, self.start, self.end = match.group(), match.start(), match.end()

    def __repr__(self):
        return self.text


def tokens_of(text):
    return [Token(m) for m in TOKEN.finditer(text) if not m.group().startswith("//")]


def closing(tokens, at):
    """The index of the bracket that closes the one at this index."""
    depth = 0
    for i in range(at, len(tokens)):
        depth += tokens[i].text in BRACKETS
        depth -= tokens[i].text in BRACKETS.values()
        if depth == 0:
            return i
    return len(tokens) - 1


def parts(tokens, first, past, separator=","):
    """The ranges of tokens between separators that stand in no bracket."""
    found, start, i = [], first, first
    while i < past:
        if tokens[i].text in BRACKETS:
            i = closing(tokens, i)
        elif tokens[i].text == separator:
            found.append((start, i))
            start = i + 1
        i += 1
    return [r for r in found + [(start, past)] if r[0] < r[1]]


class Piece:
    """A function with its body, or a constant with its value."""

    def __init__(self, name, first, past, parameters):
        self.name, self.first, self.past, self.parameters = name, first, past, parameters


def typed(tokens, first, past):
    """{name: type} of a list of parameters or fields."""
    found = {}
    for a, b in parts(tokens, first, past):
        words = [t.text for t in tokens[a:b] if t.text not in ("pub", "mut")]
        if ":" in words:
            found[words[0]] = " ".join(words[words.index(":") + 1 :])
    return found


def pieces_of(tokens):
    """The functions and constants of a file; the clauses of a contract stand before the body and are passed over."""
    found, i = [], 0
    while i < len(tokens):
        if tokens[i].text == "fn" and i + 1 < len(tokens):
            name, at = tokens[i + 1].text, i + 2
            while tokens[at].text != "(":
                at += 1
            end = closing(tokens, at)
            parameters = typed(tokens, at + 1, end)
            i = end + 1
            while i < len(tokens) and tokens[i].text not in ("{", ";"):
                if tokens[i].text in ("requires", "ensures"):
                    while tokens[i].text != "{":  # the clause's name
                        i += 1
                    i = closing(tokens, i) + 1
                else:
                    i = closing(tokens, i) + 1 if tokens[i].text == "[" else i + 1  # an array's length comes after a semicolon
            if i < len(tokens) and tokens[i].text == "{":
                end = closing(tokens, i)
                found.append(Piece(name, i + 1, end, parameters))
                i = end
        elif tokens[i].text == "const" and i + 1 < len(tokens):
            at = i
            while tokens[at].text != "=":
                at = closing(tokens, at) + 1 if tokens[at].text in BRACKETS else at + 1
            end = parts(tokens, at + 1, len(tokens), ";")[0][1]
            found.append(Piece(tokens[i + 1].text, at + 1, end, {}))
            i = end
        i += 1
    return found


class Repository:
    """What the choice of mutants needs of all crates: the fields of structs, the values of enums, the parameters of functions."""

    def __init__(self, root):
        self.root, self.sources, self.structs, self.enums, self.functions = root, {}, [], [], {}
        for folder, _, files in sorted(os.walk(os.path.join(root, "crates"))):
            if os.path.relpath(folder, root).split(os.sep)[2:3] != ["src"]:
                continue
            for file in sorted(f for f in files if f.endswith(".rt")):
                path = os.path.relpath(os.path.join(folder, file), root)
                with open(os.path.join(root, path), encoding="utf-8") as f:
                    self.sources[path] = f.read()
                self.read(tokens_of(self.sources[path]))

    def read(self, tokens):
        for i, token in enumerate(tokens[:-2]):
            if token.text in ("struct", "enum") and tokens[i + 2].text == "{":
                end = closing(tokens, i + 2)
                if token.text == "struct":
                    self.structs.append(typed(tokens, i + 3, end))
                else:
                    plain = [tokens[a].text for a, b in parts(tokens, i + 3, end) if b == a + 1]
                    self.enums.append((tokens[i + 1].text, plain))
        for piece in pieces_of(tokens):
            if piece.parameters:
                self.functions.setdefault(piece.name, []).append(list(piece.parameters.values()))

    def files(self, crate):
        return [p for p in self.sources if p.split(os.sep)[1] == crate]

    def fields_like(self, name):
        """The fields that have the same type as this one in a struct that has it."""
        return sorted({other for s in self.structs if name in s for other, kind in s.items() if kind == s[name] and other != name})

    def values_like(self, enum, value):
        return sorted({v for name, plain in self.enums if name == enum and value in plain for v in plain if v != value})


class Mutant:
    def __init__(self, path, text, piece, kind, start, end, new):
        self.path, self.piece, self.kind, self.start, self.end, self.new = path, piece.name, kind, start, end, new
        self.old, self.line = text[start:end], text.count("\n", 0, start) + 1
        self.wrong = text[:start] + new + text[end:]
        self.key = hashlib.sha256(f"{path}\0{text}\0{start}\0{end}\0{new}".encode()).hexdigest()[:16]
        self.crate = path.split(os.sep)[1]

    def words(self):
        def plain(text):
            return " ".join(text.split())

        return f"{self.path}:{self.line} {self.piece}: {self.kind}: {plain(self.old)} -> {plain(self.new) or '(nothing)'}"


def mutants_of(repository, path, text):
    """Every mutant of a file, by the place in it."""
    tokens, found = tokens_of(text), []
    for piece in pieces_of(tokens):

        def add(kind, first, past, new):
            found.append(Mutant(path, text, piece, kind, tokens[first].start, tokens[past - 1].end, new))

        for i in range(piece.first, piece.past):
            token, before = tokens[i].text, tokens[i - 1].text
            after = tokens[i + 1].text if i + 1 < len(tokens) else ""
            value_before = before in (")", "]") or re.match(r"\w", before) and before not in KEYWORDS
            if token in COMPARISONS and value_before:
                add("comparison", i, i + 1, COMPARISONS[token])
            elif token in OPERATORS and value_before:
                add("operator", i, i + 1, OPERATORS[token])
            elif WHOLE.fullmatch(token):
                digits, suffix = WHOLE.fullmatch(token).groups()
                number = int(digits.replace("_", ""))
                for other in [number + 1] + ([number - 1] if number else []):
                    add("number", i, i + 1, f"{other}{suffix or ''}")
            elif token in ("true", "false"):
                add("test", i, i + 1, "false" if token == "true" else "true")
            elif token == "!" and after != "=":
                add("test", i, i + 1, "")
            elif before == "::" and tokens[i - 2].text[0].isupper():
                for other in repository.values_like(tokens[i - 2].text, token)[:2]:
                    add("value", i, i + 1, other)
            elif before == "." and after != "(":
                for other in repository.fields_like(token):
                    add("field", i, i + 1, other)
            elif token in piece.parameters and before not in (".", "::") and after not in (":", "::", "("):
                for other, kind in piece.parameters.items():
                    if other != token and kind == piece.parameters[token]:
                        add("operand", i, i + 1, f"{token}: {other}" if shorthand(tokens, i) else other)
            if after == "(" and re.match(r"[a-z_]", token) and before != "fn":
                arguments = parts(tokens, i + 2, closing(tokens, i + 1))
                kinds = [k for k in repository.functions.get(token, []) if len(k) == len(arguments)]
                for (k, a), (l, b) in itertools.combinations(enumerate(arguments), 2):
                    one, two = (text[tokens[r[0]].start : tokens[r[1] - 1].end] for r in (a, b))
                    if one != two and any(types[k] == types[l] for types in kinds):
                        between = text[tokens[a[1] - 1].end : tokens[b[0]].start]
                        add("exchanged", a[0], b[1], two + between + one)
        for first, past in statements(tokens, piece):
            add("left out", first, past, "")
    return found


def shorthand(tokens, i):
    """Whether a name stands for a field and its value in a struct, as in `Slot { xx, yy }`."""
    return tokens[i - 1].text in ("{", ",") and tokens[i + 1].text in ("}", ",") and inside_struct(tokens, i)


def inside_struct(tokens, i):
    depth = 0
    for j in range(i - 1, -1, -1):
        depth += tokens[j].text in BRACKETS.values()
        depth -= tokens[j].text in BRACKETS
        if depth < 0:
            return tokens[j].text == "{" and tokens[j - 1].text[0].isupper()
    return False


def statements(tokens, piece):
    """The assignments and the calls for their effect, each with its semicolon."""
    found, start = [], piece.first
    for i in range(piece.first, piece.past):
        if tokens[i].text in ("{", "}"):
            start = i + 1
        elif tokens[i].text == ";":
            words = [t.text for t in tokens[start:i]]
            effect = set(words) & {"=", "+=", "-="} or words[-1:] == [")"]
            if effect and words[0] not in ("let", "return", "break", "continue"):
                found.append((start, i + 1))
            start = i + 1
    return found


# ---- trying them


# The words of an error of a proof that names what is not there.
MISSING = ("can be named from here", "is not in scope", "has no field", "was not admitted")


def judged(said, status):
    """What is said of a mutant: its verdict, but for one that is proved, and the line that tells why."""
    lines = said.splitlines()
    errors = [line for line in lines if ": error: " in line and not re.search(r"error: \d+ declarations? that depends? on ", line)]
    why = (errors or [line for line in lines if "`search` did not prove" in line] or [line for line in lines if "error" in line] or [""])[0][:300]
    if status == 3:
        return "misfit", why
    if "logic=not-proved" not in said:
        return "no program", why
    return ("misfit" if any(words in why for words in MISSING) else "refused"), why


def verdict(proofs, mutant):
    texts = {os.path.relpath(mutant.path, os.path.join("crates", mutant.crate)): mutant.wrong}
    for kept in (True, False):
        said, status = proofs.said(mutant.crate, texts, kept)
        if status:
            return judged(said, status)
    return "survived", ""


def row(crate, results):
    counts = [sum(r["verdict"] == v for r in results) for v in VERDICTS]
    return f"| `{crate}` | {len(results)} | " + " | ".join(str(n) for n in counts) + " |"


def try_all(crates, chosen, options):
    os.makedirs(options.work, exist_ok=True)
    log = os.path.join(options.work, "log.jsonl")
    known = {}
    if os.path.exists(log):
        with open(log, encoding="utf-8") as f:
            known = {r["key"]: r for r in map(json.loads, f)}
    proofs = prover.Prover(ROOT)
    for crate in crates:
        if why := proofs.prove(crate):
            sys.exit(f"mutants: {why}")
    todo = [m for m in chosen if m.key not in known]
    print(f"mutants: {len(chosen)} chosen, {len(chosen) - len(todo)} of them in the log", flush=True)
    lock, end = threading.Lock(), time.time() + options.seconds

    def worker():
        while True:
            with lock:
                if not todo or time.time() > end:
                    return
                mutant = todo.pop(0)
            said, why = verdict(proofs, mutant)
            with lock:
                result = {"key": mutant.key, "crate": mutant.crate, "mutant": mutant.words(), "verdict": said, "error": why}
                known[mutant.key] = result
                with open(log, "a", encoding="utf-8") as f:
                    f.write(json.dumps(result, ensure_ascii=False) + "\n")
                print(f"{said}: {mutant.words()}", flush=True)

    threads = [threading.Thread(target=worker) for _ in range(options.jobs)]
    for t in threads:
        t.start()
    for t in threads:
        t.join()
    results = [known[m.key] for m in chosen if m.key in known]
    print("\n| crate | tried | refused | misfit | no program | survived |\n|---|---|---|---|---|---|")
    for crate in crates:
        print(row(crate, [r for r in results if r["crate"] == crate]))
    if len(results) < len(chosen):
        print(f"mutants: {len(chosen) - len(results)} not tried")
    sys.exit(1 if any(r["verdict"] == "survived" for r in results) else 0)


EXAMPLE = """
pub struct Box { pub wide: u32, pub high: u32, pub name: u64 }
pub enum Kind { Flat, Tall }
const MOST: u32 = 8;
pub fn area(wide: u32, high: u32) -> u32
    requires narrow { wide < 3 }
    ensures { result < 3 }
{
    wide * high
}
fn kind(b: Box, least: u32) -> Kind
{
    let mut a = area(b.wide, b.high); // a comment: 1 < 2
    a += least;
    if !small(a) { return Kind::Tall; }
    if a < MOST { Kind::Flat } else { Kind::Tall }
}
fn pair(least: u32) -> [u32; 2]
    ensures first { result }
    ensures second { result < 7 }
{
    [least; 3]
}
"""
WANTED = {
    "number: 8 -> 9", "number: 8 -> 7", "number: 3 -> 4", "number: 3 -> 2", "operator: * -> +", "operand: wide -> high", "operand: high -> wide", "field: wide -> high",
    "field: high -> wide", "exchanged: b.wide, b.high -> b.high, b.wide", "operator: += -> -=",
    "left out: a += least; -> (nothing)", "test: ! -> (nothing)", "value: Tall -> Flat", "value: Flat -> Tall", "comparison: < -> <=",
}


# What the prover says, its status, and the verdict.
SAID = [
    ("refused", "fn c::f: no proof: expected answers in ./proofs/f/Answers.antt; `search` did not prove `returns`\nlogic=not-proved", 1),
    ("refused", "./proofs/f/Answers.antt:3:1: error: `returns`: the two types differ\nlogic=not-proved", 1),
    ("misfit", "./proofs/f/Answers.antt:3:1: error: `returns`: module `G` has no `returns` that can be named from here\nlogic=not-proved", 1),
    ("misfit", "rattle: no verdict: antt ran out of stack", 3),
    ("no program", "error[unknown-name]: nothing is called g", 1),
]


def self_test():
    repository = Repository(ROOT)
    repository.structs, repository.enums, repository.functions = [], [], {}
    repository.read(tokens_of(EXAMPLE))
    made = {m.words().split(" ", 2)[2] for m in mutants_of(repository, "crates/example/src/lib.rt", EXAMPLE)}
    if made != WANTED:
        sys.exit(f"mutants: the example makes {sorted(made - WANTED)} too, and {sorted(WANTED - made)} not")
    for wanted, said, status in SAID:
        if judged(said, status)[0] != wanted:
            sys.exit(f"mutants: {judged(said, status)} of {said}, and not {wanted}")
    print(f"mutants: {len(made)} kinds of change in the example, as wanted")


def main():
    parser = argparse.ArgumentParser(usage=__doc__)
    parser.add_argument("crates", nargs="*")
    parser.add_argument("--list", action="store_true")
    parser.add_argument("--only", default=".*")
    parser.add_argument("--most", type=int, default=10**9)
    parser.add_argument("--seed", type=int, default=1)
    parser.add_argument("--jobs", type=int, default=1)
    parser.add_argument("--seconds", type=float, default=1e9)
    parser.add_argument("--work", default=os.path.join(ROOT, "target", "mutants"))
    parser.add_argument("--self-test", action="store_true")
    options = parser.parse_args()
    options.work = os.path.abspath(options.work)
    if options.self_test:
        return self_test()
    if not options.crates:
        parser.error("no crate is named")
    repository, chosen = Repository(ROOT), []
    for crate in options.crates:
        if not repository.files(crate):
            sys.exit(f"mutants: no code in crates/{crate}/src")
        made = [m for path in repository.files(crate) for m in mutants_of(repository, path, repository.sources[path])]
        made = [m for m in made if re.fullmatch(options.only, m.piece)]
        random.Random(options.seed).shuffle(made)
        chosen += made[: options.most]
    if options.list:
        for mutant in chosen:
            print(mutant.words())
        return print(f"mutants: {len(chosen)}")
    try_all(options.crates, chosen, options)


main()
