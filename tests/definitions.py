#!/usr/bin/env python3
"""Which definitions does a theorem or a computed table hold? A mistake that is made in a definition and in the code alike is still
proved: so the definitions of specs/ are changed, one at a time, in a copy that has definitions, laws and tables and no code.

usage: tests/definitions.py [OPTION..] CRATE..

  --list         print the mutants and try none
  --only REGEX   only definitions whose name the expression matches whole
  --per N        mutants of each definition that are tried (default 3); one that is no definition does not count, up to N of them
  --seed N       which ones (default 1)
  --jobs N       copies worked on at a time (default 1)
  --seconds N    begin no mutant after so many seconds; what was tried is in the log, and a second run goes on from there
  --work FOLDER  where the log stands (default: target/definitions); the copies stand outside the repository while it runs
  --self-test    check the making of mutants on a small text, and try none

A mutant differs from a definition in one place: a number one more or less, another operator or test, another argument or field of
the same type, another value of an enum, two arguments, two entries of a list or two fields exchanged.

Each is checked with the laws and tables (proofs/*.antt) of its crate, and then with those of each crate above that reach it.
Verdicts:
  pinned         a law or table fails. Its statement may still be true and only its proof be broken: the log has the first error
  unpinned       all of them still hold. A person looks at each: it is equivalent, or a table has to be added
  no definition  an error stands in specs/: the change has no meaning
  unclear        the check failed and named no file
The log is WORK/log.jsonl, a line for each mutant; one that is in it, made from the same text, is not tried again. `rt` must be on
the PATH. The exit status is 0 where none is unpinned.
"""
import argparse
import hashlib
import itertools
import json
import os
import random
import re
import shutil
import subprocess
import sys
import tempfile
import threading
import time

ROOT = os.path.dirname(os.path.dirname(os.path.abspath(__file__)))


def read(path):
    with open(path, encoding="utf-8") as f:
        return f.read()


def write(path, text):
    os.makedirs(os.path.dirname(path), exist_ok=True)
    with open(path, "w", encoding="utf-8") as f:
        f.write(text)


# ---- the copy without code

MODULE = re.compile(r"Rattle\.(\w+)\.(specs|proofs)\.([\w+]+)")
ATTRIBUTES = r"(?:#!?\[[^\]]*\]\s*)*"
ITEM = re.compile(ATTRIBUTES + r"(?:pub )?(?:struct|enum|const|type|mod) ")
USE = re.compile(ATTRIBUTES + r"((?:pub )?use [\w:]*::)(?:([A-Z]\w*);|\{([^}]*)\}$)")


def items_of(text):
    """The items of a file of code without comments; a function comes in pieces, each clause and the body."""
    text = re.sub(r"//[^\n]*", "", text)
    found, start, depth = [], 0, 0
    for i, sign in enumerate(text):
        depth += sign in "{[("
        depth -= sign in "}])"
        if depth == 0 and sign in ";}":
            found.append(text[start : i + 1].strip())
            start = i + 1
    return found


def types_of(text):
    """The types, constants and modules of a file of code, and what it takes of those of others."""
    found = []
    for item in items_of(text):
        if ITEM.match(item):
            found.append(item)
        elif taken := USE.match(item):
            names = [name.strip() for name in (taken[2] or taken[3]).split(",")]
            found += [f"{taken[1]}{name};" for name in names if name[:1].isupper()]
    return "\n".join(found) + "\n"


class Repository:
    """The crates that others can use, each after those below it, with their definitions and with their laws that name no function's
    proof."""

    def __init__(self, root):
        self.root, self.below = root, {}
        for line in read(os.path.join(root, "crates.txt")).splitlines():
            name, colon, below = line.split("#")[0].partition(":")  # (a static library has "staticlib" after its name, and no law of others)
            if colon and os.path.exists(os.path.join(root, "crates", name.strip(), "src", "lib.rt")):
                self.below[name.strip()] = below.split()
        self.crates = []
        for name in self.below:
            self.place(name)
        self.sources, self.files, self.functions = {}, {}, set()
        for crate in self.crates:
            self.sources[crate] = {f: read(os.path.join(self.folder(crate, "src"), f)) for f in self.names(crate, "src", ".rt")}
            for text in self.sources[crate].values():
                self.functions |= {(crate, name) for name in re.findall(r"\bfn (\w+)", text)}
            for part in ("specs", "proofs"):
                for file in self.names(crate, part, ".antt"):
                    self.files[crate, part, file] = read(os.path.join(self.folder(crate, part), file))
        gone = True
        while gone:  # a file that names a function's proof goes, and what imports it
            gone = [key for key in self.files if key[1] == "proofs" and key[2] != "Lib.antt" and self.names_a_proof(key)]
            for key in gone:
                del self.files[key]

    def names_a_proof(self, key):
        """Whether a file of laws names the proof of a function, or a file of laws that is gone."""
        for crate, part, module in MODULE.findall(self.files[key]):
            if part == "proofs" and crate in self.crates:
                if (crate, module) in self.functions or (crate, part, module + ".antt") not in self.files:
                    return True
        return False

    def place(self, name):
        for other in self.below.get(name, []):
            if other in self.below and other not in self.crates:
                self.place(other)
        if name not in self.crates:
            self.crates.append(name)

    def folder(self, crate, part):
        return os.path.join(self.root, "crates", crate, part)

    def names(self, crate, part, end):
        folder = self.folder(crate, part)
        return sorted(f for f in os.listdir(folder) if f.endswith(end)) if os.path.isdir(folder) else []

    def without_code(self, folder):
        """Writes the copy."""
        shutil.rmtree(os.path.join(folder, "crates"), ignore_errors=True)
        lines = [f"{c}: {' '.join(d for d in self.below[c] if d in self.below)}\n" for c in self.crates]
        write(os.path.join(folder, "crates.txt"), "".join(lines))
        for crate, sources in self.sources.items():
            for file, text in sources.items():
                write(os.path.join(folder, "crates", crate, "src", file), types_of(text))
        for (crate, part, file), text in self.files.items():
            if part == "proofs" and file == "Lib.antt":
                modules = re.findall(r"(?m)^(?:pub )?mod (\S+)", text)
                kept = [f"pub mod {m}\n" for m in modules if (crate, part, m + ".antt") in self.files]
                if not kept:
                    continue
                text = "".join(kept)
            write(os.path.join(folder, "crates", crate, part, file), text)


# ---- definitions and their mutants

# a field stands right behind its record and a dot; a dot before a blank ends a λ
WORD = re.compile(r"--[^\n]*|[(){};,]|(?<=[^\s({;,])\.[^\s(){};,.]+|[^\s(){};,.]+\.(?=\s)|[^\s(){};,.]+|\.+")
HEAD = re.compile(r"((?:abbrev |unfoldable |pub )*)(\S+) :\s")
RECORD = re.compile(r"(?:pub )?record (\S+)")
PRELUDE, FLOATS = "Rattle.std.specs.Prelude", "lib.Ieee"
OTHERS = {  # a word, another one, and where that is imported from
    **{word: (other, PRELUDE) for word, other in [
        ("+", "-"), ("-", "+"), ("*", "+"), ("/", "%"), ("%", "/"), ("^", "*"), ("≤", "<"), ("<", "≤"), ("+ℤ", "-ℤ"), ("-ℤ", "+ℤ"), ("*ℤ", "+ℤ"),
        ("pos", "negsuc"), ("&&", "||"), ("||", "&&"), ("true", "false"), ("false", "true"), ("leb", "ltb"), ("ltb", "leb"), ("eqb", "leb"),
        ("take", "drop"), ("drop", "take"),
    ]},
    **{word: (other, FLOATS) for word, other in [("up", "down"), ("down", "up"), ("add", "sub"), ("sub", "add")]},
}
OPERATORS = {w for w in OTHERS if not w[0].isalpha()} | set("≡ → × ∷ ++ ⊎ ↔ ∣ = otherwise : | λ ⊕ ⊖ ⊗".split())
# the types of the arguments of functions of the library, two of which can be exchanged
KNOWN = {"cond": ["Bool", "A", "A"], "le": ["Float", "Float"], "sub": ["Float", "Float"]}
KNOWN |= {name: ["ℕ", "ℕ"] for name in ("leb", "ltb")} | {name: ["ℤ", "ℤ"] for name in ("lt_z", "le_z")}
MACHINE_TYPES = {name: "ℕ" for name in ("u8", "u16", "u32", "u64", "usize")}
MACHINE_TYPES |= {"i32": "ℤ", "i64": "ℤ", "f64": "Float", "bool": "Bool"}


class Atom:
    """A word, or what stands between two brackets."""

    def __init__(self, start, end, word="", inner=None):
        self.start, self.end, self.word, self.inner = start, end, word, inner


def atoms_of(text, start, end):
    """The atoms of text[start:end], nested by brackets."""
    stack = [(start, [])]
    for m in WORD.finditer(text, start, end):
        word = m.group()
        if word.startswith("--"):
            continue
        if word in "({":
            stack.append((m.start(), []))
        elif word in ")}" and len(stack) > 1:
            opened, inner = stack.pop()
            stack[-1][1].append(Atom(opened, m.end(), "", inner))
        else:
            stack[-1][1].append(Atom(m.start(), m.end(), word))
    while len(stack) > 1:
        _, inner = stack.pop()
        stack[-1][1].extend(inner)
    return stack[0][1]


def groups_of(atoms):
    """Every list of atoms that stands between brackets, the outermost first."""
    yield atoms
    for atom in atoms:
        if atom.inner is not None:
            yield from groups_of(atom.inner)


def arguments_of(kind):
    """The types of the explicit arguments of a type, and the result."""
    found, depth, part = [], 0, ""
    for sign in kind + "→":
        depth += sign in "({"
        depth -= sign in ")}"
        if sign == "→" and depth == 0:
            part = " ".join(part.split())
            named = re.fullmatch(r"((?:\([^:()]+ : (?:[^()]|\([^()]*\))*\) ?)+)", part)
            if named:
                for names, what in re.findall(r"\(([^:()]+) : ((?:[^()]|\([^()]*\))*)\)", part):
                    found += [what] * len(names.split())
            elif not part.startswith("{"):
                found.append(part)
            part = ""
        else:
            part += sign
    return found


class Definition:
    def __init__(self, crate, file, name, kind):
        self.crate, self.file, self.name, self.kind, self.clauses = crate, file, name, kind, []


def definitions_of(crate, file, text):
    """The definitions of a file: of each clause its patterns and its body, of a record the types of its fields."""
    found, current, lines, at = [], None, text.split("\n"), 0
    blocks = []
    for line in lines:
        if line[:1].strip() and not line.startswith("--"):
            blocks.append([at, at + len(line)])
        elif line.strip() and line[0] == " " and blocks and not line.strip().startswith("--"):
            blocks[-1][1] = at + len(line)
        at += len(line) + 1
    for start, end in blocks:
        block = text[start:end]
        record, head = RECORD.match(block), HEAD.match(block)
        if re.match(r"use |(pub )?mod |infix|(pub )?data ", block):
            current = None
        elif record:
            current = Definition(crate, file, record[1], "")
            found.append(current)
            fields = list(re.finditer(r"(?m)^  (?:pub )?(\S+) : ", block))
            for k, m in enumerate(fields):
                stop = fields[k + 1].start() if k + 1 < len(fields) else len(block)
                current.clauses.append(((start, start), (start + m.end(), start + len(block[:stop].rstrip()))))
            current = None
        elif head and (head[1] or current is None or head[2] != current.name):
            current = Definition(crate, file, head[2], block[head.end() :])
            found.append(current)
        elif current is not None:
            equals = [a for a in atoms_of(text, start, end) if a.word == "="]
            if equals:
                current.clauses.append(((start, equals[0].start), (equals[0].end, end)))
    return [d for d in found if d.clauses]


class Theory:
    """What is known of all definitions: their types, the records and enums, and who names whom."""

    def __init__(self, repository):
        self.repository, self.definitions, self.kinds, self.records, self.enums = repository, [], {}, [], []
        for (crate, part, file), text in repository.files.items():
            if part == "specs":
                self.learn(crate, file, text)
        for sources in repository.sources.values():
            for text in sources.values():
                self.learn_types(text)

    def learn(self, crate, file, text):
        found = definitions_of(crate, file, text)
        self.definitions += found
        for d in found:
            if d.kind:
                self.kinds[d.name] = arguments_of(d.kind)
            else:
                names = [re.search(r"(\S+) : $", text[: a[0]])[1] for _, a in d.clauses]
                self.records.append((d.name, dict(zip(names, (" ".join(text[a:b].split()) for _, (a, b) in d.clauses)))))

    def learn_types(self, text):
        for item in items_of(text):
            m = re.match(ATTRIBUTES + r"(?:pub )?(struct|enum) (\w+)(?:<[^>]*>)? *\{(.*)\}", item, re.S)
            if m and m[1] == "struct":
                fields = re.findall(r"(\w+): ([^,\n]+)", m[3])
                self.records.append((m[2], {name: MACHINE_TYPES.get(kind.strip(), kind.strip()) for name, kind in fields}))
            elif m:
                self.enums.append([v for v, rest in re.findall(r"(\w+)\s*(\([^)]*\))?\s*(?:=\s*\d+)?\s*(?:,|$)", m[3]) if not rest])

    def fields_like(self, field, text):
        """The fields of the same type in a record that has this one and that the text names."""
        alike = [r for name, r in self.records if field in r and re.search(rf"\b{name}\b", text)]
        return sorted({other for r in alike for other, kind in r.items() if kind == r[field] and other != field})

    def named_by(self, definition):
        """The crates above, in order, whose laws reach a definition: a definition is reached where it names one that is, a file of
        laws where it imports a name that is, or a file of laws that is."""
        files, reached, laws = self.repository.files, {(definition.crate, definition.file, definition.name)}, set()
        words = {}
        for d in self.definitions:
            text = files[d.crate, "specs", d.file]
            body = d.kind + " " + " ".join(text[a:b] for _, (a, b) in d.clauses)
            words[d.crate, d.file, d.name] = set(re.split(r"[\s(){};,.]+", body))
        imports = {key: list(re.finditer(MODULE.pattern + r"(?:\.\{([^}]*)\})?", text)) for key, text in files.items()}
        grown = True
        while grown:
            grown = False
            for key in files:
                taken = {n for c, f, n in reached if (c, "specs", f) == key}
                whole = False
                for m in imports[key]:
                    module = (m[1], m[2], m[3] + ".antt")
                    if module in laws:
                        whole = True
                    for name in (m[4] or "").split(","):
                        if (module[0], module[2], name.strip().split(" as ")[0]) in reached and m[2] == "specs":
                            taken.add(name.strip().split(" as ")[-1])
                    if m[4] is None and any((c, "specs", f) == module for c, f, _ in reached):
                        whole = True
                if key[1] == "proofs" and key not in laws and (taken or whole):
                    laws.add(key)
                    grown = True
                if key[1] == "specs":
                    near = taken | {n.strip("◌") for n in taken}
                    for where, named in words.items():
                        if where[:2] == (key[0], key[2]) and where not in reached and (named & near or whole):
                            reached.add(where)
                            grown = True
        return [c for c in self.repository.crates if c != definition.crate and any(k[0] == c for k in laws)]


class Mutant:
    def __init__(self, definition, text, kind, start, end, new, module=None):
        self.definition, self.kind, self.old, self.new = definition, kind, text[start:end], new
        self.line = text.count("\n", 0, start) + 1
        wrong = text[:start] + new + text[end:]
        if module and not re.search(r"(?m)^use .*[{ ]◌?" + re.escape(new) + r"◌?[,}]", text):
            name = new if new[0].isalpha() else f"◌{new}◌"
            at = re.search(r"(?m)^use ", wrong)
            place = at.start() if at else 0
            wrong = wrong[:place] + f"use {module}.{{{name}}}\n" + wrong[place:]
        self.wrong = wrong
        path = f"{definition.crate}/specs/{definition.file}"
        self.words = f"{path}:{self.line} {definition.name}: {kind}: {' '.join(self.old.split())} -> {' '.join(new.split())}"
        self.key = hashlib.sha256(f"{path}\0{text}\0{start}\0{end}\0{new}".encode()).hexdigest()[:16]


def mutants_of(theory, definition, text):
    found = []
    for (left, right), (first, past) in definition.clauses:

        def add(kind, start, end, new, module=None):
            found.append(Mutant(definition, text, kind, start, end, new, module))

        patterns = atoms_of(text, left, right)[1:] if definition.kind else []
        kinds = arguments_of(definition.kind)
        variables = {a.word: k for a, k in zip(patterns, kinds) if a.word and a.word[0].islower()}
        for group in groups_of(atoms_of(text, first, past)):
            fixed = set()
            for i, atom in enumerate(group):
                if i + 1 < len(group) and group[i + 1].word in ("=", ":", "←"):
                    fixed.add(i)
                if atom.word.startswith("λ"):
                    fixed |= {j for j in range(i, next((j for j in range(i, len(group)) if group[j].word.endswith(".")), i) + 1)}
            for i, atom in enumerate(group):
                if i in fixed or not atom.word:
                    continue
                if re.fullmatch(r"\d+", atom.word):
                    for other in [int(atom.word) + 1] + ([int(atom.word) - 1] if int(atom.word) else []):
                        add("number", atom.start, atom.end, str(other))
                if atom.word in OTHERS:
                    other, module = OTHERS[atom.word]
                    add("word" if atom.word[0].isalpha() else "operator", atom.start, atom.end, other, module)
                for other, kind in variables.items():
                    if atom.word in variables and other != atom.word and variables[atom.word] == kind:
                        add("argument", atom.start, atom.end, other)
                if atom.word.startswith("."):
                    for other in theory.fields_like(atom.word[1:], text):
                        add("field", atom.start, atom.end, "." + other)
                for values in theory.enums:
                    if atom.word in values:
                        for other in [v for v in values if v != atom.word and re.search(rf"\b{v}\b", text)][:3]:
                            add("value", atom.start, atom.end, other)
                exchange_arguments(theory, text, group, i, add)
            exchange_entries(text, group, add)
            exchange_fields(theory, text, group, add)
    return found


def exchanged(text, one, two):
    """Two ranges of the text exchanged, with what stands between them."""
    return text[two[0] : two[1]] + text[one[1] : two[0]] + text[one[0] : one[1]]


def exchange_arguments(theory, text, group, i, add):
    kinds = KNOWN.get(group[i].word) or theory.kinds.get(group[i].word, [])[:-1]
    arguments = list(itertools.takewhile(lambda a: a.word not in OPERATORS and a.word not in (";", ","), group[i + 1 :]))
    # a field's name follows its record: the two are one argument
    merged = []
    for a in arguments:
        if a.word.startswith(".") and merged:
            merged[-1] = (merged[-1][0], a.end)
        else:
            merged.append((a.start, a.end))
    for (k, one), (l, two) in itertools.combinations(enumerate(merged[: len(kinds)]), 2):
        if kinds[k] == kinds[l] and text[one[0] : one[1]] != text[two[0] : two[1]]:
            add("exchanged", one[0], two[1], exchanged(text, one, two))


def exchange_entries(text, group, add):
    ends = [i for i, a in enumerate(group) if a.word == "∷"]
    if not ends:
        return
    starts = [0] + [e + 1 for e in ends[:-1]]
    entries = [(group[a].start, group[b - 1].end) for a, b in zip(starts, ends) if a < b]
    for one, two in zip(entries, entries[1:]):
        if text[one[0] : one[1]] != text[two[0] : two[1]]:
            add("entries", one[0], two[1], exchanged(text, one, two))


def exchange_fields(theory, text, group, add):
    values, names, start = [], [], 0
    for i, a in enumerate(group + [Atom(0, 0, ";")]):
        if a.word == ";":
            part = group[start:i]
            if len(part) > 2 and part[1].word == "=":
                names.append(part[0].word)
                values.append((part[2].start, part[-1].end))
            start = i + 1
    for (k, one), (l, two) in itertools.combinations(enumerate(values), 2):
        alike = any(names[k] in r and names[l] in r and r[names[k]] == r[names[l]] for _, r in theory.records)
        if alike and text[one[0] : one[1]] != text[two[0] : two[1]]:
            add("fields", one[0], two[1], exchanged(text, one, two))


# ---- trying them


def check(folder, crate):
    done = subprocess.run(["rt", "check"], cwd=os.path.join(folder, "crates", crate), stdin=subprocess.DEVNULL, stdout=subprocess.PIPE, stderr=subprocess.STDOUT)
    return done.returncode, done.stdout.decode("utf-8", "replace")


def verdict(theory, folder, mutant):
    d = mutant.definition
    path = os.path.join(folder, "crates", d.crate, "specs", d.file)
    right = read(path)
    try:
        write(path, mutant.wrong)
        for crate in [d.crate] + theory.named_by(d):
            status, said = check(folder, crate)
            if status:
                errors = [line for line in said.splitlines() if ": error: " in line and ".antt:" in line]
                if not errors:
                    return "unclear", said[-300:]
                return ("no definition" if "/specs/" in errors[0].split(": error: ")[0] else "pinned"), errors[0][:300]
        return "unpinned", ""
    finally:
        write(path, right)


def try_all(theory, todo, options):
    log = os.path.join(options.work, "log.jsonl")
    os.makedirs(options.work, exist_ok=True)
    known = {r["key"]: r for r in map(json.loads, read(log).splitlines())} if os.path.exists(log) else {}
    results, lock, end, queue, stopped = [], threading.Lock(), time.time() + options.seconds, list(todo), []
    # (rt ci refuses files of Rattle beside the crates; the name is always the same, since rt notes where work was kept)
    copies = os.path.join(tempfile.gettempdir(), "vokhsaot-definitions-" + hashlib.sha256(ROOT.encode()).hexdigest()[:12])
    shutil.rmtree(copies, ignore_errors=True)

    def worker(number):
        folder = os.path.join(copies, f"copy-{number}")
        with lock:
            theory.repository.without_code(folder)
        for crate in options.crates:
            status, said = check(folder, crate)
            if status:
                stopped.append(f"definitions: {crate} is not proved without its code\n{said[-2000:]}")
                return
        while True:
            with lock:
                if not queue or time.time() > end:
                    return
                definition, mutants = queue.pop(0)
            tried, wasted = 0, 0
            for mutant in mutants:
                if tried == options.per or wasted == options.per or time.time() > end:
                    break
                if mutant.key not in known:
                    said, why = verdict(theory, folder, mutant)
                    result = {"key": mutant.key, "crate": definition.crate, "definition": definition.name}
                    result |= {"mutant": mutant.words, "verdict": said, "error": why}
                    with lock:
                        known[mutant.key] = result
                        with open(log, "a", encoding="utf-8") as f:
                            f.write(json.dumps(result, ensure_ascii=False) + "\n")
                        print(f"{said}: {mutant.words}", flush=True)
                with lock:
                    results.append(known[mutant.key])
                tried += known[mutant.key]["verdict"] in ("pinned", "unpinned")
                wasted += known[mutant.key]["verdict"] not in ("pinned", "unpinned")

    threads = [threading.Thread(target=worker, args=(n,)) for n in range(options.jobs)]
    for t in threads:
        t.start()
    for t in threads:
        t.join()
    shutil.rmtree(copies, ignore_errors=True)
    if stopped:
        sys.exit(stopped[0])
    verdicts = ["pinned", "unpinned", "no definition", "unclear"]
    print("\n| crate | definitions | tried | " + " | ".join(verdicts) + " |\n|---|---|---|---|---|---|---|")
    for crate in options.crates:
        mine = [r for r in results if r["crate"] == crate]
        counts = [str(sum(r["verdict"] == v for r in mine)) for v in verdicts]
        print(f"| `{crate}` | {len({r['definition'] for r in mine})} | {len(mine)} | " + " | ".join(counts) + " |")
    sys.exit(1 if any(r["verdict"] == "unpinned" for r in results) else 0)


EXAMPLE = """-- An example. Definitions only.
use Rattle.std.specs.Prelude.{ℕ, ◌+◌}
abbrev pub most : ℕ
most = 8

-- a comment: 7
unfoldable pub area : Box → (w h : ℕ) → ℕ
area b w h = cond (leb w h) (b.wide + h) (most)

abbrev pub box : ℕ → ℕ → List Kind → Box
box w h (Tall ∷ Flat ∷ kinds) = record { wide = w; high = h }
"""
WANTED = {
    "most: number: 8 -> 9", "most: number: 8 -> 7", "area: word: leb -> ltb", "area: argument: w -> h", "area: argument: h -> w",
    "area: field: .wide -> .high", "area: operator: + -> -", "area: exchanged: w h -> h w",
    "area: exchanged: (b.wide + h) (most) -> (most) (b.wide + h)", "box: argument: w -> h", "box: argument: h -> w",
    "box: fields: w; high = h -> h; high = w",
}


def self_test(repository):
    theory = Theory(repository)
    theory.records, theory.enums, theory.kinds = [("Box", {"wide": "ℕ", "high": "ℕ"})], [["Flat", "Tall"]], {}
    found = definitions_of("example", "Example.antt", EXAMPLE)
    made = {m.words.split(" ", 1)[1] for d in found for m in mutants_of(theory, d, EXAMPLE)}
    if made != WANTED:
        sys.exit(f"definitions: the example makes {sorted(made - WANTED)} too, and {sorted(WANTED - made)} not")
    print(f"definitions: {len(made)} changes in the example, as wanted")


def main():
    parser = argparse.ArgumentParser(usage=__doc__)
    parser.add_argument("crates", nargs="*")
    parser.add_argument("--list", action="store_true")
    parser.add_argument("--only", default=".*")
    parser.add_argument("--per", type=int, default=3)
    parser.add_argument("--seed", type=int, default=1)
    parser.add_argument("--jobs", type=int, default=1)
    parser.add_argument("--seconds", type=float, default=1e9)
    parser.add_argument("--work", default=os.path.join(ROOT, "target", "definitions"))
    parser.add_argument("--self-test", action="store_true")
    options = parser.parse_args()
    options.work = os.path.abspath(options.work)
    repository = Repository(ROOT)
    if options.self_test:
        return self_test(repository)
    if not options.crates:
        parser.error("no crate is named")
    for crate in options.crates:
        if crate not in repository.crates:
            sys.exit(f"definitions: no crate {crate} with definitions")
    theory, todo = Theory(repository), []
    for d in theory.definitions:
        if d.crate in options.crates and re.fullmatch(options.only, d.name):
            made = mutants_of(theory, d, repository.files[d.crate, "specs", d.file])
            random.Random(f"{options.seed} {d.crate} {d.file} {d.name}").shuffle(made)
            todo.append((d, made))
    if options.list:
        for d, made in todo:
            print(f"{d.crate}/specs/{d.file} {d.name}: {len(made)}")
            for mutant in made:
                print(f"  {mutant.words}")
        return print(f"definitions: {len(todo)}, {sum(len(made) for _, made in todo)} mutants")
    try_all(theory, todo, options)


main()
