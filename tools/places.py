#!/usr/bin/env python3
"""Counts in crates/*/src the places that docs/DESIGN-PASS.md speaks of, so that they can be counted again.

usage: tools/places.py [COMMIT]    of the tree as it stands, or of a commit

Points 1, 3, 5, 6 and 8 are read from the text: a row is a place to look at, and not always a fault. Points 2, 4 and 7 want reading; for them
it prints the functions of one shape (2), those whose name says that they compare, copy or convert (4) and those that only choose which
function to call (7).
"""
import collections, re, subprocess, sys


def files(commit, pattern):
    """(path, text) of the files below crates/ that match."""
    command = ["git", "ls-tree", "-r", "--name-only", commit] if commit else ["git", "ls-files", "-co", "--exclude-standard"]
    paths = subprocess.run(command + ["crates"] if not commit else command + ["--", "crates"], capture_output=True, text=True, check=True).stdout.split("\n")
    for path in sorted(set(paths)):
        if re.fullmatch(pattern, path):
            if commit:
                yield path, subprocess.run(["git", "show", f"{commit}:{path}"], capture_output=True, text=True, check=True).stdout
            else:
                try:
                    yield path, open(path).read()
                except FileNotFoundError:
                    pass


def functions(text):
    """(line, name, head, body) of each function: the head goes to its body."""
    for found in re.finditer(r"^( *)(?:pub )?(?:extern \"C\" )?fn (\w+)(.*?)^\1\{\n(.*?)^\1\}", text, re.M | re.S):
        yield text.count("\n", 0, found.start()) + 1, found[2], found[3], found[4]
    for found in re.finditer(r"^( *)(?:pub )?fn (\w+)(\([^{;]*?\{\n)(.*?)^\1\}", text, re.M | re.S):
        if "\n" not in found[3].strip("\n").replace("\n", "", 0) and "ensures" not in found[3] and "requires" not in found[3]:
            yield text.count("\n", 0, found.start()) + 1, found[2], found[3], found[4]


def show(title, rows):
    print(f"{title}: {len(rows)}")
    for row in rows:
        print(f"    {row}")


def main():
    commit = sys.argv[1] if len(sys.argv) > 1 else None
    source = list(files(commit, r"crates/\w+/src/.*\.rt"))
    short = lambda path: path.replace("crates/", "").replace("/src", "").replace(".rt", "")
    rows = []
    for path, text in source:
        for found in re.finditer(r"^(?:pub )?(enum|struct) (\w+)[^{;]*\{(.*?)^\}", text, re.M | re.S):
            kind, name, body = found.groups()
            bare = re.sub(r"//.*", "", body)
            variants = re.findall(r"^    (\w+)(\(.*\))?,$", bare, re.M)
            if kind == "enum" and (any(v in ("Refused", "Nothing", "Nowhere", "NoField", "NoJob") for v, _ in variants)):
                rows.append(f"{short(path)}: enum {name} {{ {', '.join(v for v, _ in variants)} }}")
            if kind == "struct" and re.search(r"^    (pub )?(outcome|answer|started|ended): |: bool,$", bare, re.M):
                rows.append(f"{short(path)}: struct {name} (a flag, an outcome or an answer beside values)")
        for found in re.finditer(r"^(?:pub )?const ([A-Z_]+): u32 = \d+;$", text, re.M):
            if found[1] in ("RECORD_OUT_OF_ORDER", "WRONG_LENGTH"):
                rows.append(f"{short(path)}: const {found[1]}, the number of a refusal")
        if not path.startswith("crates/capi"):
            for line, name, head, body in functions(text):
                if re.search(r"\) -> u32\b", head) and re.search(r"number_of|_code|_number|code", head):
                    rows.append(f"{short(path)}:{line}: {name} answers the number of a refusal")
    show("1. shapes of Option and Result, flags beside values, numbers of refusals", rows)

    shapes = collections.defaultdict(list)
    for path, text in source:
        for line, name, head, body in functions(text):
            if body.count("\n") >= 3 and not path.startswith("crates/capi"):
                shape = re.sub(r"\b[a-z_]\w*\b|\b\d\w*\b|\b[A-Z]\w*\b", "x", re.sub(r"//.*", "", body))
                shapes[re.sub(r"\s+", "", shape)].append(f"{short(path)}:{line} {name}")
    show("2. functions whose bodies have one shape", [" ~ ".join(places) for places in shapes.values() if len(places) > 1])

    rows = []
    for path, text in source:
        for number, line in enumerate(text.split("\n"), 1):
            if re.search(r"^\s*while |^\s*for \w+ in \w+\.\.", line):
                rows.append(f"{short(path)}:{number}: {line.strip()}")
    show("3. loops that count: `while`, and `for` over a range", rows)

    rows = []
    for path, text in source:
        for line, name, head, body in functions(text):
            if re.search(r"^(same_|copy|is_zero|all_zero|error_number|outcome_number|choice_of|letter|longest|positive|negative|nonnegative|negated|signed_of|word_of|wide|narrow|number_of|larger|smaller|above|both|size_and_sign|empty_slot|float_of|digit_of|difference_of|doubled)", name):
                rows.append(f"{short(path)}:{line} {name}")
    show("4. comparing, copying and converting by hand (by name)", rows)

    clauses = collections.Counter()
    places = collections.defaultdict(list)
    parameters = collections.Counter()
    for path, text in source:
        crate = path.split("/")[1]
        for line, name, head, body in functions(text):
            for part in re.findall(r"requires(?: \w+)? \{ (.*?) \}\n", head):
                for fact in re.split(r" × ", part):
                    fact = fact.strip("() ")
                    clauses[crate, fact] += 1
                    places[crate, fact].append(name)
            names = re.findall(r"(\w+): ", head.split(")")[0])
            for i, first in enumerate(names):
                for second in names[i + 1:]:
                    if crate != "capi":
                        parameters[crate, first, second] += 1
    show("5. facts that stand in the `requires` of three or more functions", [f"{crate}: {fact} ({count}: {', '.join(places[crate, fact])})" for (crate, fact), count in sorted(clauses.items()) if count >= 3])
    show("   pairs of parameters that four or more functions of a crate take", [f"{crate}: {first}, {second} ({count})" for (crate, first, second), count in sorted(parameters.items()) if count >= 4])

    rows = []
    for path, text in source:
        for line, name, head, body in functions(text):
            signature = head.split(")")[0]
            if re.search(r"&(mut )?\[\w+\], (at|start|from|size|count): usize|&(mut )?\[\w+\],\s+(at|start|from|size): usize", signature):
                rows.append(f"{short(path)}:{line} {name}")
    show("6. a slice with a place or a length beside it", rows)

    rows = []
    for path, text in source:
        for line, name, head, body in functions(text):
            calls = re.findall(r"^\s*(?:return )?(\w+)\(|=> (\w+)\(", body, re.M)
            if len(calls) >= 3 and re.search(r"\bif |\bmatch ", body) and not re.search(r"\bwhile |\bfor |\blet ", body.replace("let c = coefficients;", "")):
                rows.append(f"{short(path)}:{line} {name}")
    show("7. functions that only choose which function to call", rows)

    answers = [(path, text) for path, text in files(commit, r"crates/\w+/proofs/.*/(Answers|Invariants)\.antt")]
    lemmas = [(path, text) for path, text in files(commit, r"crates/\w+/proofs/\w+\.antt")]
    print(f"8. proofs: {len(answers)} files of answers and invariants, {sum(t.count(chr(10)) for _, t in answers)} lines; {len(lemmas)} files of laws and tables, {sum(t.count(chr(10)) for _, t in lemmas)} lines")


main()
