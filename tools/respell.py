#!/usr/bin/env python3
"""Respells the repository's own definitions and lemmas, once, after port.py: words in snake case, types and modules in upper
camel case. It was run in the commit that docs/PORT.md names; what is written since then has the new spelling.

usage: tools/respell.py           over crates/ (code, clauses, edits' new and old texts) and the pages
       tools/respell.py --list    prints each name, old and new, and changes nothing

A definition in lower camel case gets underscores; so does a lemma, a field or a constructor whose words were joined by dashes.
Where the new name is another definition's, the lemma gets `_lem`. Answers to goals keep the names that the prover gives them.
"""

import os
import re
import sys

DEFINED = re.compile(r"^(\s*)(?:abbrev |unfoldable |pub |private )*([^\s(){}\[\];,.\"`⌜⌝:]+) :(?= |$)(.*)")
TOKEN = re.compile(r"([\s(){}\[\];,.\"`⌜⌝]+)")
NOT_OWN = ("tie.Need", "tie.Invariant", "tie.Measure", "statement M")


def files(*endings):
    for folder, dirs, names in os.walk("crates"):
        dirs[:] = sorted(d for d in dirs if d != "out")
        for name in sorted(names):
            if name.endswith(endings):
                yield os.path.join(folder, name)


def read(path):
    with open(path, encoding="utf-8") as f:
        return f.read()


def snake(name):
    name = re.sub(r"(?<=[a-z0-9'])([A-Z])", r"_\1", name)
    name = re.sub(r"([A-Z])(?=[A-Z][a-z])", r"\1_", name)
    return name.lower().replace("-", "_")


def names():
    own, goals = {}, {}
    for path in files(".antt"):
        for line in read(path).splitlines():
            m = DEFINED.match(line)
            if not m or m[2] in ("where", "use"):
                continue
            if any(w in m[3] for w in NOT_OWN):
                goals.setdefault(path, set()).add(m[2])
            else:
                own.setdefault(m[2], path)
    camel = {n for n in own if re.match(r"[a-z◌]", n) and re.search("[A-Z]", n) and "-" not in n}
    dashed = {n for n in own if "-" in n and re.match("[a-z]", n)}
    new = {n: snake(n) for n in camel}
    # a lemma with dashes that would have a definition's name
    taken = set(new.values()) | {n for n in own if n not in camel and n not in dashed}
    for n in dashed:
        s = snake(n)
        new[n] = FIELDS.get(n) or (s + "_lem" if s in taken else s)
    return new, goals


def fields():
    """The names of the fields of the repository's records: they stand behind a value and a dot."""
    found = set()
    for path in files(".antt"):
        depth = None
        for line in read(path).splitlines():
            if not line.strip() or line.lstrip().startswith("--"):
                continue
            inner = len(line) - len(line.lstrip())
            if re.match(r"\s*(pub |private )*record \w", line) and line.rstrip().endswith("where"):
                depth = inner
                continue
            if depth is not None and inner <= depth:
                depth = None
            m = DEFINED.match(line)
            if depth is not None and m and len(m[1]) == depth + 2:
                found.add(m[2])
    return found


# lemmas that had underscores already and would share a file with a definition of the same new name: renamed in their crate alone
LEMMAS = {"in_order": "machine", "is_found": "machine", "sum_over": "averaging", "place_at": "averaging"}

# fields of claims that would have the name of the definition that they speak of
FIELDS = {
    "submit-answer": "submit_answer_is",
    "collect-answer": "collect_answer_is",
    "withdraw-answer": "withdraw_answer_is",
    "handed-over": "handed_over_is",
    "free-buffers": "free_buffers_are",
    "words-fit": "words_are_fit",
    "seen-since": "seen_since_is",
    "change-code": "change_code_is",
}


def turned(text, new, own_fields, keep=()):
    parts = TOKEN.split(text)
    for i, p in enumerate(parts):
        if p not in new or p in keep:
            continue
        # behind a value and a dot stands a field, or a name that the prover makes; behind a module and a dot a definition
        value = i > 1 and parts[i - 1] == "." and not re.match("[A-Z]", parts[i - 2])
        if not value or p in own_fields:
            parts[i] = new[p]
    return "".join(parts)


def in_backticks(text, new):
    return re.sub(r"`[^`\n]+`", lambda m: turned(m[0], new, new), text)


def code(text, new, own_fields, keep, comment):
    out = []
    for line in text.split("\n"):
        m = re.search(r"(^|\s)" + comment + r"(\s|$)", line)
        cut = m.start() if m else len(line)
        out.append(turned(line[:cut], new, own_fields, keep) + in_backticks(line[cut:], new))
    return "\n".join(out)


def edit(text, new, own_fields):
    out = []
    for line in text.split("\n"):
        m = re.match(r"(old|new): ", line)
        out.append(line[: m.end()] + turned(line[m.end() :], new, own_fields) if m else line)
    return "\n".join(out)


def write(path, text, before):
    if text != before:
        with open(path, "w", encoding="utf-8") as f:
            f.write(text)


def main():
    new, goals = names()
    if sys.argv[1:] == ["--list"]:
        for n in sorted(new):
            print(n, new[n])
        return
    own_fields = fields()
    for path in files(".antt"):
        t = read(path)
        crate = path.split(os.sep)[1]
        here = new | {n: n + "_lem" for n in LEMMAS if LEMMAS[n] == crate}
        write(path, code(t, here, own_fields, goals.get(path, ()), "--"), t)
    for path in files(".rt"):
        t = read(path)
        write(path, code(t, new, own_fields, (), "//"), t)
    for path in files(".edit"):
        t = read(path)
        write(path, edit(t, new, own_fields), t)
    pages = ["README.md", "CHANGELOG.md"]
    for folder, _, found in os.walk("docs"):
        pages += [os.path.join(folder, n) for n in sorted(found) if n.endswith(".md")]
    for path in pages:
        t = read(path)
        write(path, in_backticks(t, new), t)


main()
