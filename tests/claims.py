#!/usr/bin/env python3
"""docs/REFERENCE.md, docs/CLAIMS.md and the repository against each other. Each promised sentence of REFERENCE has an id and a row in
CLAIMS that shows it, word for word; each file and name that a row has between backticks is there; each sentence that a definition in
specs/ quotes stands in REFERENCE. A path is meant from the root, from crates/, or from the folder of a crate.

    tests/claims.py             compares
    tests/claims.py --write     puts REFERENCE's sentences into CLAIMS
    tests/claims.py --self-test shows on small pages that each kind of fault is found"""

import pathlib
import re
import sys

ROOT = pathlib.Path(__file__).resolve().parents[1]
CLAIMS = ROOT / "docs" / "CLAIMS.md"
REFERENCE = ROOT / "docs" / "REFERENCE.md"

# The ids of the promises: a letter, or a change request and a dot, the first number and the last. A sentence that is dropped from
# both pages alike is missed by these.
PROMISES = [
    ("D", 1, 9), ("I", 1, 4), ("P", 1, 5), ("H", 1, 10), ("K", 1, 17), ("R", 1, 11), ("X", 1, 10), ("V", 1, 26), ("L", 1, 29),
    ("N", 0, 14), ("O", 1, 8), ("U", 1, 7), ("B", 1, 21), ("T", 0, 11), ("Y", 1, 5), ("C", 1, 10), ("F", 1, 11), ("G", 1, 25),
    ("S1.", 1, 7), ("S2.", 1, 14), ("S3.", 1, 13), ("S4.", 1, 11), ("S5.", 1, 4), ("S6.", 1, 3), ("W", 1, 5),
]
SOURCES = {".rt", ".antt", ".rs", ".py", ".sh", ".h", ".c", ".toml", ".md", ".edit", ".in", ".map"}
EMPTY = {"", "—"}
SENTENCE = "sentence"


def wanted_ids() -> list[str]:
    return [f"{letter}{n}" for letter, first, last in PROMISES for n in range(first, last + 1)]


def sentences_of(page: str) -> tuple[dict[str, str], list[str]]:
    """The sentences of REFERENCE by id, from list items '- **K3.** ..', and what is wrong with them."""
    found, faults, current = {}, [], None
    for number, line in enumerate(page.splitlines(), 1):
        item = re.match(r"- \*\*([A-Z]\d+(?:\.\d+)?)\.\*\* (.+)", line)
        if item is not None:
            current = item[1]
            if current in found:
                faults.append(f"line {number}: {current} stands twice")
            found[current] = item[2].strip()
        elif current is not None and line.startswith("  ") and line.strip():
            found[current] += " " + line.strip()
        else:
            current = None
    return found, faults


def ids_of(cell: str) -> list[str]:
    """'K3, K4', 'T2 to T8' and 'S1.1 to S1.3' as single ids, in order."""
    found = []
    for part in cell.split(","):
        match = re.fullmatch(r"\s*([A-Z](?:\d+\.)?)(\d+)(?: to ([A-Z](?:\d+\.)?)(\d+))?\s*", part)
        if match is None or (match[3] or match[1]) != match[1]:
            return []
        found += [f"{match[1]}{n}" for n in range(int(match[2]), int(match[4] or match[2]) + 1)]
    return found


def shown(ids: list[str], sentences: dict[str, str]) -> str:
    """What a row of these ids shows: each sentence, and with several its id before it. A '|' would end the cell."""
    texts = [sentences.get(one, "?") for one in ids]
    if len(ids) > 1:
        texts = [f"**{one}** {text}" for one, text in zip(ids, texts)]
    return " ".join(texts).replace("|", "\\|")


def cells_of(line: str) -> list[str]:
    """The cells of a table's row; an escaped bar belongs to its cell."""
    return [cell.strip() for cell in re.split(r"(?<!\\)\|", line.strip())[1:-1]] if line.startswith("|") else []


def repository() -> tuple[set[str], set[str]]:
    """Every path, and every word of a source file. The word of a must-fail edit is its label; an edit of several wrong programs
    has a line '# LABEL' for each."""
    paths, words = set(), set()
    for path in ROOT.rglob("*"):
        if {"target", ".git", "out"} & set(path.relative_to(ROOT).parts) or path == CLAIMS:
            continue
        name = str(path.relative_to(ROOT))
        paths |= {name, name.removeprefix("crates/")}
        words |= {path.name, path.stem}
        if path.is_file() and path.suffix in SOURCES | {""}:
            text = path.read_text(errors="ignore")
            words |= set(re.findall(r"[\w'-]+", text)) | set(re.findall(r"[\w']+", text)) | set(re.findall(r"◌\w+◌", text))
            if path.suffix == ".edit":
                labels = [str(path.relative_to(ROOT).parent / label) for label in re.findall(r"^# (\w+)$", text, re.MULTILINE)]
                paths |= {label.removeprefix("crates/") for label in labels}
    return paths, words


def missing_in(span: str, paths: set[str], words: set[str]) -> list[str]:
    """What is not there of a text between backticks: its paths and its words."""
    gone = []
    for token in re.split(r"[\s(),{}]+", span):
        token = token.rstrip(".;")
        if "/" in token:
            known = token.rstrip("/")
            if not any(known in paths or f"{known}{end}" in paths for end in (".edit", ".antt", ".rt")):
                gone.append(token)
        else:
            gone += [word for word in re.split(r"::|\.", token) if word and word not in words]
    return gone


def quotes_in(source: str) -> list[str]:
    """The quoted sentences of a file's comments, which may run over lines."""
    comments, block = [], ""
    for line in source.splitlines() + [""]:
        text = re.match(r"\s*-- ?(.*)", line)
        if text is not None:
            block += " " + text[1].strip()
        elif block:
            comments.append(block)
            block = ""
    return [quote for comment in comments for quote in re.findall(r'"([^"]+)"', comment)]


def pieces(quote: str) -> list[str]:
    """A quote's parts that have to stand somewhere: '..' leaves words out, and brackets put some in."""
    parts = re.split(r"\s*\.\.\s*|\[[^\]]*\]", quote)
    return [" ".join(part.split()).strip(" .,;:") for part in parts if len(part.strip(" .,;:()")) > 2]


def quote_faults(sources: dict[str, str], page: str) -> list[str]:
    text = " ".join(page.split()).replace("**", "").lower()
    faults = []
    for name, source in sources.items():
        for quote in quotes_in(source):
            faults += [f'{name}: "{part}" does not stand in REFERENCE' for part in pieces(quote) if part.lower() not in text]
    return faults


def claims_faults(claims: str, sentences: dict[str, str], paths: set[str], words: set[str]) -> tuple[set[str], list[str]]:
    """The ids that CLAIMS answers, and what is wrong with its rows."""
    answered, faults = set(), []
    for number, line in enumerate(claims.splitlines(), 1):
        cells = cells_of(line)
        ids = ids_of(cells[0]) if cells else []
        if ids and all(cell in EMPTY for cell in cells[2:]):
            faults.append(f"line {number}: {cells[0]} has no answer")
        if ids and (len(cells) < 3 or cells[1] != shown(ids, sentences)):
            faults.append(f"line {number}: {cells[0]} does not show its sentence as REFERENCE has it (--write puts it there)")
        faults += [f"line {number}: no promise {one}" for one in ids if one not in sentences]
        faults += [f"line {number}: {one} is answered twice" for one in ids if one in answered]
        answered |= set(ids)
        for span in re.findall(r"`([^`]+)`", " | ".join(cells[2:]) if ids else line):
            faults += [f"line {number}: nothing is called {gone}" for gone in missing_in(span, paths, words)]
    return answered, faults


def all_faults(reference: str, claims: str, sources: dict[str, str], wanted: list[str], paths: set[str], words: set[str]) -> list[str]:
    sentences, faults = sentences_of(reference)
    faults += [f"REFERENCE has no sentence {one}" for one in wanted if one not in sentences]
    faults += [f"REFERENCE has {one}, which tests/claims.py does not know" for one in sentences if one not in wanted]
    answered, more = claims_faults(claims, sentences, paths, words)
    faults += more + [f"{one} has no row in CLAIMS" for one in sentences if one not in answered]
    return faults + quote_faults(sources, reference)


def written(claims: str, sentences: dict[str, str]) -> str:
    """CLAIMS with the sentences of each row's ids in its second cell."""
    lines = []
    for line in claims.splitlines():
        cells = cells_of(line)
        ids = ids_of(cells[0]) if cells else []
        if ids:
            line = "| " + " | ".join([cells[0], shown(ids, sentences)] + cells[2:]) + " |"
        lines.append(line)
    return "\n".join(lines) + "\n"


def self_test() -> int:
    """A pair of pages without a fault, and the same with one fault of each kind."""
    reference = "- **A1.** One |x| is\n  two.\n- **A2.** Three.\n"
    claims = f"| id | {SENTENCE} | where |\n|---|---|---|\n| A1 | One \\|x\\| is two. | `name` |\n| A2 | Three. | there |\n"
    spec = '-- "One |x| is .. two", and\n-- "Three"\n'
    good = (reference, claims, {"spec": spec}, ["A1", "A2"], set(), {"name"})
    faulty = {
        "a sentence that differs": (0, reference.replace("two", "four")),
        "a sentence that is gone": (0, reference.replace("- **A2.** Three.\n", "Three.\n")),
        "a sentence twice": (0, reference + "- **A2.** Three.\n"),
        "a sentence that nobody knows": (0, reference + "- **A3.** Four.\n"),
        "a row that is gone": (1, claims.replace("| A2 | Three. | there |\n", "")),
        "a row without an answer": (1, claims.replace("there", "—")),
        "a row twice": (1, claims + "| A2 | Three. | there |\n"),
        "a name that is not there": (1, claims.replace("`name`", "`other`")),
        "a quote that does not stand there": (2, {"spec": spec.replace("Three", "Tree")}),
    }
    failed = [f"a fault where there is none: {fault}" for fault in all_faults(*good)]
    for what, (place, changed) in faulty.items():
        pages = [*good]
        pages[place] = changed
        if not all_faults(*pages):
            failed.append(f"not found: {what}")
    print("\n".join(failed + [f"{len(faulty) + 1} pairs of pages, {len(failed)} faults"]))
    return 1 if failed else 0


def main() -> int:
    if sys.argv[1:] == ["--self-test"]:
        return self_test()
    reference = REFERENCE.read_text()
    if sys.argv[1:] == ["--write"]:
        CLAIMS.write_text(written(CLAIMS.read_text(), sentences_of(reference)[0]))
    paths, words = repository()
    sources = {str(path.relative_to(ROOT)): path.read_text() for path in sorted((ROOT / "crates").glob("*/specs/*.antt"))}
    faults = all_faults(reference, CLAIMS.read_text(), sources, wanted_ids(), paths, words)
    for fault in faults:
        print(fault)
    print(f"{len(wanted_ids())} promises, {sum(len(quotes_in(text)) for text in sources.values())} quotes, {len(faults)} faults")
    return 1 if faults else 0


if __name__ == "__main__":
    sys.exit(main())
