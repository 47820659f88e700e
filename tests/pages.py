#!/usr/bin/env python3
"""Runs the blocks of the pages as a reader pastes them, compares what they print, and reads all pages for what would mislead.

usage: tests/pages.py [--bin FOLDER].. [--page FILE].. [--no-run]
       tests/pages.py --self-test

A fenced block 'sh' (or 'bash', for what sh cannot do) holds commands; a block 'text' right after it what they print, standard error
included. The blocks of a page run in order, those of docs/REFERENCE.md, docs/TOOL.md and docs/COURSE.md in an empty folder, the others from
the repository's root; a folder that a block goes to and a variable that it exports hold for those after it. The programs are those of
--bin (target/dist/bin where none is named). With a block 'text' what is printed counts, and the exit status only as far as it is printed.
Without one each command has to succeed and print nothing. Two marks stand in the line before a block:

    <!-- not run by the gate: REASON -->    the block is skipped, and listed with its reason
    <!-- output not shown: REASON -->       what it prints does not count; each command has to succeed

What is read: each fenced block of these pages says what it holds; relative links of all pages lead to files and headings that are there;
and no text cites what is not in the repository, unless the page leads to the place that says what it was.

The last line is 'N blocks run, M not run, F faults'; the exit status is 1 where there are faults, 2 where nothing can be run."""

import argparse
import dataclasses
import difflib
import os
import pathlib
import re
import signal
import subprocess
import sys
import tempfile

ROOT = pathlib.Path(__file__).resolve().parents[1]
IN_A_FOLDER = ["docs/REFERENCE.md", "docs/TOOL.md", "docs/COURSE.md"]
FROM_THE_ROOT = ["README.md", "docs/CONTRIBUTING.md"]
PROGRAMS = ["vokhsaot", "bench"]
SHELLS = ["sh", "bash"]
# Whoever waits longer has typed something else. The slowest block builds the project.
MOST_SECONDS = 1800

SKIPPED = re.compile(r"<!-- not run by the gate: (\S.*) -->")
NOT_SHOWN = re.compile(r"<!-- output not shown: (\S.*) -->")
MARK = re.compile(r"<!-- *(not run|output not)", re.IGNORECASE)

# Papers that are not in the repository. (Brackets, so that this line does not cite them.)
ABSENT = re.compile(r"\b[Dd]ocuments? (?:0|9)\d|\bPROMISE[S]\.md|\bREVIE[W]\.md|\.\./share[d]\b")
SAID_WHERE = "REFERENCE.md#sources"
SOURCES = ["crates", "rust", "reference", "tool", "c", "benchmarks", "tests", ".ci"]


@dataclasses.dataclass
class Block:
    """A fenced block: what its first line says it holds, where that stands, its lines, and the line before it."""

    language: str
    line: int
    text: str
    before: str
    # What the block right after it shows, of a block of commands.
    printed: str | None = None

    @property
    def reason(self) -> str | None:
        """Why the gate does not run it."""
        found = SKIPPED.fullmatch(self.before)
        return found and found[1]


@dataclasses.dataclass
class Report:
    faults: list[str] = dataclasses.field(default_factory=list)
    skipped: list[str] = dataclasses.field(default_factory=list)
    run: int = 0

    def fault(self, page: str, line: int, what: str) -> None:
        self.faults.append(f"{page}:{line}: {what}")


def fenced(text: str) -> list[Block]:
    """All fenced blocks, each with what is printed by it."""
    blocks: list[Block] = []
    lines = text.splitlines()
    number, last = 0, None
    while number < len(lines):
        opening = re.fullmatch(r"(`{3,})\s*([^`]*?)\s*", lines[number])
        if opening is None:
            # only blank lines may part commands from what they print
            last = last if not lines[number].strip() else None
            number += 1
            continue
        start, number = number, number + 1
        while number < len(lines) and lines[number].rstrip() != opening[1]:
            number += 1
        held = "".join(line + "\n" for line in lines[start + 1 : number])
        block = Block(opening[2], start + 1, held, lines[start - 1].strip() if start else "")
        if block.language == "text" and last is not None and last.language in SHELLS and last.printed is None:
            last.printed = held
        blocks.append(block)
        last, number = block, number + 1
    return blocks


# -- running

# $1 is a folder with the folder and the variables that earlier blocks left, $2 the block, $3 whether each command has to succeed.
AROUND = """
exec 2>&1 < /dev/null
. "$1/variables"
cd "$(cat "$1/folder")"
[ "$3" = succeed ] && set -e
. "$2"
status=$?
set +e
[ -z "$BASH_VERSION" ] || set -o posix
export -p > "$1/variables"
pwd > "$1/folder"
exit $status
"""


def environment(programs: list[pathlib.Path], home: pathlib.Path) -> dict[str, str]:
    """Of the caller's variables those that do not say where things are, with an empty home. Rust's programs are found by theirs."""
    found = {name: value for name, value in os.environ.items() if not name.startswith("VOKHSAOT_")}
    for name, folder in [("CARGO_HOME", ".cargo"), ("RUSTUP_HOME", ".rustup")]:
        found.setdefault(name, str(pathlib.Path.home() / folder))
    folders = [str(folder.resolve()) for folder in programs]
    found["PATH"] = os.pathsep.join(folders + [found.get("PATH", os.defpath)])
    found["HOME"] = str(home)
    found["LC_ALL"] = "C.UTF-8"
    return found


def printed_by(block: Block, state: pathlib.Path, variables: dict[str, str], seconds: int) -> tuple[str, int | None]:
    """What a block prints, and its exit status; none where it does not end."""
    script = state / "block"
    script.write_text(block.text)
    mode = "succeed" if block.printed is None else "as it may"
    command = [block.language, "-c", AROUND, block.language, str(state), str(script), mode]
    with subprocess.Popen(command, stdout=subprocess.PIPE, env=variables, cwd=state, start_new_session=True) as process:
        try:
            output, _ = process.communicate(timeout=seconds)
            status = process.returncode
        except subprocess.TimeoutExpired:
            os.killpg(process.pid, signal.SIGKILL)
            output, status = process.communicate()[0], None
    text = output.decode(errors="replace")
    # A fenced block cannot show whether the last line has an end.
    return (text if not text or text.endswith("\n") else text + "\n"), status


def difference(shown: str, printed: str) -> str:
    lines = difflib.unified_diff(shown.splitlines(), printed.splitlines(), "shown", "printed", lineterm="", n=1)
    return "\n".join("    " + line for line in lines)


def indented(text: str) -> str:
    return "".join(f"\n    {line}" for line in text.splitlines())


def judged(block: Block, printed: str, status: int | None, seconds: int) -> str | None:
    """What is wrong with what a block did."""
    if status is None:
        return f"it has not ended after {seconds} seconds"
    if block.printed is not None:
        same = printed == block.printed
        return None if same else "it prints something else\n" + difference(block.printed, printed)
    if status != 0:
        return f"a command fails with exit status {status}" + indented(printed)
    if printed and not NOT_SHOWN.fullmatch(block.before):
        return "it prints what no block 'text' right after it shows" + indented(printed)
    return None


def run_page(page: str, text: str, start: pathlib.Path | None, programs: list[pathlib.Path], report: Report, seconds: int) -> None:
    """Runs the blocks of a page, from a folder or in an empty one of its own."""
    with tempfile.TemporaryDirectory(prefix="pages-") as temporary:
        state, home, empty = (pathlib.Path(temporary) / name for name in ("state", "home", "work"))
        for folder in (state, home, empty):
            folder.mkdir()
        (state / "variables").write_text("")
        (state / "folder").write_text(f"{start or empty}\n")
        variables = environment(programs, home)
        for block in fenced(text):
            if block.language not in SHELLS:
                continue
            if block.reason:
                report.skipped.append(f"{page}:{block.line}: {block.reason}")
                continue
            report.run += 1
            fault = judged(block, *printed_by(block, state, variables, seconds), seconds)
            if fault is not None:
                report.fault(page, block.line, fault)


# -- reading


def check_blocks(page: str, text: str, report: Report) -> None:
    """Each block says what it holds, and each mark belongs to a block of commands."""
    blocks = fenced(text)
    marked = set()
    for block in blocks:
        if not block.language:
            report.fault(page, block.line, "this block does not say what it holds (sh, text, or another language)")
        if block.language in SHELLS:
            marked.add(block.line - 1)
            for line in block.text.splitlines():
                if line.startswith(("$ ", "> ")):
                    report.fault(page, block.line, f"a command that cannot be pasted: {line}")
    for number, line in enumerate(text.splitlines(), 1):
        if not MARK.match(line.strip()):
            continue
        if number not in marked or not (SKIPPED.fullmatch(line.strip()) or NOT_SHOWN.fullmatch(line.strip())):
            report.fault(page, number, "a mark that is not in the line before a block of commands, or has no reason")


def without_code(text: str) -> str:
    """A page's text alone; lines keep their numbers."""
    blank = lambda found: re.sub(r"[^\n]", " ", found[0])
    text = re.sub(r"(?ms)^(`{3,})[^`\n]*\n.*?^\1\s*$", blank, text)
    return re.sub(r"(`+)(?!`).+?(?<!`)\1(?!`)", blank, text)


def anchors(text: str) -> set[str]:
    """The names by which the headings of a page are reached."""
    found: dict[str, int] = {}
    names = set(re.findall(r"""<a (?:id|name)=["']([^"']+)["']""", text))
    outside = without_code(text).splitlines()
    for line, shown in zip(text.splitlines(), outside):
        if not re.match(r"#{1,6} ", shown):
            continue
        title = re.sub(r"\[([^\]]*)\]\([^)]*\)", r"\1", line.lstrip("#").strip().rstrip("#").strip())
        name = re.sub(r"[^\w\- ]", "", title.lower()).replace(" ", "-")
        times = found.get(name, 0)
        found[name] = times + 1
        names.add(f"{name}-{times}" if times else name)
    return names


LINK = re.compile(r"""\]\(\s*<?([^)\s>]+)>?(?:\s+["'][^)]*["'])?\s*\)|^\[[^\]]+\]:\s+(\S+)""", re.MULTILINE)


def check_links(page: str, text: str, root: pathlib.Path, report: Report) -> None:
    plain = without_code(text)
    for found in LINK.finditer(plain):
        target = found[1] or found[2]
        line = plain.count("\n", 0, found.start()) + 1
        if re.match(r"[a-z][a-z0-9+.-]*:", target):
            continue
        name, _, anchor = target.partition("#")
        place = (root / page).parent / name if name else root / page
        if not place.exists():
            report.fault(page, line, f"the link {target} leads to no file")
        elif anchor and anchor not in (anchors(place.read_text()) if place.is_file() else set()):
            report.fault(page, line, f"the link {target} leads to no heading")


def check_citations(name: str, text: str, is_page: bool, report: Report) -> None:
    """A page may cite absent papers where it leads to what says what they were, or is that page itself."""
    if is_page and (SAID_WHERE in text or (name.endswith("/REFERENCE.md") and "sources" in anchors(text))):
        return
    for number, line in enumerate(text.splitlines(), 1):
        if found := ABSENT.search(line):
            report.fault(name, number, f'"{found[0]}" is not in the repository')


def pages_of(root: pathlib.Path) -> list[str]:
    found = [*root.glob("*.md"), *root.glob("docs/**/*.md")]
    return sorted(str(path.relative_to(root)) for path in found)


def sources_of(root: pathlib.Path) -> list[str]:
    """All files of the sources' folders, and those of the root that are no pages."""
    found = [path for path in root.iterdir() if path.is_file() and path.suffix != ".md"]
    for folder in SOURCES:
        found += [path for path in (root / folder).rglob("*") if path.is_file()]
    names = [path.relative_to(root) for path in found]
    return sorted(str(name) for name in names if not {"target", "__pycache__", "out"} & set(name.parts))


def check_texts(root: pathlib.Path, report: Report, only: list[str]) -> None:
    for page in only or pages_of(root):
        text = (root / page).read_text()
        check_links(page, text, root, report)
        check_citations(page, text, True, report)
    for source in [] if only else sources_of(root):
        try:
            check_citations(source, (root / source).read_text(), False, report)
        except UnicodeDecodeError:
            pass  # a picture


def run_all(root: pathlib.Path, programs: list[pathlib.Path], only: list[str], runs: bool, seconds: int = MOST_SECONDS) -> Report:
    report = Report()
    check_texts(root, report, only)
    for page in only or IN_A_FOLDER + FROM_THE_ROOT:
        if not (root / page).is_file():
            report.fault(page, 1, "there is no such page")
            continue
        text = (root / page).read_text()
        check_blocks(page, text, report)
        if runs:
            run_page(page, text, root if page in FROM_THE_ROOT else None, programs, report, seconds)
    return report


def told(report: Report) -> int:
    for line in report.faults:
        print(line)
    for line in report.skipped:
        print(f"not run: {line}")
    print(f"{report.run} blocks run, {len(report.skipped)} not run, {len(report.faults)} faults")
    return 1 if report.faults else 0


# -- the test of this program itself


def block(language: str, text: str) -> str:
    return f"```{language}\n{text}\n```\n"


# Blocks of a page, and what is wrong with it: the line and a part of what is said; nothing where it is good.
BLOCKS = [
    ("what is printed is what is shown", block("sh", "echo one; echo two >&2") + "\n" + block("text", "one\ntwo"), None),
    ("another word is printed", block("sh", "echo one") + block("text", "two"), (1, "-two\n    +one")),
    ("a line too many is shown", block("sh", "echo one") + block("text", "one\none"), (1, "-one")),
    ("a line too many is printed", block("sh", "echo one; echo one") + block("text", "one"), (1, "+one")),
    ("blanks count", block("sh", "echo 'one '") + block("text", "one"), (1, "+one ")),
    ("the last line's end does not", block("sh", "printf one") + block("text", "one"), None),
    ("a status that is printed", block("sh", "false; echo $?") + block("text", "1"), None),
    ("a failing command whose words are shown", block("sh", "echo no; false") + block("text", "no"), None),
    ("a failing command", block("sh", "false"), (1, "exit status 1")),
    ("a failing command before others", block("sh", "false\ntrue"), (1, "exit status 1")),
    ("a command that is not there", block("sh", "no-such-command 2> /dev/null"), (1, "exit status 127")),
    ("commands that no shell reads", block("sh", "if true"), (1, "a command fails")),
    ("what is printed is not shown", block("sh", "echo one"), (1, "no block 'text'")),
    ("what is printed stands too far away", block("sh", "echo one") + "\nIt prints:\n\n" + block("text", "one"), (1, "no block 'text'")),
    ("a text of something else", block("text", "a table") + "\n" + block("sh", "true"), None),
    ("two blocks show what is printed", block("sh", "echo one") + block("text", "one") + block("text", "two"), None),
    ("what is printed varies", "<!-- output not shown: it has the time -->\n" + block("sh", "date"), None),
    ("it varies, and fails", "<!-- output not shown: it has the time -->\n" + block("sh", "date; false"), (2, "exit status 1")),
    ("a block that is not run", "<!-- not run by the gate: takes hours -->\n" + block("sh", "sleep 9999"), None),
    ("a block that is not run, with no reason", "<!-- not run by the gate: -->\n" + block("sh", "true"), (1, "a mark that")),
    ("a mark far from its block", "<!-- not run by the gate: takes hours -->\n\n" + block("sh", "true"), (1, "a mark that")),
    ("a mark misspelt", "<!-- not run by gate: takes hours -->\n" + block("sh", "true"), (1, "a mark that")),
    ("a block that does not end", block("sh", "sleep 60"), (1, "has not ended")),
    ("a block that waits for its reader", block("sh", "cat"), None),
    ("a block that says nothing of itself", block("", "true"), (1, "does not say what it holds")),
    ("a block in another language", block("c", "int main(void) { return 1; }"), None),
    ("a prompt before what is typed on", block("sh", "> true"), (1, "cannot be pasted")),
    ("a here document", block("sh", "cat > list <<'END'\none\n$HOME\nEND\ncat list") + block("text", "one\n$HOME"), None),
    ("files of earlier blocks", block("sh", "echo one > file") + block("sh", "cat file") + block("text", "one"), None),
    ("a folder of an earlier block", block("sh", "mkdir a b; cd a") + block("sh", "ls; ls ..") + block("text", "a\nb"), None),
    ("a variable of an earlier block", block("sh", "export A='x y'") + block("sh", 'echo "$A"') + block("text", "x y"), None),
    ("the same between shells", block("bash", "export A='x $y'") + block("sh", 'echo "$A"') + block("text", "x $y"), None),
    ("what only bash can do", block("bash", "a=(1 2); echo ${#a[@]}") + block("text", "2"), None),
    ("what only bash can do, in sh", block("sh", "a=(1 2); echo ${#a[@]}") + block("text", "2"), (1, "something else")),
    ("an empty folder and home", block("sh", 'ls -A . "$HOME" | grep -v :') + block("text", ""), None),
    ("the programs come first", block("sh", "bench") + block("text", "made up"), None),
    ("longer fences", "````text\n```sh\nfalse\n```\n````\n", None),
]

LINKS = [
    ("a file and a heading", "# One\n[a](other.md), [b](other.md#two-words), [c](#one), ![d](folder/p.png)\n", None),
    ("a heading with marks", "## 1. What's `x`, *here*?\n## Same\n## Same\n[a](#1-whats-x-here) [b](#same-1)\n", None),
    ("no file", "text\n[a](none.md)\n", (2, "leads to no file")),
    ("no heading", "[a](other.md#three)\n", (1, "leads to no heading")),
    ("no heading of its own", "# One\n[a](#two)\n", (2, "leads to no heading")),
    ("no picture", "![a](none.png)\n", (1, "leads to no file")),
    ("a link given below", "[a][1]\n\n[1]: none.md\n", (3, "leads to no file")),
    ("code is no link", "`[a](none.md)`\n\n" + block("c", "a[1](none)"), None),
    ("a heading in a block is none", block("sh", "# two words") + "[a](#two-words)\n", (4, "leads to no heading")),
    ("links to elsewhere", "[a](https://example.org/none) [b](mailto:a@b)\n", None),
    ("an absent paper", "text\nas document " + "01 says\n", (2, "is not in the repository")),
    ("absent papers", "of Documents " + "01 and 02\n", (1, "is not in the repository")),
    ("an absent page", "see REVIEW" + ".md\n", (1, "is not in the repository")),
    ("an absent paper, with what it was", "as document " + "01 says ([sources](REFERENCE.md#sources))\n", None),
    ("another document", "document 1 and a document of 01\n", None),
]


def expected(name: str, report: Report, page: str, fault: tuple[int, str] | None) -> bool:
    """Whether a report has the one fault that was made, or none."""
    if fault is None:
        fine = not report.faults
    else:
        fine = len(report.faults) == 1 and report.faults[0].startswith(f"{page}:{fault[0]}: ") and fault[1] in report.faults[0]
    if not fine:
        print(f"{name}: {fault or 'no fault'} was expected, and this was found: {report.faults}")
    return fine


def self_test() -> int:
    good = True
    with tempfile.TemporaryDirectory() as temporary:
        root = pathlib.Path(temporary)
        (root / "bin").mkdir()
        (root / "bin" / "bench").write_text("#!/bin/sh\necho made up\n")
        (root / "bin" / "bench").chmod(0o755)
        (root / "docs" / "folder").mkdir(parents=True)
        (root / "docs" / "folder" / "p.png").write_bytes(b"\x89PNG\xff")
        (root / "docs" / "other.md").write_text("# Two words\n")
        (root / "docs" / "REFERENCE.md").write_text("# Sources\nAs document " + "01 says.\n")
        page = root / "docs" / "COURSE.md"
        for name, text, fault in BLOCKS + LINKS:
            page.write_text(text)
            report = run_all(root, [root / "bin"], ["docs/COURSE.md"], True, seconds=3)
            good &= expected(name, report, "docs/COURSE.md", fault)
        page.write_text("<!-- not run by the gate: takes hours -->\n" + block("sh", "false") + block("sh", "true"))
        report = run_all(root, [], ["docs/COURSE.md"], True)
        good &= (report.run, report.skipped) == (1, ["docs/COURSE.md:2: takes hours"])
        # A page of the root runs there.
        (root / "README.md").write_text(block("sh", "ls") + block("text", "README.md\nbin\ndocs"))
        good &= expected("from the root", run_all(root, [], ["README.md"], True), "README.md", None)
        # Sources cite nothing, whatever they lead to; pictures are passed over; a page that is missing is a fault.
        page.unlink()
        (root / "tool").mkdir()
        (root / "tool" / "p.png").write_bytes(b"\x89PNG\xff")
        (root / "tool" / "main.rs").write_text("// REFERENCE.md#sources\n// of document " + "01\n")
        report = run_all(root, [], [], False)
        wanted = ["tool/main.rs:2: ", "docs/TOOL.md:1: ", "docs/COURSE.md:1: ", "docs/CONTRIBUTING.md:1: "]
        good &= len(report.faults) == len(wanted) and all(map(str.startswith, report.faults, wanted))
    print("each kind of fault is found" if good else "FAILED")
    return 0 if good else 1


def main() -> int:
    parser = argparse.ArgumentParser(description=__doc__.split("\n")[0], epilog="The head of this file says more.")
    parser.add_argument("--bin", action="append", type=pathlib.Path, default=[], metavar="FOLDER", help="where the programs are")
    parser.add_argument("--page", action="append", default=[], metavar="FILE", help="this page alone, from the repository's root")
    parser.add_argument("--no-run", action="store_true", help="only read the pages")
    parser.add_argument("--self-test", action="store_true", help="show on made-up pages that each kind of fault is found")
    options = parser.parse_args()
    if options.self_test:
        return self_test()
    programs = options.bin or [ROOT / "target" / "dist" / "bin"]
    for program in [] if options.no_run else PROGRAMS:
        if not any(os.access(folder / program, os.X_OK) for folder in programs):
            print(f"there is no {program} in {', '.join(map(str, programs))}: ./build.sh makes it, --bin names another folder")
            return 2
    only = [str((pathlib.Path.cwd() / page).resolve().relative_to(ROOT)) for page in options.page]
    return told(run_all(ROOT, programs, only, not options.no_run))


if __name__ == "__main__":
    sys.exit(main())
