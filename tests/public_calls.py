#!/usr/bin/env python3
"""Every public function of a crate that is not an inner one, and every function of a trait that it gives a type: it has a contract on what it
answers, or the impl the trait's law, as `ghost from_gives`; it asks nothing of its caller, and it takes no kernel from outside. Inner crates
(README.md) have functions that do; nothing exports them.

usage: tests/public_calls.py                the last line is 'N public functions, M faults'
       tests/public_calls.py --self-test    read some functions whose faults are known
"""

import pathlib
import re
import sys

sys.dont_write_bytecode = True
sys.path.insert(0, str(pathlib.Path(__file__).resolve().parent))
from believed import INNER, ROOT, crates

HEAD = re.compile(r'(?m)^ *pub (?:extern "C" )?fn (\w+)')
# an impl of a trait, to its end at the margin, and the functions in it, which are as public as the trait
IMPL = re.compile(r"(?ms)^(?:unsafe )?impl\b[^{]*? for .*?^}")
METHOD = re.compile(r"(?m)^ +fn (\w+)")
LAW = re.compile(r"ghost \w+ = \{[^\n]*")
KERNEL = re.compile(r":\s*(?:&(?:mut )?)?(?:'\w+ )?(?:kernel::)?(Kernel|KernelAnswer|Coefficients)\b")


def parts(text, head):
    """The parameters of a function, and its contract, to the line that opens its body."""
    start = text.index("(", head.end() - 1)
    depth, end = 0, start
    while True:
        depth += (text[end] == "(") - (text[end] == ")")
        end += 1
        if depth == 0:
            break
    # a function without clauses opens its body on the line that ends its head
    first = text[end:].partition("\n")[0]
    if "{" in first and not re.search(r"\b(requires|ensures)\b", first):
        return text[start:end], first
    body = re.compile(r"(?m)^ *\{\s*$").search(text, end)
    return text[start:end], text[end:body.start()]


def functions(text):
    """(name, parameters, contract) of each of them in a source text."""
    text = re.sub(r"//[^\n]*", "", text)
    for head in HEAD.finditer(text):
        yield head[1], *parts(text, head)
    for impl in IMPL.finditer(text):
        laws = " ensures ".join(["", *LAW.findall(impl[0])])
        for head in METHOD.finditer(impl[0]):
            parameters, contract = parts(impl[0], head)
            yield head[1], parameters, contract + laws


def faults_of(name, parameters, contract):
    """What is wrong with a function."""
    if "requires" in contract:
        yield f"{name} asks something of its caller"
    if "ensures" not in contract:
        yield f"{name} has no contract on what it answers"
    if KERNEL.search(parameters):
        yield f"{name} takes a kernel"


# Source texts, and what is wrong with them.
KNOWN = [
    ("pub fn answer(n: u64) -> u64\n    ensures { result ≡ n }\n{\n    n\n}\n", []),
    ("pub fn answer(n: u64) -> u64 {\n    n\n}\n\npub fn other(n: u64) -> u64\n    ensures { result ≡ n }\n{\n    n\n}\n", ["answer has no contract on what it answers"]),
    ('pub extern "C" fn answer(n: u64) -> u64\n    requires { n < 2 }\n    ensures { result ≡ n }\n{\n    n\n}\n', ["answer asks something of its caller"]),
    ("pub fn answer(k: Kernel)\n    ensures { true ≡ true }\n{\n}\n", ["answer takes a kernel"]),
    ("impl From<u32> for Choice {\n    ghost from_gives = { λ n c. c ≡ choice_of n };\n\n    fn from(n: u32) -> Choice {\n        Choice\n    }\n}\n", []),
    ("impl From<u32> for Choice {\n    ghost from_gives = { λ n c. c ≡ choice_of n };\n\n    fn from(n: u32) -> Choice\n        requires { n < 2 }\n    {\n        Choice\n    }\n}\n", ["from asks something of its caller"]),
    ("impl<'a> From<u32> for Choice<'a> {\n    fn from(n: u32) -> Choice {\n        Choice\n    }\n}\n", ["from has no contract on what it answers"]),
    ("impl From<Kernel> for Choice {\n    ghost from_gives = { λ k c. c ≡ choice_of k };\n\n    fn from(kernel: Kernel) -> Choice {\n        Choice\n    }\n}\n", ["from takes a kernel"]),
    ("pub fn answer(n: u64) -> u64 { n }\n\npub fn other(n: u64) -> u64\n    ensures { result ≡ n }\n{\n    n\n}\n", ["answer has no contract on what it answers"]),
    ("pub fn answer(n: u64) -> u64 ensures {\n        result ≡ n }\n    requires { n < 2 }\n{\n    n\n}\n", ["answer asks something of its caller"]),
    ("impl From<[u32; 4]> for Choice {\n    ghost from_gives = { λ n c. c ≡ choice_of n };\n\n    fn from(n: [u32; 4]) -> Choice\n        requires { n < 2 }\n    {\n        Choice\n    }\n}\n", ["from asks something of its caller"]),
    ("impl Choice {\n    fn inner(n: u32) -> u32\n        requires { n < 2 }\n    {\n        n\n    }\n}\n", []),
]


def self_test():
    for text, faults in KNOWN:
        found = [fault for function in functions(text) for fault in faults_of(*function)]
        assert found == faults, (text, found)
    print(f"public calls: {len(KNOWN)} texts are read as meant")
    return 0


def main():
    if sys.argv[1:] == ["--self-test"]:
        return self_test()
    count, faults = 0, []
    for crate in crates():
        folder = ROOT / "crates" / crate / "src"
        if crate in INNER or not (folder / "lib.rt").exists():
            continue
        for path in sorted(folder.rglob("*.rt")):
            for function in functions(path.read_text()):
                count += 1
                faults += [f"{crate}::{fault}" for fault in faults_of(*function)]
    for fault in faults:
        print(f"public calls: {fault}")
    print(f"{count} public functions, {len(faults)} faults")
    return 1 if faults or not count else 0


if __name__ == "__main__":
    sys.exit(main())
