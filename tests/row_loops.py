#!/usr/bin/env python3
"""The loops over a row in the object code: each kind of kernel has one, vectorised, with no more multiplications than its products.

usage: tests/row_loops.py LIBRARY      LIBRARY is the libcapi.a that build.sh writes
       tests/row_loops.py --self-test  read a few lines whose loops are known, and no library

The proved code has one loop over a row, in which every product stands. It is called once for each kind of kernel, with a constant 0 for
the products that the kind does not need, and the compiler draws it into each call and leaves them out. No proof says that it
does: where it stops doing so, pixels are the same and take twice as long. So this test reads what it did. A loop over lines makes four pixels
at a time: two multiplications (pmuludq) for each product and two for the division, and one load (movdqu) for each pixel of the three lines
that has a weight. One over pixels as they stand makes eight, with twice the multiplications and as many loads. By these two numbers the loops of
each kind are told apart, in every place that makes rows. Needs objdump.
"""
import collections
import re
import subprocess
import sys

# kind of kernel: (products, loads)
KINDS = {
    "full": (5, 9),
    "full_wide": (4, 9),
    "full_tall": (4, 9),
    "hollow": (4, 8),
    "falling": (4, 7),
    "rising": (4, 7),
    "upright": (4, 9),
    "upright_wide": (3, 9),
    "upright_tall": (3, 9),
    "round": (3, 9),
    "round_wide": (2, 9),
    "cross": (3, 5),
    "even_cross": (2, 5),
}
# where rows are made, and how many pixels at a time: small images, images that pass through three lines, and bands within one image
PLACES = {"stepping::step_all": 4, "stepping::step": 4, "in_place::Plan::make_band": 8}


def functions(text):
    """(name, [(address, instruction)]) of each function of a disassembly."""
    name, body = None, []
    for line in text.splitlines():
        if head := re.match(r"[0-9a-f]+ <(.*)>:$", line):
            if name is not None:
                yield name, body
            name, body = head.group(1), []
        elif code := re.match(r"\s*([0-9a-f]+):\t(.*)$", line):
            body.append((int(code.group(1), 16), code.group(2).strip()))
    if name is not None:
        yield name, body


def inner_loops(body):
    """The instructions of each loop that has no other inside: from where a jump leads back to, to that jump."""
    places = {address: index for index, (address, _) in enumerate(body)}
    loops = set()
    for index, (_, instruction) in enumerate(body):
        jump = re.match(r"j\w+\s+([0-9a-f]+)", instruction)
        target = places.get(int(jump.group(1), 16)) if jump else None
        if target is not None and target <= index:
            loops.add((target, index))
    for begin, end in sorted(loops):
        if not any(begin <= other[0] and other[1] <= end and other != (begin, end) for other in loops):
            yield [instruction for _, instruction in body[begin:end + 1]]


def is_row_loop(loop):
    """Whether a loop stores pixels that were divided: what no other vectorised loop of these functions does."""
    return any(re.match(r"mov(q|dqu)\s+%xmm\d+,.*\(", code) for code in loop) and any(code.startswith("packssdw") for code in loop)


def numbers_of(loop):
    """How many multiplications of vectors a loop has, and how many vectors it loads."""
    multiplications = sum(code.startswith("pmuludq") for code in loop)
    loads = sum(bool(re.match(r"movdqu\s+.*\(.*\),%xmm\d+", code)) for code in loop)
    return multiplications, loads


def right_loops(name):
    """The two numbers of each kind's loop in a place."""
    return {kind: (PLACES[name] // 2 * (products + 1), loads) for kind, (products, loads) in KINDS.items()}


def faults_of(text):
    """What is wrong with the loops over a row in a disassembly."""
    found = {name: collections.Counter() for name in PLACES}
    faults = []
    for name, body in functions(text):
        for loop in filter(is_row_loop, inner_loops(body)):
            if name in found:
                found[name][numbers_of(loop)] += 1
            else:
                faults.append(f"{name}: a loop over a row, which is made nowhere else")
    for name, loops in found.items():
        right = right_loops(name)
        wanted = collections.Counter(right.values())
        for kind in sorted((wanted - loops) + (loops - wanted)):
            is_there = f"{loops[kind]} loops of {kind[0]} multiplications and {kind[1]} loads"
            names = ", ".join(k for k, numbers in right.items() if numbers == kind)
            faults.append(f"{name}: {is_there}, and not {wanted[kind]} ({names or 'no kind of kernel'})")
    return faults


def disassembly(loops):
    """A text as objdump writes it, with a function for each place that has such loops; for the self-test."""
    lines = []
    for name, numbers in loops.items():
        lines.append(f"0000000000000000 <{name}>:")
        address = 0
        for multiplications, loads in numbers:
            begin = address
            codes = ["movdqu (%rdx,%rdi,4),%xmm1"] * loads + ["pmuludq %xmm0,%xmm1"] * multiplications
            codes += ["packssdw %xmm8,%xmm8", "movq   %xmm8,(%rbx,%r12,2)", f"jne    {begin:x} <{name}+0x{begin:x}>", "ret"]
            for code in codes:
                lines.append(f"  {address:x}:\t{code}")
                address += 4
    return "\n".join(lines)


def self_test():
    right = {name: list(right_loops(name).values()) for name in PLACES}
    assert faults_of(disassembly(right)) == []
    # one multiplication too many, a loop that is missing, one that is not vectorised, one elsewhere, and those of another place
    for name, loops in right.items():
        more = [(loops[0][0] + 1, 9)] + loops[1:]
        assert len(faults_of(disassembly({**right, name: more}))) == 2
        assert len(faults_of(disassembly({**right, name: loops[1:]}))) == 1
        assert len(faults_of(disassembly({**right, name: loops[:-1] + [(0, 0)]}))) == 2
        assert len(faults_of(disassembly({**right, name: []}))) == len(set(loops))
        assert len(faults_of(disassembly({**right, "elsewhere": loops}))) == len(loops)
    assert faults_of(disassembly({**right, "in_place::Plan::make_band": right["stepping::step"]})) != []
    print("the loops of some lines are told as meant")


def main():
    if sys.argv[1:] == ["--self-test"]:
        return self_test()
    if len(sys.argv) != 2:
        sys.exit(__doc__)
    text = subprocess.run(["objdump", "-d", "--no-show-raw-insn", sys.argv[1]], capture_output=True, text=True, check=True).stdout
    faults = faults_of(text)
    for fault in faults:
        print(fault)
    print(f"{len(KINDS)} kinds of kernel in {len(PLACES)} places, {len(faults)} faults")
    sys.exit(1 if faults else 0)


main()
