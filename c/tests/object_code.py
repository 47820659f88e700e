#!/usr/bin/env python3
"""What the header says of the library and no proof does, read in the object code of libcapi.a:

- it needs memcpy and memset of the C library, and nothing else;
- it has no variables: no section that can be written;
- it is position-independent, so that the shared library is made of the same object;
- no function calls itself, directly or through others; and each call takes the stack that the header's table says, which its own
  frame and those of all that it calls come to, the red zone included. With that and no variables, this is all the memory that a call
  has beside what it is lent: of a run within one picture two lines of 1024 pixels, and 1,024 bytes more in all functions on the way;
  nor does such a run clear an array that is larger than the two lines;
- no call was seen to take more as it ran, nor less by more than a few bytes, which would say that the table is far too high: of
  MEASURED, what stack.c prints.

usage: object_code.py LIBRARY MEASURED   compares
       object_code.py LIBRARY --write    puts the table into the header
       object_code.py --self-test

Needs binutils, and gcc for the self-test. Exit status: 0 all is so, 1 something is not.
"""
import pathlib
import re
import subprocess
import sys
import tempfile
import textwrap

HEADER = pathlib.Path(__file__).resolve().parents[1] / "include" / "vokhsaot.h"

NEEDED = {"memcpy", "memset"}
# In bytes: what a call pushes, what a function that calls nothing may use below its frame, and a page: a larger frame is taken in a loop.
RETURN_ADDRESS, RED_ZONE, PAGE = 8, 128, 4096
INDEPENDENT = {"R_X86_64_PC32", "R_X86_64_PLT32"}
# The two saved lines of a run within one picture, 1024 pixels of two bytes each.
IN_PLACE, LINES = "vokhsaot_run_in_place_", 2 * 2048
# A run within one picture, in bytes: the lines, and what is not as large as a row.
IN_PLACE_MOST = LINES + 1024
# By how much a call may be seen to take less than is read: frames are counted whole, arguments that some calls put there included.
UNSEEN = 64


def printed(*command):
    return subprocess.run(command, check=True, capture_output=True, text=True).stdout


def symbols_not_allowed(library):
    undefined = set(re.findall(r"^\s+U (\S+)$", printed("nm", library), re.M))
    return [f"it needs {name}" for name in sorted(undefined - NEEDED)]


def sections_not_allowed(library):
    line = r"^\s*\[ *\d+\] (\S+) +\S+ +[0-9a-f]+ [0-9a-f]+ ([0-9a-f]+) +\S+ +\w*W\w* "
    found = re.findall(line, printed("readelf", "-SW", library), re.M)
    return [f"section {name} can be written" for name, size in found if int(size, 16)]


def relocations_not_allowed(library):
    kinds = set(re.findall(r"\b(R_X86_64_\w+)", printed("readelf", "-rW", library)))
    return [f"a relocation {kind} is not position-independent" for kind in sorted(kinds - INDEPENDENT)]


class Function:
    """One function's own stack, its return address included, what it uses below that without taking it, which one that calls nothing may
    (the red zone), what it calls, and how many bytes it has memset clear."""

    def __init__(self):
        self.bytes = RETURN_ADDRESS
        self.red_zone = 0
        self.calls = set()
        self.cleared = []
        self.third_argument = None
        self.not_understood = []
        self.in_parts = False

    def read(self, line):
        instruction = line.split("\t")[1] if line.count("\t") else ""
        self.read_third_argument(instruction)
        self.read_red_zone(instruction)
        called = re.search(r"R_X86_64_PLT32\s+(?:\.text\.)?(\S+?)[+-]0x[0-9a-f]+$", line)
        # one of the same section has no relocation; where there is one, the line before it names a place inside the caller
        called = called or re.match(r"call +[0-9a-f]+ <([^+>]+)>$", instruction)
        if called:
            self.calls.add(called[1])
            if called[1] == "memset":
                self.cleared.append(self.third_argument)
            self.third_argument = None
        elif instruction.startswith("push "):
            self.bytes += 8
        elif grown := re.match(r"sub +\$0x([0-9a-f]+),%rsp$", instruction):
            self.bytes += 0 if self.in_parts else int(grown[1], 16)
            self.in_parts = False
        elif grown := re.match(r"add +\$0x(f{8}[0-9a-f]{8}),%rsp$", instruction):
            self.bytes += 2**64 - int(grown[1], 16)
        elif grown := self.pages(instruction):
            self.bytes += grown
            self.in_parts = True
        elif re.match(r"call +\*", instruction):
            self.not_understood.append(instruction)
        elif re.search(r"(,|^pop +)%rsp$", instruction):
            # giving stack back, and the end of the loop above, take none
            if not re.match(r"(add +\$0x[0-9a-f]{1,7}|cmp +%r11),%rsp$", instruction):
                self.not_understood.append(instruction)

    def pages(self, instruction):
        """A large frame is taken in parts, in a loop until the stack pointer has come down to r11: the loop's own step is not counted."""
        grown = re.match(r"(?:sub +\$|lea +-)0x([0-9a-f]+)(?:\(%rsp\))?,%r11$", instruction)
        return int(grown[1], 16) if grown and int(grown[1], 16) > PAGE else 0

    def read_red_zone(self, instruction):
        for below in re.findall(r"-0x([0-9a-f]+)\(%rsp", instruction):
            if int(below, 16) <= RED_ZONE:
                self.red_zone = max(self.red_zone, int(below, 16))
            elif not self.pages(instruction):
                self.not_understood.append(instruction)

    def read_third_argument(self, instruction):
        """The constant that rdx holds, by the instructions in the order of their places; None where it is not one."""
        if constant := re.match(r"mov +\$0x([0-9a-f]+),%[er]dx$", instruction):
            self.third_argument = int(constant[1], 16)
        elif re.search(r"(,|^pop +)%[er]?d[xl]$", instruction) and not re.match(r"(cmp|test)", instruction):
            self.third_argument = None
        elif re.match(r"(jmp|ret|cqto|cltd)\b|i?(mul|div)[lq]? +[^,]*$", instruction):
            self.third_argument = None


def functions_of(library):
    functions, function = {}, None
    for line in printed("objdump", "-dr", "--no-show-raw-insn", library).splitlines():
        begun = re.match(r"[0-9a-f]+ <(.+)>:$", line)
        if begun:
            function = functions.setdefault(begun[1], Function())
        elif function:
            function.read(line.rstrip())
    return functions


def deepest(functions, name, above=()):
    """The most bytes of stack that a call of this function takes, with all that it calls; of memcpy and memset the return address."""
    if name in above:
        raise ValueError(f"{name} calls itself")
    if name not in functions:
        return RETURN_ADDRESS
    below = [deepest(functions, other, above + (name,)) for other in functions[name].calls]
    return functions[name].bytes + max(below + [functions[name].red_zone])


def reached(functions, name):
    """This function and all that it calls, and so on."""
    found, left = set(), [name]
    while left:
        name = left.pop()
        if name in functions and name not in found:
            found.add(name)
            left.extend(functions[name].calls)
    return found


def exported_of(functions):
    return [name for name in functions if name.startswith("vokhsaot_")]


def stacks_of(functions):
    """The stack that each exported call takes, and what is wrong with it."""
    taken, wrong = {}, [f"{name}: not understood: {text}" for name, f in functions.items() for text in f.not_understood]
    for name in exported_of(functions):
        try:
            taken[name] = deepest(functions, name)
        except ValueError as error:
            wrong.append(str(error))
    return taken, wrong


# The header's table: the bytes, and the calls that take so many, which may go on in further lines.
ROW = re.compile(r"^ \*  +(\d+)  (vokhsaot_\w+(?:,\s+(?:\* +)?vokhsaot_\w+)*)\n", re.M)
WIDTH = 127


def stated_in(header):
    return {name: int(row[1]) for row in ROW.finditer(header) for name in re.findall(r"vokhsaot_\w+", row[2])}


def table_of(taken):
    """The table's text, the most first."""
    lines = []
    for bytes in sorted(set(taken.values()), reverse=True):
        names = ", ".join(sorted(name for name in taken if taken[name] == bytes))
        lines += textwrap.wrap(names, WIDTH, initial_indent=f" *  {bytes:>6}  ", subsequent_indent=" *" + " " * 10)
    return "\n".join(lines) + "\n"


def with_table(header, taken):
    rows = list(ROW.finditer(header))
    return header[:rows[0].start()] + table_of(taken) + header[rows[-1].end():]


def stacks_not_allowed(library, header):
    taken, wrong = stacks_of(functions_of(library))
    stated = stated_in(header)
    wrong += [f"the header has a stack of {name}, which is not exported" for name in stated if name not in taken]
    for name, bytes in taken.items():
        if stated.get(name) != bytes:
            wrong.append(f"{name} takes {bytes} bytes of stack, the header says {stated.get(name)}")
        if name.startswith(IN_PLACE) and bytes > IN_PLACE_MOST:
            wrong.append(f"{name} takes {bytes} bytes of stack, more than {IN_PLACE_MOST}")
    if not any(name.startswith(IN_PLACE) for name in taken):
        # one that is spelled otherwise would have no limit
        wrong.append(f"it exports no call {IN_PLACE}..")
    return wrong


def measured_not_allowed(library, measured):
    """What is wrong with the bytes that calls were seen to take, lines of a name and a number."""
    taken, _ = stacks_of(functions_of(library))
    seen = {name: int(bytes) for name, bytes in (line.split() for line in measured.splitlines())}
    wrong = [f"{name} was not measured" for name in taken if name not in seen]
    wrong += [f"{name} was measured and is not exported" for name in seen if name not in taken]
    for name in set(seen) & set(taken):
        if not taken[name] - UNSEEN <= seen[name] <= taken[name]:
            wrong.append(f"{name} took {seen[name]} bytes of stack as it ran, and {taken[name]} are read")
    return wrong


def arrays_not_allowed(library):
    functions, wrong = functions_of(library), []
    for name in exported_of(functions):
        if name.startswith(IN_PLACE):
            sizes = [size for other in sorted(reached(functions, name)) for size in functions[other].cleared]
            wrong += [f"{name} clears {size} bytes, more than {LINES}" for size in sizes if size is not None and size > LINES]
            wrong += [f"{name} clears a number of bytes that is not a constant" for size in sizes if size is None]
    return wrong


def all_wrong(library, header):
    checks = (symbols_not_allowed, sections_not_allowed, relocations_not_allowed, arrays_not_allowed)
    return [text for check in checks for text in check(library)] + stacks_not_allowed(library, header)


# Code that is wrong in one way each, by what must be said of it, beside a table that has vokhsaot_a with a frame of nothing.
DECLARED = "void memset(void *, int, long);"
WRONG = {
    "it needs puts": 'int puts(const char *); int vokhsaot_a(void) { return puts("a"); }',
    "can be written": "static int calls; int vokhsaot_a(void) { return ++calls; }",
    "not position-independent": "extern int memcpy; int *vokhsaot_a(void) { return &memcpy; }",
    "of stack, the header says 8": "void vokhsaot_a(void) { char a[16]; memset(a, 0, 16); }",
    "vokhsaot_b takes 8 bytes of stack, the header says None": "int vokhsaot_b(int n) { return n; }",
    "a stack of vokhsaot_a, which is not exported": "int vokhsaot_c(int n) { return n; }",
    # three lines in place of two; and two, with too much in a function on the way
    "of stack, more than 5120": "void vokhsaot_run_in_place_round_by(void) { short a[3][1024]; memset(a, 0, 4096); memset(a[2], 0, 2048); }",
    "vokhsaot_run_in_place_oval_by takes": """
        static __attribute__((noinline)) void inner(short *line) { char a[900]; memset(a, 0, 900); memset(line, a[0], 2048); }
        void vokhsaot_run_in_place_oval_by(void) { short a[2][1024], b[64]; memset(b, 0, 128); inner(a[0]); inner(a[b[7]]); }""",
    # a picture of its own that is nobody's stack
    "clears 8192 bytes, more than 4096": """
        static __attribute__((noinline)) void inner(short *lent) { memset(lent, 0, 8192); }
        void vokhsaot_run_in_place_matrix_by(short *lent) { inner(lent); inner(lent + 1); }""",
    "is not a constant": "void vokhsaot_run_in_place_matrix_by(short *lent, long n) { memset(lent, 0, 2 * n); memset(lent, 1, 5); }",
    "not understood": "void vokhsaot_a(long n) { char a[n]; memset(a, 0, n); }",
    "not understood: mov    %eax,-0x88(%rsp)": 'asm(".globl vokhsaot_a\\nvokhsaot_a: mov %eax,-0x88(%rsp); ret\\n");',
    "vokhsaot_a calls itself": "int vokhsaot_a(int n) { char a[9]; memset(a, 0, 9); return n ? vokhsaot_a(n - 1) + a[n] : 0; }",
    "inner calls itself": """
        static __attribute__((noinline)) int inner(int n) { char a[9]; memset(a, 0, 9); return n ? inner(n - 1) + a[n] : 0; }
        int vokhsaot_a(int n) { return inner(n); }""",
    "turn calls itself": """
        int turn(int); static __attribute__((noinline)) int inner(int n) { char a[9]; memset(a, 0, 9); return turn(n - 1) + a[n]; }
        int turn(int n) { char a[9]; memset(a, 0, 9); return n ? inner(n) + a[n] : 0; }
        int vokhsaot_a(int n) { return turn(n); }""",
    "it exports no call vokhsaot_run_in_place_": "int vokhsaot_run_within(int n) { return n; }",
}
# Code whose stack is counted by hand: a return address has 8 bytes, as has what is pushed.
RIGHT = """
    asm(".globl vokhsaot_run_in_place_a, vokhsaot_large, vokhsaot_last, vokhsaot_a\\n"
        "vokhsaot_run_in_place_a: push %rbx; push %r12; sub $0x20,%rsp; call inner; add $0x20,%rsp; mov $0x10,%edx; call memset; pop %r12; pop %rbx; ret\\n"
        "inner: mov %eax,-0x8(%rsp); mov %eax,-0x48(%rsp,%rcx,4); mov -0x10(%rsp),%eax; ret\\n"
        "vokhsaot_large: lea -0x8000(%rsp),%r11; 1: sub $0x1000,%rsp; movq $0,(%rsp); cmp %r11,%rsp; jne 1b;"
        " add $0x8000,%rsp; ret\\n"
        "vokhsaot_last: jmp memset\\n"
        "vokhsaot_a: ret\\n");"""
BY_HAND = {"vokhsaot_run_in_place_a": 8 + 2 * 8 + 0x20 + 8 + 0x48, "vokhsaot_large": 8 + 0x8000, "vokhsaot_last": 8 + 8, "vokhsaot_a": 8}
# What was measured, by what must be said of it.
MEASURED = {
    "vokhsaot_a took 16 bytes of stack as it ran, and 8 are read": {"vokhsaot_a": 16},
    f"vokhsaot_large took {BY_HAND['vokhsaot_large'] - UNSEEN - 1} bytes": {"vokhsaot_large": BY_HAND["vokhsaot_large"] - UNSEEN - 1},
    "vokhsaot_b was measured and is not exported": {"vokhsaot_b": 8},
    "vokhsaot_last was not measured": {"vokhsaot_last": None},
}
# no position-independent code, so that one of the wrong programs has none
FLAGS = ("-O1", "-w", "-fno-pie", "-fstack-clash-protection", "-fno-stack-protector", "-fno-builtin")


def compiled(code, folder):
    with open(f"{folder}/code.c", "w") as file:
        file.write(DECLARED + code)
    printed("gcc", *FLAGS, "-c", f"{folder}/code.c", "-o", f"{folder}/code.o")
    return f"{folder}/code.o"


def lines_of(seen):
    return "\n".join(f"{name} {bytes}" for name, bytes in seen.items() if bytes is not None)


def self_test():
    with tempfile.TemporaryDirectory() as folder:
        for said, code in WRONG.items():
            wrong = all_wrong(compiled(code, folder), table_of({"vokhsaot_a": 8}))
            assert any(said in text for text in wrong), (said, wrong)
        right = compiled(RIGHT, folder)
        assert all_wrong(right, table_of(BY_HAND)) == [], all_wrong(right, table_of(BY_HAND))
        assert measured_not_allowed(right, lines_of(BY_HAND)) == [], measured_not_allowed(right, lines_of(BY_HAND))
        for said, seen in MEASURED.items():
            wrong = measured_not_allowed(right, lines_of({**BY_HAND, **seen}))
            assert len(wrong) == 1 and said in wrong[0], (said, wrong)
    many = {f"vokhsaot_a_name_that_is_long_{i}": 8 + i % 2 for i in range(20)}
    page = "/*\n" + table_of({"vokhsaot_old": 4096, "vokhsaot_older": 8}) + " * after\n"
    assert stated_in(with_table(page, many)) == many and with_table(page, many).endswith("\n * after\n"), with_table(page, many)
    print(f"object_code: {len(WRONG)} wrong programs and {len(MEASURED)} wrong measurements are noticed")


def main():
    if sys.argv[1:] == ["--self-test"]:
        return self_test()
    if len(sys.argv) != 3:
        sys.exit(__doc__)
    library, header = sys.argv[1], HEADER.read_text()
    taken, _ = stacks_of(functions_of(library))
    if sys.argv[2] == "--write":
        return HEADER.write_text(with_table(header, taken))
    wrong = all_wrong(library, header) + measured_not_allowed(library, pathlib.Path(sys.argv[2]).read_text())
    for text in wrong:
        print(f"object_code: {text}")
    if wrong:
        sys.exit(1)
    most = max(taken, key=taken.get)
    print(f"object_code: {len(taken)} calls, the most stack {taken[most]} bytes, in {most}")


if __name__ == "__main__":
    main()
