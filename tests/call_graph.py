#!/usr/bin/env python3
"""No function calls itself, directly or through others: read in the MIR that the prover proves and the kit compiles.

usage: tests/call_graph.py [CRATE..]    of these crates and all below them: capi and bench, if none is named
       tests/call_graph.py --self-test  two small crates whose cycles are known, and MIR by hand

The build rules of the flight unit admit no recursion. The prover takes a recursion that ends, and the object code does not always show one:
the compiler makes a loop of a call that stands last. So this reads every function of every crate that the exported library or the bench
program stands on, reached or not, and of the kit's libraries those that are reached. A library's MIR stands in its out/rlib, as `rt lib` leaves it
there; a program and a static library have none, so they are built once more as a library, in a copy.

A function that has bounds is read once for each choice of impls that it is called with, since it is compiled so: the drop of an array calls the
drop of its elements' type, which is itself only for arrays of arrays without end. A call by a bound, so that of a closure too, is of the method of
the impl that was handed on. A function with bounds that nothing calls is read with its bounds left open: a call by such a bound may be of each
impl of the trait in what is read. What this cannot follow is a fault: a call that names no function, a function as a value, a function that is
called and not there, one that stands in the source and not in the MIR, a word of the MIR that is not known here or has other parts than are known,
impls that are not those of the bounds, impls within impls without end.
"""
import collections
import json
import pathlib
import re
import subprocess
import sys
import tempfile
import prover

ROOT = pathlib.Path(__file__).resolve().parents[1]
# what the flight build takes: the exported library, and the bench program
BUILT = ["capi", "bench"]

# The words of a body that have parts, beside those that make a call: of values, of places, and of types.
KNOWN = {
    "Add", "AddrOf", "Aggregate", "Array", "Assign", "Cast", "Copy", "Deref", "Div", "Exit", "Field", "Float", "If", "Int", "IntToFloat",
    "Ints", "Le", "LendStatic", "Lit", "Lt", "Mul", "Named", "Op1", "Op2", "Opd", "Param", "Rem", "Repeat", "Shr", "Sub", "Switch", "Variant", "bits",
    "lifetimes", "local", "name", "steps", "types", "value", "values", "width",
}

# Words known with these parts and no others; what stands in them is read as all else.
FORMS = {
    # types: a reference, by its lifetime, its kind and the type that it refers to; a slice that is lent, as the struct of its start and its length; a
    # number that is handed on for a type parameter
    "Ref": lambda parts: parted(parts, 3) and parts[1] in ("Imm", "Mut") and is_type(parts[2]),
    "Struct": lambda parts: parted(parts, 2) and parts[0] == "&[]" and parted(parts[1], 2) and all(map(is_type, parts[1])),
    "Const": lambda number: type(number) is int,
    # values: the number that a type parameter is, by its width and the parameter; the size of a type
    "NumOf": lambda parts: parted(parts, 2) and type(parts[0]) is int and is_type(parts[1]) and "Param" in parts[1],
    "SizeOf": lambda part: is_type(part),
}
# the words that make a type, and the types without parts
TYPES = {"Array", "Float", "Int", "Named", "Param", "Ref", "Struct"}
PLAIN_TYPES = {"Bool", "Ptr", "Unit"}


def parted(parts, count):
    return isinstance(parts, list) and len(parts) == count


def is_type(part):
    return part in PLAIN_TYPES if isinstance(part, str) else isinstance(part, dict) and len(part) == 1 and set(part) <= TYPES


# A function as it is compiled: its name and, for each of its bounds, what is handed on. That is an Impl with what is handed on for its own bounds,
# or, where nothing calls the function, an Open of the trait: each impl of it in what is read.
Instance = collections.namedtuple("Instance", "name handed")
Impl = collections.namedtuple("Impl", "name handed")
Open = collections.namedtuple("Open", "trait")
# A bound of the function that is read, in what it hands on.
Given = collections.namedtuple("Given", "number")
# Impls within impls beyond this are taken to have no end.
DEEPEST = 16


class Function:
    """What the MIR says of a function: the functions that it calls by name and the methods that it calls, by what was handed on and by number, each
    with what it hands on; the impls it hands on; and what is not understood."""

    def __init__(self, name, mir):
        self.calls, self.methods, self.faults = [], [], []
        self.name, self.bounds = name, [bound["of"] for bound in mir["generics"]["bounds"]]
        self.impls = {impl["name"]: (impl["of"]["of"], tuple(bound["of"] for bound in impl["bounds"]), tuple(impl["methods"])) for impl in mir["generics"]["impls"]}
        self.read(mir["body"])

    def read(self, part):
        if isinstance(part, list):
            for inner in part:
                self.read(inner)
        elif isinstance(part, dict):
            for word, inner in part.items():
                if word == "Call":
                    self.read_call(*inner)
                elif word == "Fn":
                    self.faults.append(f"has {inner[0]} as a value")
                elif word in FORMS and not FORMS[word](inner):
                    self.faults.append(f"has {word} with parts that are not known")
                elif word in KNOWN or word in FORMS:
                    self.read(inner)
                elif word != "Foreign":  # a function of the C library, which is followed no further
                    self.faults.append(f"has {word}, which is not known")

    def read_call(self, callee, *others):
        kind, what = next(iter(callee.items())) if isinstance(callee, dict) and len(callee) == 1 else (None, None)
        if kind == "Fn" and parted(what, 2):
            self.calls.append((what[0], self.read_handed(what[1])))
        elif kind == "Method" and parted(what, 3):
            self.methods.append((self.read_impl(what[0]), what[1], self.read_handed(what[2])))
        else:
            self.faults.append("makes a call that names no function")
        self.read(others)

    def read_handed(self, what):
        """What a call hands on for the bounds of what it calls; its types are read as all else."""
        self.read({word: part for word, part in what.items() if word != "dicts"})
        return tuple(map(self.read_impl, what["dicts"]))

    def read_impl(self, part):
        """An Impl or a Given; None, and a fault, for what is neither."""
        kind, what = next(iter(part.items())) if isinstance(part, dict) and len(part) == 1 else (None, None)
        if kind == "Given" and what < len(self.bounds):
            return Given(what)
        if kind == "Impl" and parted(what, 3) and what[0] in self.impls:
            self.read(what[1])
            return Impl(what[0], tuple(map(self.read_impl, what[2])))
        self.faults.append(f"hands on {what[0]}, whose methods are not there" if kind == "Impl" else "hands on what is no impl")
        return None


class Graph:
    """The instances of the functions of own and of those of the kit that they reach, what each may call, and what is wrong."""

    def __init__(self, own, kit):
        self.mir, self.functions, self.impls, self.faults = {**kit, **own}, {}, {}, []
        # {trait: the impls of it that are handed on}, and {instance: the instances that it may call}
        self.known, self.calls = {}, {}
        for name in own:
            if not self.function(name).bounds:
                self.follow([Instance(name, ())])
        for name in own:
            if name not in {one.name for one in self.calls}:
                self.follow([Instance(name, tuple(map(Open, self.function(name).bounds)))])
        for name in sorted({one.name for one in self.calls}):
            for handed, _, _ in self.function(name).methods:
                for trait in {one.handed[handed.number].trait for one in self.calls if one.name == name and isinstance(handed, Given) and isinstance(one.handed[handed.number], Open)}:
                    if not self.known.get(trait):
                        self.faults.append(f"{name} calls a method of {trait}, and no type that has it is known")

    def function(self, name):
        if name not in self.functions:
            mir = self.mir.get(name)
            if mir is None:
                self.faults.append(f"{name} is called and not there")
            one = self.functions[name] = Function(name, mir or {"generics": {"bounds": [], "impls": []}, "body": []})
            self.faults += [f"{name} {fault}" for fault in one.faults]
            for impl, what in one.impls.items():
                if self.impls.setdefault(impl, what) != what:
                    self.faults.append(f"{name} has {impl} otherwise than others have it")
        return self.functions[name]

    def follow(self, left):
        """Adds these instances and all that they may call. An impl that becomes known may be called by each that has a bound open."""
        while left:
            while left:
                one = left.pop()
                if one not in self.calls:
                    self.calls[one] = self.called_by(one)
                    left += self.calls[one]
            for one, called in self.calls.items():
                if any(map(is_open, one.handed)):
                    self.calls[one] = self.called_by(one)
                    left += [other for other in self.calls[one] if other not in self.calls]

    def called_by(self, one):
        """The instances that an instance may call, in order."""
        function, found = self.functions[one.name], []
        for name, handed in function.calls:
            found += self.instance(one, name, self.filled(one, handed))
        for whose, number, handed in function.methods:
            whose, = self.filled(one, (whose,))
            for impl in sorted(self.known.get(whose.trait, ())) if isinstance(whose, Open) else [whose] if whose else []:
                methods = self.impls[impl.name][2]
                if number >= len(methods):
                    self.fault(f"{one.name} calls method {number} of {impl.name}, which is not there")
                else:
                    found += self.instance(one, methods[number], impl.handed + self.filled(one, handed))
        return found

    def instance(self, one, name, handed):
        """The instance of this name, in a list; none if what it is handed is not for its bounds."""
        if name not in self.mir:
            self.function(name)
            return []
        if None in handed:  # said where the function was read
            return []
        if not self.fits(handed, self.function(name).bounds):
            self.fault(f"{one.name} calls {name} with impls that are not of its bounds")
            return []
        if max(map(depth, handed), default=0) > DEEPEST:
            self.fault(f"{one.name} calls {name} with impls within impls without end")
            return []
        for impl in handed:
            self.know(impl)
        return [Instance(name, handed)]

    def know(self, impl):
        if isinstance(impl, Impl):
            self.known.setdefault(self.impls[impl.name][0], set()).add(impl)
            for inner in impl.handed:
                self.know(inner)

    def fits(self, handed, traits):
        """Whether these are of these traits, each with what it is handed itself."""
        return [one.trait if isinstance(one, Open) else self.impls[one.name][0] for one in handed] == list(traits) and all(
            self.fits(one.handed, self.impls[one.name][1]) for one in handed if isinstance(one, Impl))

    def filled(self, one, handed):
        """What a function hands on as this instance."""
        return tuple(one.handed[it.number] if isinstance(it, Given) else self.filled_impl(one, it) for it in handed)

    def filled_impl(self, one, impl):
        if impl is None:
            return None
        inner = self.filled(one, impl.handed)
        return None if None in inner else Impl(impl.name, inner)

    def fault(self, text):
        if text not in self.faults:
            self.faults.append(text)


def is_open(handed):
    return isinstance(handed, Open) or any(map(is_open, handed.handed))


def depth(handed):
    return 0 if isinstance(handed, Open) else 1 + max(map(depth, handed.handed), default=0)


def calls_of(own, kit):
    """{instance: the instances that it may call} of the functions of own and of those of the kit that they reach, and what is wrong."""
    graph = Graph(own, kit)
    return graph.calls, graph.faults


def names_of(calls):
    """The same by the names of the functions, of functions that have one instance each."""
    return {one.name: [other.name for other in called] for one, called in calls.items()}


def cycle_in(calls):
    """Functions each of which calls the next, the last one being the first again; None where there are none."""
    done = set()

    def found(one, above):
        if one in above:
            return above[above.index(one):] + [one]
        if one not in done:
            for other in calls.get(one, ()):
                if cycle := found(other, above + [one]):
                    return cycle
            done.add(one)
        return None

    return next(filter(None, (found(one, []) for one in sorted(calls, key=repr))), None)


HEAD = re.compile(r' *(?:pub(?:\(\w+\))? )?(?:extern "C" )?fn (\w+)')
CLAUSE = re.compile(r" *(?:requires|ensures)\b")


def functions_in(source):
    """The names of the functions of a source text that have a body, each as often as it stands there. One that a trait asks for has none: a
    line of it ends with a semicolon before one opens a body."""
    lines = re.sub(r"//[^\n]*", "", source).splitlines()
    found = []
    for place, line in enumerate(lines):
        if head := HEAD.match(line):
            last = next((part for part in lines[place:] if part.rstrip().endswith(";") or "{" in part and not CLAUSE.match(part)), "{")
            if "{" in last and not CLAUSE.match(last):
                found.append(head[1])
    return found


def read_mir(rlib):
    return dict(json.loads(pathlib.Path(rlib, "toolchain", "mir.json").read_text()))


# Of a program `main` is the one function that a library may not have.
MAIN = "main_of_the_program"


def own_mir(proofs, crate):
    """{function: its MIR} of a crate. It is proved first, with those below it."""
    program = pathlib.Path(proofs.folder(crate, "src", "main.rt"))
    if crate not in proofs.static and not program.exists():
        run = subprocess.run(["rt", "lib"], cwd=proofs.folder(crate), stdin=subprocess.DEVNULL, stdout=subprocess.PIPE, stderr=subprocess.STDOUT, text=True)
        if run.returncode:
            sys.exit(f"call_graph: rt lib in {crate}: {run.stdout[-1000:]}")
        return read_mir(proofs.rlib(crate))
    return mir_of_library(proofs, crate, {"src/lib.rt": program.read_text().replace("\nfn main(", f"\nfn {MAIN}(")} if program.exists() else {})


def mir_of_library(proofs, crate, texts):
    """The same of a copy that is built as a library, with these texts."""
    with proofs.copy(crate, texts) as (room, words):
        words = [word for word in words if word not in ("--crate-type", "staticlib")]
        words[1] = "build"
        words[words.index("--crate-name") + 2] = "src/lib.rt"
        if texts:
            pathlib.Path(room, "src", "main.rt").unlink(missing_ok=True)
        made = subprocess.run([*words, "-o", "made.rlib"], cwd=room, stdin=subprocess.DEVNULL, stdout=subprocess.PIPE, stderr=subprocess.STDOUT, text=True)
        if made.returncode:
            sys.exit(f"call_graph: {crate} as a library: {made.stdout[-1000:]}")
        return read_mir(f"{room}/made.rlib")


def not_there(crate, mir, sources):
    """The functions of the source that are not in the MIR of a crate, or not as often. A closure there has the name of what it is handed to."""
    seen = collections.Counter(name.rsplit("::", 1)[1] for name in mir if name.startswith(f"{crate}::") and "::fn::" not in name)
    seen["main"] += f"{crate}::{MAIN}" in mir
    written = collections.Counter(name for source in sources for name in functions_in(source))
    return [f"{crate}::{name} is not in the MIR" + (f" {written[name]} times" if seen[name] else "") for name in written if seen[name] < written[name]]


def faults_of(own, kit):
    """How many functions may be called, and what is wrong with them."""
    calls, faults = calls_of(own, kit)
    if cycle := cycle_in(calls):
        faults.append("it calls itself: " + " calls ".join(one.name for one in cycle))
    return len({one.name for one in calls}), faults


def kit_mir(proofs):
    """{function: its MIR} of the kit's own libraries, those that std is made of."""
    found = {}
    for name in ("core", "std", "std_alloc", "std_collections", "std_heap", "std_io", "io", "libc", "os"):
        found |= read_mir(f"{proofs.kit}/rlibs/{name}.rlib")
    return found


def looked_at(proofs, roots):
    """How many crates and functions these crates and all below them are, and what is wrong."""
    for crate in roots:
        if crate not in proofs.below:
            sys.exit(f"call_graph: crates.txt does not list {crate}")
    crates = [name for name in proofs.below if name in roots or any(name in proofs.below[root] for root in roots)]
    own, faults = {}, []
    # (lowest first: a library is built over those below)
    for crate in sorted(crates, key=lambda name: len(proofs.below[name])):
        mir = own_mir(proofs, crate)
        sources = [path.read_text() for path in sorted(pathlib.Path(proofs.folder(crate, "src")).rglob("*.rt"))]
        faults += not_there(crate, mir, sources)
        own |= mir
    count, wrong = faults_of(own, kit_mir(proofs))
    return len(crates), count, faults + wrong


# ---- the self-test

# A crate with the divisor as it was before it became a loop, the same through another function in a module, and a function that two
# call, one of them twice, which is no cycle.
SMALL = {
    "crates.txt": "small:\nlent:\n",
    "crates/small/src/lib.rt": """#![tactic(auto)]

mod down;

#[cycle(divisor)]
pub fn divisor(a: u64, b: u64) -> u64 {
    if b == 0 { a } else { divisor(b, a % b) }
}

fn last(n: u64) -> u64 {
    n
}

pub fn twice(n: u64) -> u64 {
    let _ = last(n);
    last(n)
}
""",
    "crates/small/src/down.rt": """#[cycle(turns)]
pub fn turn(a: u64, b: u64) -> u64 {
    if b == 0 { a } else { back(b, a % b) }
}

#[cycle(turns)]
fn back(a: u64, b: u64) -> u64 {
    if b == 0 { a } else { turn(b, a % b) }
}
""",
    "crates/small/proofs/+divisor/Invariants.antt": """use Rattle.small.proofs.+divisor.Given as goal

abbrev pub decreases-divisor : goal.decreases-divisor
decreases-divisor l = l.b
""",
    "crates/small/proofs/down/+turns/Invariants.antt": """use Rattle.small.proofs.down.+turns.Given as goal

abbrev pub decreases-turn : goal.decreases-turn
decreases-turn l = l.b

abbrev pub decreases-back : goal.decreases-back
decreases-back l = l.b
""",
}
# A crate with no cycle that goes through the kit: by closures, by a derived comparison, and by the drop of what an array's elements stand in.
LENT = """#![tactic(auto)]

use std::array;

#[derive(Clone, Copy, PartialEq)]
pub struct Pair {
    pub numbers: [u64; 2],
}

fn last(n: u64) -> u64 {
    n
}

pub fn filled(n: u64) -> [u64; 4] {
    array::from_fn(|_| last(n))
}

pub fn all_below(n: u64, numbers: &[u64]) -> bool {
    (0..n).all(|place| last(place) < numbers.len() as u64)
}

pub fn mapped(rows: [[u64; 2]; 4]) -> [u64; 4] {
    rows.map(|row| last(row[0]))
}

pub fn same(one: &Pair, other: &Pair) -> bool {
    *one == *other
}
"""
# What each of its functions stands on: with a call of the function in it there is a cycle, through these.
LENT_ON = {
    "lent::filled": ("lent::last", ["core::array::from_fn", "lent::fn::filled::from_fn+FnMut::call_mut", "lent::fn::filled::from_fn"]),
    "lent::all_below": ("lent::last", ["core::iter::base::Iterator::all", "lent::fn::all_below::all+FnMut::call_mut", "lent::fn::all_below::all"]),
    "lent::mapped": ("lent::last", ["core::array::map::array+N+T::map", "lent::fn::mapped::map+FnMut::call_mut", "lent::fn::mapped::map"]),
    "lent::same": ("core::cmp::numbers::U64PartialEq::eq", ["lent::PairPartialEq::eq", "core::cmp::arrays::ArrayPartialEq::eq"]),
}
SMALL_CALLS = {
    "small::divisor": ["small::divisor"], "small::down::turn": ["small::down::back"], "small::down::back": ["small::down::turn"],
    "small::last": [], "small::twice": ["small::last", "small::last"],
}


def call(name, *impls, types=()):
    return {"Call": [{"Fn": [name, {"types": list(types), "dicts": list(impls)}]}, [], {"local": 0, "steps": []}]}


def call_method(impl, number):
    return {"Call": [{"Method": [impl, number, {"types": [], "dicts": []}]}, [], {"local": 0, "steps": []}]}


def function(*body, bounds=(), impls=()):
    return {"generics": {"bounds": [{"of": trait} for trait in bounds], "impls": list(impls)}, "body": list(body)}


def impl(name, trait, *methods, bounds=()):
    return {"name": name, "of": {"of": trait}, "methods": list(methods), "bounds": [{"of": of} for of in bounds]}


def handed(name, *impls):
    return {"Impl": [name, [], list(impls)]}


GIVEN = {"Given": 0}
HANDS_ON = impl("d::A", "d::T", "d::A::first", "d::A::second")
# An impl of the arrays that stands on that of their elements, as the kit's drop of an array does: drop calls all, and all the elements' drop.
OF_ARRAY, OF_NONE = impl("d::array", "d::Drop", "d::array::drop", bounds=["d::Drop"]), impl("d::none", "d::Drop", "d::none::drop")
DROPS = {
    "d::array::drop": function(call("d::all", GIVEN), bounds=["d::Drop"]), "d::all": function(call_method(GIVEN, 0), bounds=["d::Drop"]), "d::none::drop": function(),
}
# A closure, whose call is its impl's one method, as a call of it is.
CLOSURE = impl("c::fn::f::map+FnMut", "d::FnMut", "c::fn::f::map+FnMut::call_mut")
MAPS = {
    "c::f": function(call("d::map", handed("c::fn::f::map+FnMut")), impls=[CLOSURE]), "c::fn::f::map+FnMut::call_mut": function(call("c::fn::f::map")),
    "d::map": function(call_method(GIVEN, 0), bounds=["d::FnMut"]),
}
# types and values of each form, with what they name; and parts that they have not
NUMBER, SLICE = {"Int": 64}, {"Struct": ["&[]", [{"Ref": ["Erased", "Imm", {"Param": 0}]}, {"Int": 64}]]}
FORMED = [
    call("c::g", types=[{"Ref": ["Erased", "Mut", SLICE]}, {"Const": 8}, SLICE]), {"Assign": [{"Copy": {"local": 1, "steps": [{"Deref": SLICE}]}}]},
    {"Assign": [{"Op2": [{"Lt": "Unsigned"}, {"NumOf": [64, {"Param": 1}]}, {"SizeOf": {"Array": [{"Param": 0}, {"Const": 8}]}}]}]},
]
NOT_FORMED = [
    {"Ref": ["Erased", "Imm"]}, {"Ref": ["Erased", "Raw", NUMBER]}, {"Ref": ["Erased", "Imm", {"Fn": ["c::f", {}]}]}, {"Ref": ["Erased", "Imm", call("c::f")]},
    {"Struct": ["&dyn d::T", [NUMBER, NUMBER]]}, {"Struct": ["&[]", [NUMBER]]}, {"Struct": ["&[]", [NUMBER, {"Fn": ["c::f", {}]}]]}, {"Struct": ["&[]", [NUMBER, call("c::f")]]},
    {"Const": {"Fn": ["c::f", {}]}}, {"Const": call("c::f")}, {"Const": True}, {"NumOf": [64, call("c::f")]}, {"NumOf": [64, NUMBER]}, {"NumOf": [64]},
    {"SizeOf": {"Fn": ["c::f", {}]}}, {"SizeOf": call("c::f")}, {"SizeOf": "c::f"},
]
# MIR by hand, and what must be said of it; nothing where it is right.
BY_HAND = [
    ("", {"c::f": function(call("c::g"), call("c::g")), "c::g": function()}),
    ("c::f calls c::f", {"c::f": function({"If": {"Copy": {"local": 1, "steps": []}}}, {"Assign": [call("c::f")]})}),
    ("c::f calls c::g calls c::h calls c::f", {"c::f": function(call("c::g")), "c::g": function(call("c::h")), "c::h": function("Seq", [[call("c::f")]])}),
    # through the kit, by a bound: only the second method calls back
    ("c::f calls d::A::second calls c::f", {
        "c::f": function(call_method(GIVEN, 1), bounds=["d::T"]), "c::start": function(call("c::f", handed("d::A")), impls=[HANDS_ON]), "d::A::first": function(),
        "d::A::second": function(call("c::f", handed("d::A")), impls=[HANDS_ON])}),
    ("c::f calls d::A::first calls c::f", {
        "c::f": function(call_method(handed("d::A"), 0), impls=[HANDS_ON]), "d::A::first": function(call("c::f")), "d::A::second": function()}),
    # a bound that nothing closes: an impl of the trait that is handed on elsewhere
    ("c::f calls d::A::first calls c::g calls c::f", {
        "c::f": function(call_method(GIVEN, 0), bounds=["d::T"]), "c::start": function(call("d::h", handed("d::A")), impls=[HANDS_ON]), "d::h": function(bounds=["d::T"]),
        "c::g": function(call("c::f", GIVEN), bounds=["d::T"]), "d::A::first": function(call("c::g", handed("d::A")), impls=[HANDS_ON]), "d::A::second": function()}),
    # drops of arrays of arrays end; not where the elements' drop calls the array's, nor where each is an array of the next
    ("", {"c::f": function(call_method(handed("d::array", handed("d::array", handed("d::none"))), 0), impls=[OF_ARRAY, OF_NONE]), **DROPS}),
    ("d::array::drop calls d::all calls d::none::drop calls d::array::drop", {
        "c::f": function(call("d::array::drop", handed("d::none")), impls=[OF_ARRAY, OF_NONE]), **DROPS,
        "d::none::drop": function(call_method(handed("d::array", handed("d::none")), 0), impls=[OF_ARRAY, OF_NONE])}),
    ("d::all calls d::all with impls within impls without end", {
        "c::f": function(call("d::all", handed("d::none")), impls=[OF_NONE]), "d::all": function(call("d::all", handed("d::array", GIVEN)), bounds=["d::Drop"], impls=[OF_ARRAY])}),
    # a closure, and one that calls the function in which it stands
    ("", {**MAPS, "c::fn::f::map": function(call("c::g")), "c::g": function()}),
    ("c::f calls d::map calls c::fn::f::map+FnMut::call_mut calls c::fn::f::map calls c::f", {**MAPS, "c::fn::f::map": function(call("c::f"))}),
    # ... and one that calls the function that was given it, with itself
    ("d::map calls c::fn::f::map+FnMut::call_mut calls c::fn::f::map calls d::map", {
        **MAPS, "c::fn::f::map": function(call("d::map", handed("c::fn::f::map+FnMut")), impls=[CLOSURE])}),
    ("c::f calls a method of d::T, and no type that has it is known", {"c::f": function(call_method(GIVEN, 0), bounds=["d::T"])}),
    ("c::f makes a call that names no function", {"c::f": function({"Call": [{"Copy": {"local": 1, "steps": []}}, [], {"local": 0, "steps": []}]})}),
    ("c::f makes a call that names no function", {"c::f": function({"Call": [{"Fn": ["c::g", {"types": [], "dicts": []}, call("c::f")]}, [], {}]}), "c::g": function()}),
    ("c::f hands on d::B, whose methods are not there", {"c::f": function(call("c::g", handed("d::B"))), "c::g": function(bounds=["d::T"])}),
    ("c::f hands on d::B, whose methods are not there", {"c::f": function(call_method(handed("d::B"), 0))}),
    ("c::f hands on what is no impl", {"c::f": function(call("c::g", GIVEN)), "c::g": function(bounds=["d::T"])}),
    ("c::f hands on what is no impl", {"c::f": function(call("c::g", "Dyn")), "c::g": function(bounds=["d::T"])}),
    ("c::f calls c::g with impls that are not of its bounds", {"c::f": function(call("c::g", handed("d::A")), impls=[HANDS_ON]), "c::g": function()}),
    ("c::f calls c::g with impls that are not of its bounds", {"c::f": function(call("c::g", handed("d::A")), impls=[HANDS_ON]), "c::g": function(bounds=["d::Drop"])}),
    ("c::f calls c::g with impls that are not of its bounds", {"c::f": function(call("c::g", handed("d::array")), impls=[OF_ARRAY]), "c::g": function(bounds=["d::Drop"])}),
    ("c::f calls method 2 of d::A, which is not there", {"c::f": function(call_method(handed("d::A"), 2), impls=[HANDS_ON])}),
    ("c::g has d::A otherwise than others have it", {
        "c::f": function(call("c::h", handed("d::A")), impls=[HANDS_ON]), "c::g": function(impls=[impl("d::A", "d::T")]), "c::h": function(bounds=["d::T"])}),
    ("c::f has c::g as a value", {"c::f": function({"Assign": [{"Fn": ["c::g", {}]}]}), "c::g": function()}),
    ("c::f has Dyn, which is not known", {"c::f": function({"Dyn": []})}),
    ("c::f has Impl, which is not known", {"c::f": function({"Assign": [handed("d::A")]}, impls=[HANDS_ON])}),
    ("d::g is called and not there", {"c::f": function(call("d::g"))}),
    ("", {"c::f": function(*FORMED), "c::g": function()}),
    *((f"c::f has {next(iter(part))} with parts that are not known", {"c::f": function({"Assign": [part]})}) for part in NOT_FORMED),
    # what stands in a form that is known is read too
    ("c::f has Dyn, which is not known", {"c::f": function({"SizeOf": {"Array": [{"Dyn": []}, {"Lit": 2}]}})}),
    ("c::f has c::g as a value", {"c::f": function({"SizeOf": {"Named": [{"name": "c::S", "lifetimes": []}, [{"Fn": ["c::g", {}]}]]}}), "c::g": function()}),
    ("c::f calls c::f", {"c::f": function({"Ref": ["Erased", "Imm", {"Array": [call("c::f"), {"Lit": 2}]}]})}),
]


def check_lent(own, kit):
    calls, faults = calls_of(own, kit)
    assert faults == [] and cycle_in(calls) is None, faults
    read = json.dumps([(own.get(one.name) or kit[one.name])["body"] for one in calls])
    assert all(f'"{word}"' in read for word in FORMS), "a form that the crate does not have"
    drops = {impl.name for one in calls if one.name == "core::array::array_drop" for impl in one.handed}
    assert drops == {"core::core++option++Option+Destruct"}, drops
    for name, (lower, through) in LENT_ON.items():
        made = {lower: (own.get(lower) or kit[lower]) | {"body": [call(name)]}}
        _, faults = faults_of(own | {one: made[one] for one in made if one in own}, kit | made)
        assert len(faults) == 1 and faults[0].startswith("it calls itself: ") and {name, lower, *through} <= set(re.findall(r"\S*::\S*", faults[0])), (name, faults)


def self_test():
    with tempfile.TemporaryDirectory() as name:
        for path, text in [*SMALL.items(), ("crates/lent/src/lib.rt", LENT)]:
            file = pathlib.Path(name, path)
            file.parent.mkdir(parents=True, exist_ok=True)
            file.write_text(text)
        mir = mir_of_library(prover.Prover(name), "small", {})
        calls, faults = calls_of(mir, {})
        calls = names_of(calls)
        assert calls == SMALL_CALLS and faults == [], (calls, faults)
        assert not_there("small", mir, [SMALL["crates/small/src/lib.rt"], SMALL["crates/small/src/down.rt"]]) == []
        assert not_there("small", mir, ["pub fn left_out() {}"]) == ["small::left_out is not in the MIR"]
        assert not_there("small", mir, ["fn left_out() -> u64 { 1 }\n\nconst N: u64 = 3;\n"]) == ["small::left_out is not in the MIR"]
        assert not_there("small", mir, ["    pub(crate) fn left_out(\n        n: u64,\n    ) -> u64\n        ensures { result ≡ n }\n    {\n"]) == ["small::left_out is not in the MIR"]
        assert not_there("small", mir, ["fn twice(n: u64) -> u64 {\n}", "    fn twice(self) {\n    }"]) == ["small::twice is not in the MIR 2 times"]
        assert not_there("small", mir, ["pub trait Asks {\n    fn asked(self)\n        requires { n ≡ n }\n        ensures { n ≡ n };\n}"]) == []
        assert cycle_in({name: calls[name] for name in ("small::last", "small::twice")}) is None
        assert cycle_in({name: calls[name] for name in calls if "down" in name}) == ["small::down::back", "small::down::turn", "small::down::back"]
        assert "it calls itself: small::divisor calls small::divisor" in faults_of({name: mir[name] for name in mir if "down" not in name}, {})[1]
        check_lent(mir_of_library(prover.Prover(name), "lent", {}), kit_mir(prover.Prover(name)))
    for said, own in BY_HAND:
        _, faults = faults_of({name: one for name, one in own.items() if name[0] == "c"}, {name: one for name, one in own.items() if name[0] == "d"})
        assert (not faults) if not said else len(faults) == 1 and said in faults[0], (said, faults)
    print(f"call_graph: {len(SMALL_CALLS)} and {len(LENT_ON)} functions of two crates and {len(BY_HAND)} programs by hand are read as meant")


def main():
    if sys.argv[1:] == ["--self-test"]:
        return self_test()
    if any(word.startswith("-") for word in sys.argv[1:]):
        sys.exit(__doc__)
    crates, count, faults = looked_at(prover.Prover(str(ROOT)), sys.argv[1:] or BUILT)
    for fault in faults:
        print(f"call_graph: {fault}")
    print(f"{count} functions of {crates} crates and of the kit's, {len(faults)} faults")
    return 1 if faults or not count else 0


if __name__ == "__main__":
    sys.exit(main())
