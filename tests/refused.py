#!/usr/bin/env python3
"""Why the must-fail edits are refused: each is tried, over what the check of its crate kept, and what the prover says is read.

usage: tests/refused.py [CRATE..]
       tests/refused.py --self-test    read some lines of the prover's whose faults are known, and try no edit

`rt ci` asks that an edit be refused as a whole, for whatever reason. So each edit names what has to be refused in it:

  refuses: FUNCTION   of each wrong program, the function that is not proved: a goal of its own has no proof. Where its proof files have
                      errors, the first has to be of a fact that does not hold, not of a name that is missing since the code has another
                      shape, or of another proof. A function that is only not proved since it calls one that is not is tried alone
  breaks: FILE.LAW    of a wrong definition, a table or a law of proofs/FILE.antt that fails by itself, in the same way

An edit may have several, each followed by its replacements. No error may stand in specs/: a definition that the prover does not take is no
wrong definition. What the prover says of an edit stays in target/refused/CRATE/EDIT.log. An edit that was refused as it must be is not tried
again while it, its crate, the crates below, the kit and this script stay the same. The last line is 'N refused, M faults', N the number of
wrong programs; the exit status is 0 where M is 0.
"""
import collections, concurrent.futures, glob, hashlib, os, re, sys
import prover

ROOT = os.path.dirname(os.path.dirname(os.path.abspath(__file__)))
KEPT = f"{ROOT}/target/refused"
MISSING = ("can be named from here", "was not admitted", "is not in scope", "has no field")

# ---- what the prover says


def errors_in(log, place):
    """The error lines of a log whose file and words match an expression, less those that only say what follows from another."""
    found = [line for line in log if re.match(rf"(\./)?{place}", line)]
    return [line for line in found if not re.search(r"error: \d+ declarations? that depends? on .* rejected, w\w+ not checked", line)]


def fact_fault(errors):
    """What is wrong with the errors of a proof, or None where the first is of a fact that fails."""
    if not errors:
        return "no error stands in its own proof"
    if any(words in errors[0] for words in MISSING):
        return f"its first error is no fact that fails: {errors[0][:200]}"
    return None


def law_fault(log, crate, law):
    """What is wrong with the refusal of a law or a table, or None."""
    file, name = law.split(".", 1)
    return fact_fault(errors_in(log, rf"proofs/{file}\.antt:\d+:\d+: error: `{re.escape(name)}`: "))


def function_fault(log, crate, function):
    """What is wrong with the refusal of a function, or None."""
    verdicts = [line for line in log if line.startswith(f"fn {crate}::{function}: ")]
    if not any(": not proved" in line or ": no proof" in line for line in verdicts):
        return f"the prover does not say that it is not proved: {verdicts}"
    own = errors_in(log, "proofs/" + "/".join(function.split("::")) + r"/(Answers|Invariants|Proof)\.antt:\d+:\d+: error: ")
    if not own and any("`search` did not prove `" in line for line in verdicts):
        return None  # of a goal without an answer: the prover's own search finds no proof of what is asked there
    return fact_fault(own)


LOOKS_FOR = {"refuses": function_fault, "breaks": law_fault}

# ---- edits

Program = collections.namedtuple("Program", "look name replacements")


def programs(edit):
    """The wrong programs of an edit: what looks for its fault, its function or law, and its replacements, each a path, an old and a new text."""
    found, path, old = [], "", None
    for line in edit:
        word, _, rest = line.partition(": ")
        if word in LOOKS_FOR:
            found.append(Program(LOOKS_FOR[word], rest.strip(), []))
        elif word == "file":
            path = rest.strip()
        elif word == "old":
            old = rest
        elif line.startswith("new:"):
            new = line[len("new:") :].removeprefix(" ")
            if not found:
                raise ValueError("a replacement stands before the first refuses: or breaks:")
            if not path or not old:
                raise ValueError("a new: stands before any file: or old:")
            found[-1].replacements.append((path, old, new))
            old = None
    return found


def replaced(crate, replacements):
    """The texts of the files that these replacements change, one after the other."""
    texts = {}
    for path, old, new in replacements:
        text = texts.get(path) or prover.read(f"{ROOT}/crates/{crate}/{path}")
        if text.count(old) != 1:
            raise ValueError(f"BAD EDIT: an old: text stands in {path} {text.count(old)} times, and not once: {old}")
        texts[path] = text.replace(old, new)
    return texts


def stopped(log):
    """Why the prover says nothing of single functions, or None."""
    undefined = errors_in(log, r"specs/\w+\.antt:\d+:\d+: error: ")
    if undefined:
        return f"it is no definition: {undefined[0][:200]}"
    if not any(line.startswith("logic=not-proved") for line in log):
        said = [line for line in log if re.search(r"error|no verdict|logic=", line)] or log[-1:]
        return f"the crate is not refused: {said[:1]}"
    return None


def faults_of(edit, crate, check):
    """What is wrong with each wrong program of an edit, given as its lines, None where nothing is. `check` gives what the prover says, as lines,
    of some replacements."""
    try:
        wrong = programs(edit)
        if not wrong:
            return ["it names nothing that is refused"]
        every = [it for program in wrong for it in program.replacements]
        log = check(every)
        why = stopped(log)
        if why:
            return [why]
        found = [program.look(log, crate, program.name) if program.replacements else "it has no replacement" for program in wrong]
        for number, program in enumerate(wrong):
            # (its goals are not tried where a function that it calls is refused too, so it is tried alone)
            if found[number] and program.replacements and program.look is function_fault and len(wrong) > 1:
                alone = check(program.replacements)
                found[number] = stopped(alone) or program.look(alone, crate, program.name)
    except (ValueError, OSError) as why:
        return [str(why)]
    return [why and f"{program.name}: {why}" for why, program in zip(found, wrong)]


# ---- the self-test

# an edit, what is said of it, what is said of each wrong program by its new text where they are tried alone, and how its faults begin
ONE, TWO = ["refuses: f", "file: s", "old: 0", "new: 1"], ["refuses: g", "file: s", "old: 0", "new: 2"]
LAW = ["breaks: Cases.worked", "file: s", "old: 0", "new: 3"]
FACT = "./proofs/f/Answers.antt:3:1: error: `returns`: as printed, the two types differ only where one has `1`"
GONE = "./proofs/f/Answers.antt:2:1: error: `returns-then-n`: module `G` has no `returns-then-n` that can be named from here"
OPEN = "fn c::f: no proof: expected answers in ./proofs/f/Answers.antt; `search` did not prove `returns`"
CALLS = "fn c::f: no proof: it calls `c::g`, which is not proved"
G_OPEN = "fn c::g: no proof: expected answers in ./proofs/g/Answers.antt; `search` did not prove `returns`"
NO = "fn c::f: not proved"
KNOWN = [
    (ONE, [NO, FACT], {}, [None]),
    (ONE, [OPEN], {}, [None]),
    (ONE, [NO, FACT.replace("Answers", "Invariants")], {}, [None]),
    (ONE, [NO, FACT.replace("Answers", "Proof")], {}, [None]),
    (["refuses: a::f", *ONE[1:]], ["fn c::a::f: not proved", FACT.replace("/f/", "/a/f/")], {}, [None]),
    (LAW, ["./proofs/Cases.antt:9:1: error: `worked`: as printed, the two types differ"], {}, [None]),
    (ONE + LAW, [NO, FACT], {}, [None, "Cases.worked: no error"]),
    (ONE, ["fn c::f: proved", FACT], {}, ["f: the prover does not say"]),
    (ONE, [CALLS], {}, ["f: no error"]),
    (ONE, [NO, FACT.replace("/f/", "/g/")], {}, ["f: no error"]),
    (ONE, [NO, "./proofs/f/Answers.antt:9:1: error: 2 declarations that depend on `low`, which was rejected, were not checked: a, b"], {}, ["f: no error"]),
    (ONE, [NO, "./proofs/f/Proof.antt:3:1: error: `close` was not admitted", FACT], {}, ["f: its first"]),
    (ONE, [NO, GONE, FACT], {}, ["f: its first"]),
    (ONE, [OPEN, GONE], {}, ["f: its first"]),
    (ONE, [NO, "./proofs/f/Answers.antt:3:1: error: `low`: record `R` has no field `if-b`"], {}, ["f: its first"]),
    (ONE, [NO, "./proofs/f/Answers.antt:3:1: error: `returns`: `law` is not in scope"], {}, ["f: its first"]),
    (LAW, ["./proofs/Cases.antt:9:1: error: `other`: the two types differ"], {}, ["Cases.worked: no error"]),
    (ONE[:1], [NO, FACT], {}, ["f: it has no replacement"]),
    (ONE[1:], [NO, FACT], {}, ["a replacement stands before"]),
    (["a comment"], [NO, FACT], {}, ["it names nothing"]),
    (ONE, ["./specs/Steps.antt:2:1: error: `-` is not in scope", NO, FACT], {}, ["it is no definition"]),
    # one that calls another that is refused too, tried alone
    (ONE + TWO, [CALLS, G_OPEN], {"1": [OPEN]}, [None, None]),
    (ONE + TWO, [CALLS, G_OPEN], {"1": ["fn c::f: proved"]}, ["f: the prover does not say", None]),
    (ONE + TWO, [CALLS, G_OPEN], {"1": [NO, GONE]}, ["f: its first", None]),
]


def self_test():
    for edit, log, alone, wanted in KNOWN:
        heard = lambda replacements: [*(log if len(replacements) > 1 or not alone else alone[replacements[0][2]]), "logic=not-proved"]
        found = faults_of(edit, "c", heard)
        if len(found) != len(wanted) or any((f is None) != (w is None) or (w and not f.startswith(w)) for f, w in zip(found, wanted)):
            sys.exit(f"refused: {edit} in {log}: found {found}, wanted {wanted}")
    for log in (["logic=proved functions=1"], ["error[unknown-name]: x"], ["rattle: no verdict"]):
        if not faults_of(ONE, "c", lambda _: log)[0].startswith("the crate is not refused"):
            sys.exit(f"refused: {log} is taken for a refusal")
    print(f"refused: {len(KNOWN) + 3} answers of the prover read as wanted")


# ---- trying them


def own_sum(stamp, text):
    """A sum of all that the result of an edit stands on."""
    made = hashlib.sha256(f"{stamp}\n{text}".encode())
    for file in (__file__, prover.__file__):
        made.update(prover.read(file).encode())
    return made.hexdigest()


def tried(proofs, crate, path, mark, key):
    """The faults of an edit's wrong programs. Where there are none, that is kept, under the sum of all that it stands on."""
    label = os.path.basename(path)[: -len(".edit")]
    log = f"{KEPT}/{crate}/{label}.log"
    said = []

    def check(replacements):
        said.append(f"== the prover, with {len(replacements)} replacements")
        lines = proofs.said(crate, replaced(crate, replacements))[0].splitlines()
        said.extend(lines)
        return lines

    found = faults_of(prover.read(path).splitlines(), crate, check)
    os.makedirs(os.path.dirname(log), exist_ok=True)
    with open(log, "w", encoding="utf-8") as f:
        f.write("\n".join(said) + "\n")
    if not any(found):
        with open(mark, "w", encoding="utf-8") as f:
            f.write(f"{key}\n{len(found)}\n")
    return found


def main():
    if sys.argv[1:] == ["--self-test"]:
        return self_test()
    proofs = prover.Prover(ROOT)
    for name in sys.argv[1:]:
        if name not in proofs.below:
            sys.exit(f"refused: no crate {name} in crates.txt")
    refused, faults, waiting = 0, 0, []
    with concurrent.futures.ThreadPoolExecutor(prover.processors()) as pool:
        for crate in sys.argv[1:] or proofs.below:
            new = []
            for path in sorted(glob.glob(f"{ROOT}/crates/{crate}/must-fail/*.edit")):
                mark = f"{KEPT}/{crate}/{os.path.basename(path)[: -len('.edit')]}.refused"
                key = own_sum(proofs.stamp(crate), prover.read(path))
                if os.path.exists(mark) and prover.read(mark).split("\n")[0] == key:
                    refused += int(prover.read(mark).split("\n")[1])
                else:
                    new.append((path, mark, key))
            why = proofs.prove(crate) if new else None
            if why:
                print(f"refused: {why}")
                faults += len(new)
                continue
            waiting += [(crate, path, pool.submit(tried, proofs, crate, path, mark, key)) for path, mark, key in new]
        for crate, path, task in waiting:
            found = task.result()
            wrong = [it for it in found if it]
            for it in wrong:
                print(f"refused: {crate}/{os.path.basename(path)[: -len('.edit')]}: {it}", flush=True)
            refused, faults = refused + len(found) - len(wrong), faults + len(wrong)
    print(f"{refused} refused, {faults} faults")
    sys.exit(1 if faults or not refused else 0)


main()
