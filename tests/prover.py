"""The prover over a crate with some of its text changed, in a copy: for tests/refused.py, tests/mutants.py and tests/call_graph.py.

`rt check` in a crate's folder keeps in its out/ what it proved, and builds the crates below. A check here begins with a copy of that, as
those of `rt must-fail` do, and changes nothing in the crate's own folder. `rt` must be on the PATH.
"""
import contextlib
import hashlib
import os
import shutil
import signal
import subprocess
import sys
import tempfile

PARTS = ("src", "specs", "proofs")


def processors():
    """How many checks to run at a time."""
    return max(2, len(os.sched_getaffinity(0)))


def read(path):
    with open(path, encoding="utf-8") as f:
        return f.read()


def below_of(root):
    """{crate: the crates below it} of crates.txt, and the crates that are static libraries."""
    below, static = {}, set()
    for line in read(os.path.join(root, "crates.txt")).splitlines():
        head, colon, names = line.split("#")[0].partition(":")
        if colon:
            name, *kind = head.split()
            below[name] = names.split()
            static |= {name} if "staticlib" in kind else set()
    return below, static


def kit():
    """The folder of the kit whose `rt` is on the PATH."""
    found = shutil.which("rt")
    if not found:
        sys.exit("rt is not on the PATH: add the kit's folder bin")
    return os.path.dirname(os.path.dirname(os.path.realpath(found)))


def linked(folder, to):
    """Copies what was kept. What was proved (.oantt) by links, where these can be made: a check puts a new file in the place of one, and writes
    into none."""

    def copy(one, other):
        if one.endswith(".oantt"):
            try:
                return os.link(one, other)
            except OSError:
                pass
        return shutil.copy2(one, other)

    shutil.copytree(folder, to, symlinks=True, copy_function=copy)


class Prover:
    """The repository's crates, each of which can be checked with some of its text changed."""

    def __init__(self, root):
        self.root, self.kit = root, kit()
        self.listed, self.static = below_of(root)
        self.below = {name: self.reached(name) for name in self.listed}
        self.stamps = {}

    def reached(self, crate):
        """The repository's crates below a crate, each after those below it."""
        found = []
        for name in self.listed[crate]:
            if name in self.listed:
                found += [it for it in [*self.reached(name), name] if it not in found]
        return found

    def folder(self, crate, *parts):
        return os.path.join(self.root, "crates", crate, *parts)

    def files(self, crate):
        """The paths in the crate's folder of all that a check of it reads."""
        found = []
        for part in PARTS:
            for at, _, names in os.walk(self.folder(crate, part)):
                found += [os.path.relpath(os.path.join(at, name), self.folder(crate)) for name in names]
        return sorted(found)

    def stamp(self, crate):
        """A sum of what a check of the crate stands on: the kit, and the text of the crate and of all below it."""
        if crate not in self.stamps:
            made = hashlib.sha256(read(os.path.join(self.kit, "KIT-ID")).encode())
            for name in [crate, *self.below[crate]]:
                made.update(repr((name, name in self.static, self.listed[name])).encode())
                for path in self.files(name):
                    with open(self.folder(name, path), "rb") as f:
                        made.update(repr((path, hashlib.sha256(f.read()).hexdigest())).encode())
            self.stamps[crate] = made.hexdigest()
        return self.stamps[crate]

    def prove(self, crate):
        """Proves the crate as it stands, and keeps what was proved. Returns what is wrong, or None. A copy has to be proved too, in the way that changed
        ones are checked."""
        done = subprocess.run(["rt", "check"], cwd=self.folder(crate), stdin=subprocess.DEVNULL, stdout=subprocess.PIPE, stderr=subprocess.STDOUT, errors="replace")
        said, status = (done.stdout, done.returncode) if done.returncode else self.said(crate, {})
        return f"{crate} is not proved as it stands:\n{said[-2000:]}" if status else None

    def rlib(self, crate):
        """Where `rt lib`, and `rt check` of a crate above, keep a crate that is built as a library."""
        return self.folder(crate, "out", "rlib", f"{crate}.rlib")

    def words(self, crate):
        """The prover's call for the crate in the current folder, over the libraries of the crates below as `rt check` built them."""
        words = [f"{self.kit}/bin/rattle", "check", "--crate-name", crate]
        words += ["src/main.rt" if os.path.exists(self.folder(crate, "src", "main.rt")) else "src/lib.rt"]
        for name in ["std", *self.listed[crate]]:
            words += ["--extern", f"{name}={self.rlib(name) if name in self.below else f'{self.kit}/rlibs/{name}.rlib'}"]
        for folder in [f"{self.kit}/rlibs", *[os.path.dirname(self.rlib(name)) for name in self.below[crate]]]:
            words += ["-L", f"dependency={folder}"]
        words += ["--antt-project", f"{self.kit}/rattle/logic/antt-project.json", "--logic-built", f"{self.kit}/logic_built"]
        words += ["--jobs", "1", "--links", f"{crate}="]
        return words + (["--crate-type", "staticlib"] if crate in self.static else [])

    def said(self, crate, texts, kept=True):
        """What the prover says, and its exit status, of the crate with these texts in the place of its own. With `kept` it begins with what `rt check`
        kept, else from nothing."""
        with self.copy(crate, texts, kept) as (room, words):
            for _ in range(2):  # once more where it was killed, most likely for memory
                done = subprocess.run(words, cwd=room, stdin=subprocess.DEVNULL, stdout=subprocess.PIPE, stderr=subprocess.STDOUT, errors="replace")
                if done.returncode != -signal.SIGKILL:
                    break
            return done.stdout, done.returncode

    @contextlib.contextmanager
    def copy(self, crate, texts, kept=True):
        """A copy of the crate with these texts, and the prover's call for it."""
        with tempfile.TemporaryDirectory(prefix="vokhsaot-check-") as room:
            for part in PARTS:
                if os.path.isdir(self.folder(crate, part)):
                    shutil.copytree(self.folder(crate, part), os.path.join(room, part))
            for path, text in texts.items():
                with open(os.path.join(room, path), "w", encoding="utf-8") as f:
                    f.write(text)
            words = self.words(crate)
            if kept and os.path.isdir(self.folder(crate, "out", "incremental")):
                linked(self.folder(crate, "out", "incremental"), os.path.join(room, "incremental"))
                words += ["--incremental", "incremental"]
            yield room, words
