#!/usr/bin/env python3
"""Tries how the launcher builds, with an `rt` that proves nothing: bench/launcher_builds.py

A small tree has the launcher and five crates. Its rt prints and makes what the kit's one does, in as many seconds a crate as it is told. Tried are: a first
build, what is taken as built and what is not (after rt ci at the top, too), interrupts, sources that change meanwhile, builds side by side, and one that
fails. It takes about half a minute.
"""
import glob
import os
import shutil
import signal
import subprocess
import sys
import tempfile
import time

TOP = os.path.dirname(os.path.dirname(os.path.abspath(__file__)))
RT = r'''#!/usr/bin/env python3
import os, shutil, sys, time

def prove(name, failed, uses):
    folder, slow = f"crates/{name}", os.environ.get("SLOW", "").split()
    os.makedirs(f"{folder}/out")
    texts = [open(f"{at}/{file}").read() for at, _, files in os.walk(f"{folder}/src") for file in files]
    time.sleep(float(os.environ["SECONDS_OF_SLOW"]) if name in slow else 0.05)
    if failed & set(uses) or any("WRONG" in text for text in texts):
        print(f"rt: {name} NOT PROVED", flush=True)
        return False
    if os.path.exists(f"{folder}/src/main.rt"):
        made(f"{folder}/out/{name}", texts)
    print(f"== {name}\nfn one: proved\nrt: {name} proved", flush=True)
    return True

def made(path, texts):
    with open(path, "w") as file:
        file.write("#!/bin/sh\n# " + " ".join(texts).replace("\n", " ") + "\n[ \"$1\" != check ] || echo confluent\n")
    os.chmod(path, 0o755)

def ci():
    assert os.path.isdir(".git") and not os.path.islink(".git")
    rows = [line.partition(":") for line in open("crates.txt").read().splitlines() if not line.startswith("#")]
    rows = [(head.split()[0], uses.split()) for head, _, uses in rows]
    for name in os.listdir("crates"):
        shutil.rmtree(f"crates/{name}/out", ignore_errors=True)
    failed = set()
    for name, uses in rows:
        if not prove(name, failed, uses):
            failed.add(name)
    for name, _ in rows:
        if os.path.exists(f"crates/{name}/out/{name}"):
            time.sleep(0.02)
            shutil.copyfile(f"crates/{name}/stdout", f"crates/{name}/out/stdout")
            print(f"rt: {name} ran, and wrote what its file stdout has", flush=True)
    print(f"{len(rows) - len(failed)} passed, {len(failed)} failed")
    return bool(failed)

with open(os.environ["RUNS"], "a") as runs:
    runs.write(f"{sys.argv[1]} {os.getpid()}\n")
sys.exit(ci() if sys.argv[1] == "ci" else 0)
'''
CRATES = "low: thiserror\nhigh: low\nbec: high low\ntests_of_low: low\n"


class Tree:
    """The small tree, and how its launcher is called."""

    def __init__(self, folder):
        self.top, self.runs_file, self.cache = os.path.join(folder, "tree"), os.path.join(folder, "runs"), os.path.join(folder, "cache")
        os.makedirs(os.path.join(folder, "bin"))
        with open(os.path.join(folder, "bin", "rt"), "w", encoding="utf-8") as file:
            file.write(RT)
        os.chmod(os.path.join(folder, "bin", "rt"), 0o755)
        os.makedirs(os.path.join(self.top, ".git"))
        shutil.copy(os.path.join(TOP, "bec"), self.top)
        shutil.copytree(os.path.join(TOP, "launcher"), os.path.join(self.top, "launcher"), ignore=shutil.ignore_patterns("__pycache__"))
        self.write("crates.txt", CRATES)
        for row in CRATES.splitlines():
            name = row.partition(":")[0]
            self.write(f"crates/{name}/src/{'main' if name.startswith('bec') else 'lib'}.rt", f"one {name}")
            self.write(f"crates/{name}/must-fail/one.edit", "file: src/lib.rt")
            self.write(f"crates/{name}/stdout", name)
        self.env = {**os.environ, "PATH": os.path.join(folder, "bin") + ":/usr/bin:/bin", "XDG_CACHE_HOME": self.cache, "RUNS": self.runs_file,
                    "SECONDS_OF_SLOW": "3"}
        for word in ("BEC_PROGRAM", "SLOW"):
            self.env.pop(word, None)

    def write(self, path, text, age=0.0):
        path = os.path.join(self.top, path)
        os.makedirs(os.path.dirname(path), exist_ok=True)
        with open(path, "w", encoding="utf-8") as file:
            file.write(text)
        os.utime(path, (time.time() - age, time.time() - age))

    def path(self, name):
        return os.path.join(self.top, "crates", name, "out", name)

    def begin(self, *words, slow=""):
        return subprocess.Popen([os.path.join(self.top, "bec"), *words], cwd=self.top, env={**self.env, "SLOW": slow}, stdin=subprocess.DEVNULL,
                                stdout=subprocess.PIPE, stderr=subprocess.PIPE, encoding="utf-8", start_new_session=True)

    def call(self, *words, slow=""):
        """Status, output and what is said on standard error."""
        process = self.begin(*words, slow=slow)
        out, said = process.communicate(timeout=120)
        return process.returncode, out, said

    def gate(self, slow=""):
        return subprocess.Popen(["rt", "ci"], cwd=self.top, env={**self.env, "SLOW": slow}, stdout=subprocess.DEVNULL)

    def runs(self):
        """How often `rt ci` was called."""
        with open(self.runs_file, encoding="ascii") as file:
            return [line.split()[0] for line in file].count("ci")

    def rooms(self):
        return glob.glob(os.path.join(self.cache, "bec", "build.*"))

    @staticmethod
    def soon(what, seconds=20):
        """Waits until something is so, and tells what it then is."""
        until = time.monotonic() + seconds
        while not what() and time.monotonic() < until:
            time.sleep(0.05)
        return what()

    def is_quiet(self):
        """Whether soon no folder of a build is left, and no rt at work."""
        with open(self.runs_file, encoding="ascii") as file:
            processes = [line.split()[1] for line in file]
        return self.soon(lambda: not self.rooms() and not any(is_rt(one) for one in processes))


def is_rt(process):
    try:
        with open(f"/proc/{process}/cmdline", "rb") as file:
            return b"/bin/rt\0" in file.read()
    except OSError:
        return False


def built(tree, note):
    """The first build makes the program once, and what it made counts as long as the contents are the same."""
    status, out, said = tree.call("heads")
    note(f"a first build: {status} {out} {said}", (status, out) == (0, "") and "proving and building" in said and "bec: high is proved" in said)
    note("the program", os.path.exists(tree.path("bec")))
    note("a folder is left", tree.is_quiet())
    note("a second call", tree.call("heads") == (0, "", "") and tree.call("check") == (0, "confluent\n", "") and tree.runs() == 1)
    tree.write("crates/low/src/lib.rt", "one low", age=-10 ** 6)
    note("a date in the future", tree.call("heads") == (0, "", "") and tree.runs() == 1)
    tree.write("crates/tests_of_low/src/lib.rt", "two")
    note("a crate that is not below", tree.call("heads") == (0, "", "") and tree.runs() == 1)
    tree.write("crates/low/src/lib.rt", "two", age=10 ** 6)
    note("other contents of an old date", tree.call("heads")[0] == 0 and tree.runs() == 2)
    tree.write("crates/low/src/lib.rt", "back")
    os.utime(tree.path("bec") + ".sources", (4e9, 4e9))
    note("a clock that was set back", tree.call("heads")[0] == 0 and tree.runs() == 3)
    os.remove(os.path.join(tree.top, "crates", "high", "src", "lib.rt"))
    tree.write("crates/high/src/new.rt", "new")
    note("a file of another name", tree.call("heads")[0] == 0 and tree.runs() == 4)
    shutil.copy("/bin/true", tree.path("bec"))
    note("another program in its place", tree.call("heads")[0] == 0 and tree.runs() == 5)


def gated(tree, note):
    """What rt ci at the top has built is taken, unless something has changed since it began."""
    tree.gate().wait()
    runs = tree.runs()
    note("after rt ci", tree.call("heads") == (0, "", "") and tree.call("heads") == (0, "", "") and tree.runs() == runs)
    tree.write("crates/low/src/lib.rt", "three", age=10 ** 6)
    note("changed after rt ci", tree.call("heads")[0] == 0 and tree.runs() == runs + 1)
    gate = tree.gate(slow="bec")
    time.sleep(1.5)
    tree.write("crates/low/src/lib.rt", "four", age=10 ** 6)
    gate.wait()
    note("changed while rt ci ran", tree.call("heads")[0] == 0 and tree.runs() == runs + 3)


def ended(tree, note):
    """A build that is ended leaves nothing behind, and the next one begins; one whose sources change is said to be of others."""
    for number in (signal.SIGINT, signal.SIGTERM, signal.SIGHUP):
        tree.write("crates/low/src/lib.rt", f"seven {number}")
        runs, alone = tree.runs(), tree.begin("heads", slow="low")
        tree.soon(lambda runs=runs: tree.runs() > runs)
        os.killpg(alone.pid, number)
        note(f"signal {number}: {alone.wait(60)}", alone.returncode != 0)
        note(f"signal {number} leaves something", tree.is_quiet())
    note("a build after that", tree.call("heads")[0] == 0 and tree.is_quiet())
    tree.write("crates/low/src/lib.rt", "nine")
    runs, waiting = tree.runs(), tree.begin("heads", slow="high")
    tree.soon(lambda: tree.runs() > runs)
    tree.write("crates/high/src/new.rt", "newest")
    said = waiting.communicate(timeout=60)[1]
    note(f"sources that change meanwhile: {waiting.returncode} {said}", waiting.returncode == 127 and "the sources have changed" in said)
    note("the next one", tree.call("heads")[0] == 0 and tree.is_quiet())


def side_by_side(tree, note):
    """Two builds at once do not disturb each other."""
    tree.write("crates/low/src/lib.rt", "six")
    both = [tree.begin("heads", slow="high"), tree.begin("heads", slow="high")]
    note(f"two at once: {[it.wait(60) for it in both]}", [it.returncode for it in both] == [0, 0] and tree.is_quiet())
    note("after both", tree.call("heads") == (0, "", ""))


def failing(tree, note):
    """What cannot be proved is said, and the program that stood there is not run."""
    tree.write("crates/bec/src/main.rt", "WRONG")
    status, out, said = tree.call("heads")
    note(f"a build that fails: {status} {said}", (status, out) == (127, "") and "rt: bec NOT PROVED" in said and "the build failed" in said)
    tree.write("crates/bec/src/main.rt", "right")
    note("mended", tree.call("heads")[0] == 0 and tree.is_quiet())


def tried(note):
    """Tries all, and has each that is not as it is to be noted."""
    with tempfile.TemporaryDirectory() as folder:
        tree = Tree(folder)
        for part in (built, gated, ended, side_by_side, failing):
            part(tree, note)


def main():
    bad = []
    tried(lambda what, good: None if good else (bad.append(what), print("wrong:", what)))
    print(f"{len(bad)} faults" if bad else "builds of all kinds: no fault")
    return bool(bad)


if __name__ == "__main__":
    sys.exit(main())
