#!/usr/bin/env python3
"""Finds the program, and measures commands, for the scripts that run it."""
import os
import socket
import subprocess
import sys
import tempfile
import time

import signing

TOP = os.path.dirname(os.path.dirname(os.path.abspath(__file__)))
# (the launcher takes the same one)
PROGRAM = os.environ.get("BEC_PROGRAM") or os.path.join(TOP, "crates", "bec", "out", "bec")


def built():
    """The path of the program, which is proved and built before where that is not done."""
    subprocess.run([os.path.join(TOP, "bec"), "heads"], stdin=subprocess.DEVNULL, check=True)
    return PROGRAM


def held(store):
    """The updates of a store in the order in which they came, as the program exports them. The store has to open."""
    opened = subprocess.run([PROGRAM, "heads", store], stdin=subprocess.DEVNULL, stdout=subprocess.PIPE, check=False)
    exported = subprocess.run([PROGRAM, "export", store, "--updates"], stdin=subprocess.DEVNULL, stdout=subprocess.PIPE, check=False)
    assert (opened.returncode, exported.returncode) == (0, 0), (store, opened, exported.returncode)
    return signing.records_of(exported.stdout)


def free_port():
    """A port of this machine at which nobody waits now."""
    with socket.socket() as probe:
        probe.bind(("127.0.0.1", 0))
        return probe.getsockname()[1]


def is_awaited(port):
    """Whether somebody waits for connections at a port of this machine. None is made to find out."""
    for table in ("/proc/net/tcp", "/proc/net/tcp6"):
        if os.path.exists(table):
            with open(table, encoding="ascii") as file:
                if any(line.split()[1].endswith(f":{port:04X}") and line.split()[3] == "0A" for line in file.readlines()[1:]):
                    return True
    return False


def wait_for(port, process, seconds=60):
    """Waits until a process listens at a port, or has ended."""
    until = time.monotonic() + seconds
    while not is_awaited(port) and process.poll() is None:
        if time.monotonic() > until:
            raise TimeoutError(f"nobody listens at {port}")
        time.sleep(0.005)


def meeting(command, store, port, *words):
    """A process of `bec serve` or `bec sync` at this port."""
    return subprocess.Popen([PROGRAM, command, store, f"127.0.0.1:{port}", *words], stdin=subprocess.DEVNULL, stdout=subprocess.PIPE,
                            stderr=subprocess.DEVNULL, encoding="utf-8")


def serving(store, port, sessions):
    """A process of `bec serve` that waits for so many others."""
    process = meeting("serve", store, port, "--sessions", str(sessions))
    wait_for(port, process)
    return process


# Runs a command in a process that holds nothing: a child's peak memory begins with that of the process it is forked from.
RUNNER = """
import os, subprocess, sys, time
begun = time.perf_counter()
child = subprocess.Popen(sys.argv[1:])
_, status, usage = os.wait4(child.pid, 0)
taken = time.perf_counter() - begun
print(taken, usage.ru_utime + usage.ru_stime, usage.ru_maxrss, os.waitstatus_to_exitcode(status), file=sys.stderr)
"""


def measured(words, source, processor=False):
    """Seconds, or processor seconds, and peak kilobytes of a command that reads this file, and what it printed."""
    with open(source, "rb") as file, tempfile.TemporaryFile() as out:
        runner = subprocess.run([sys.executable, "-S", "-c", RUNNER, *words], stdin=file, stdout=out, stderr=subprocess.PIPE, check=True)
        seconds, taken, peak, status = runner.stderr.split()[-4:]
        out.seek(0)
        if int(status):
            sys.exit(f"{words[0]} ended with status {int(status)}")
        return float(taken if processor else seconds), int(peak), out.read()
