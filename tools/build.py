#!/usr/bin/env python3
"""Proves and builds the program, crate by crate, as many side by side as there are processors and memory for.

What is built stays in crates/NAME/out, also when this is stopped: the next run goes on from there.
"""
import os
import subprocess
import sys
import tempfile

ROOT = os.path.dirname(os.path.dirname(os.path.abspath(__file__)))
PROGRAM = "asm_cli"
GIGABYTES_EACH = 4


def dependencies():
    """The crates of the repository, each with those that it stands on."""
    crates = {}
    with open(os.path.join(ROOT, "crates.txt"), encoding="utf-8") as lines:
        for line in lines:
            name, colon, others = line.split("#")[0].partition(":")
            if colon:
                crates[name.split()[0]] = others.split()
    return {name: [other for other in others if other in crates] for name, others in crates.items()}


def needed(crates, name, found):
    """The crates below one, each behind those that it stands on, and the one last."""
    if name not in found:
        for other in crates[name]:
            needed(crates, other, found)
        found.append(name)
    return found


def side_by_side():
    """How many builds go on at once."""
    memory = os.sysconf("SC_PAGE_SIZE") * os.sysconf("SC_PHYS_PAGES") // 2 ** 30
    return max(1, min(len(os.sched_getaffinity(0)), memory // GIGABYTES_EACH))


class Building:
    """One crate that is being built, and what its build says."""

    def __init__(self, name, words):
        self.name = name
        self.log = tempfile.TemporaryFile()
        folder = os.path.join(ROOT, "crates", name)
        self.process = subprocess.Popen(words, cwd=folder, stdout=self.log, stderr=subprocess.STDOUT)

    def fail(self):
        self.log.seek(0)
        sys.stderr.buffer.write(self.log.read())
        sys.stderr.write(f"asmeta: {self.name} was not built\n")


def wait_for_one(running):
    """Takes a build that has ended out of those that go on."""
    process, status = os.wait()
    ended = next(one for one in running if one.process.pid == process)
    ended.process.returncode = status
    running.remove(ended)
    return ended


def build(last):
    """Builds all libraries below the program, and then the program, which `last` runs once."""
    crates = dependencies()
    waiting = needed(crates, PROGRAM, [])
    total, begun, done, running = len(waiting), 0, set(), []
    while waiting or running:
        ready = [name for name in waiting if all(other in done for other in crates[name])]
        for name in ready[: side_by_side() - len(running)]:
            begun += 1
            print(f"asmeta: building {begun} of {total}: {name}", file=sys.stderr, flush=True)
            waiting.remove(name)
            running.append(Building(name, last if name == PROGRAM else ["rt", "lib"]))
        ended = wait_for_one(running)
        if ended.process.returncode != 0:
            ended.fail()
            for other in running:
                other.process.terminate()
            return 1
        done.add(ended.name)
    return 0


if __name__ == "__main__":
    try:
        sys.exit(build(["rt", "run", "--", *sys.argv[1:]]))
    except KeyboardInterrupt:
        sys.exit(1)
