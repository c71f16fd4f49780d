"""The toolchain's command `rt` as a module, for the tools beside this file, and what an earlier `rt` lacks.

A later `rt` keeps what passed on the machine, shares it between copies of the repository, and proves crates by their names; an earlier one does none of
that. What the tools ask of it stands here. Where `rt` has no such thing, nothing is taken, kept or offered, and so all is proved.
"""

import contextlib
import hashlib
import importlib.machinery
import importlib.util
import inspect
import json
import os
import re
import shutil
import sys
import tempfile

sys.dont_write_bytecode = True
loader = importlib.machinery.SourceFileLoader("rt_itself", os.path.realpath(shutil.which("rt")))
rt = importlib.util.module_from_spec(importlib.util.spec_from_loader("rt_itself", loader))
sys.modules["rt_itself"] = rt
loader.exec_module(rt)
ROOT = os.path.dirname(os.path.dirname(os.path.realpath(__file__)))


def list_once():
    """Has what a crate stands on listed once from here on, and not again for each way that leads to it through crates.txt: there are two million ways."""
    listed, lists = rt.rtlib.Crate.below, {}
    rt.rtlib.Crate.below = lambda crate: [*(lists.get(crate.folder) or lists.setdefault(crate.folder, listed(crate)))]


class Sums:
    """Has each crate's sources summed once while a tool runs, and what it stands on listed once. The sources must not change meanwhile: changed() tells which
    did."""

    def __init__(self):
        self.plain, self.crates, self.sums = rt.rtlib.Crate.stamp, {}, {}
        rt.rtlib.Crate.stamp = lambda crate: self.sum(crate)
        list_once()

    def sum(self, crate):
        self.crates.setdefault(crate.folder, crate)
        return self.sums.get(crate.folder) or self.sums.setdefault(crate.folder, self.plain(crate))

    def changed(self):
        """Returns the names of the crates whose sources are not what they were when they were summed."""
        before, self.sums = self.sums, {}
        return [it.name for folder, it in self.crates.items() if os.path.isdir(folder) and it.stamp() != before[folder]]


# Sums once from here on.
sum_once = Sums


# What passed on this machine.


class KeepsNothing:
    """What an `rt` keeps of its runs that keeps nothing."""

    def __init__(self, crates):
        pass

    def key(self, crate):
        return ""

    def give(self, crate, of_tests, key):
        return False

    def is_built(self, crate):
        pass


KEEPS_RUNS = hasattr(rt, "Kept")
Kept = rt.Kept if KEEPS_RUNS else KeepsNothing
# (a crate's folder is locked as a whole by all)
in_turn = getattr(rt, "in_turn", contextlib.nullcontext)
share_work = getattr(rt, "share_work", lambda is_shared: None)
take_rlib = getattr(rt, "take_rlib", lambda crate: False)
offer = getattr(rt, "offer", lambda crate, stamp: None)


def kept_sum_of(name):
    """Returns the sum of the program of this name that `rt ci` made of this very text on this machine; nothing where it keeps none of it."""
    program = next(it for it in rt.rtlib.crates_below(ROOT) if it.name == name)
    rt.Crate.allowed, made = rt.handles_of(ROOT), None
    kept = rt.Kept([])
    for crate in sorted([*program.below(), program], key=lambda it: len(it.below())):
        try:
            with open(f"{kept.place(crate, False, kept.key(crate))}/made.json", encoding="utf-8") as it:
                made = [(path, sum) for path, sum in json.load(it)["files"]]
        except OSError:
            return None
        # (as the toolchain sums a library for those that stand on it)
        kept.rlibs[crate.name] = hashlib.sha256(repr(made).encode()).hexdigest()
    return dict(made).get(name)


# Edits that must be refused.

REFUSED, AT_LIMIT, MISSED, BAD = (getattr(rt, it, it) for it in ("REFUSED", "AT_LIMIT", "MISSED", "BAD"))
# What a check says that could not tell.
LIMITS = getattr(rt, "LIMITS", re.compile(r"(?m)^fn \S+: could not tell|^rattle: no verdict"))


def sums_of_edits(crate, edits):
    """Returns the sum of each edit with all that its verdict stands on."""
    if KEEPS_RUNS:
        stamp = rt.stamp_of(crate, {})
        return {it: rt.Kept.of_edit(None, it, stamp) for it in edits}
    found = {}
    for edit in edits:
        with open(edit, "rb") as it:
            found[edit] = hashlib.sha256(crate.stamp().encode() + it.read()).hexdigest()
    return found


def must_fail(crate, edit, flags, last, *kept):
    """Returns what becomes of an edit, one of those words or another where nothing is known, and what to say. `last` has, as `ran`, the check that was done."""
    last.ran = None
    kind, said = rt.must_fail(crate, edit, flags, *kept)
    if not isinstance(kind, bool):
        return kind, said
    # (an earlier `rt` answers whether the prover refuses it)
    if kind:
        return REFUSED, said
    if ": NOT REFUSED: " in said:
        return MISSED, said
    if last.ran and last.ran.returncode == 3 and LIMITS.search(last.ran.stdout):
        return AT_LIMIT, said
    return "killed" if last.ran and last.ran.returncode < 0 else BAD, said


# The gate.

TAKES_NAMES = bool(inspect.signature(rt.ci).parameters)


def ci(anew, names):
    """Does what `rt ci [--anew] NAME ..` does; an earlier `rt` proves all that it finds and nothing by name, so it is given a copy of these crates alone."""
    if TAKES_NAMES:
        return rt.ci(anew, names)
    if not names:
        return rt.ci()
    known = {it.name: it for it in rt.rtlib.crates_below(os.getcwd())}
    if unknown := {*names} - {*known}:
        rt.rtlib.stop(f"crates.txt names no crate {min(unknown)}")
    wanted, top = {below.name for it in names for below in [*known[it].below(), known[it]]}, os.getcwd()
    with tempfile.TemporaryDirectory(prefix="rt-ci-") as room:
        for it in wanted:
            shutil.copytree(known[it].folder, f"{room}/crates/{it}", ignore=shutil.ignore_patterns("out"))
        with open("crates.txt", encoding="utf-8") as lines, open(f"{room}/crates.txt", "w", encoding="utf-8") as out:
            out.writelines(it for it in lines if it.partition(":")[0] in wanted)
        if os.path.exists("HANDLES"):
            shutil.copy("HANDLES", room)
        os.chdir(room)
        try:
            return rt.ci()
        finally:
            os.chdir(top)


def main(words):
    """Does what `rt` does with these words, and `ci NAME ..` too where it is an earlier one."""
    if words[:1] == ["ci"]:
        return ci(True, [it for it in words[1:] if it != "--anew"])
    return rt.main(words)
