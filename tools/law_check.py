#!/usr/bin/env python3
"""Checks one crate over kept work: python3 tools/law_check.py NAME [flags of rattle check]

In a copy of the repository that tools/types_alone.py has made. What the crate stands on is built first, several crates side
by side, with the statements of laws alone; sums of libraries are reckoned once. It uses the kit's own rtlib, and is no
part of the gate: `rt ci` proves all of it anew.
"""
import copy
import importlib.machinery
import importlib.util
import os
import shutil
import sys
import threading
import time

LIBRARY = "/opt/rattle/bin/rtlib.py"
AT_ONCE = 3


def kit():
    loader = importlib.machinery.SourceFileLoader("rtlib", LIBRARY)
    module = importlib.util.module_from_spec(importlib.util.spec_from_loader("rtlib", loader))
    sys.modules["rtlib"] = module
    loader.exec_module(module)
    return module


def once(function):
    """The function, whose answer for a crate is kept."""
    answers = {}

    def kept(crate):
        if crate.folder not in answers:
            answers[crate.folder] = function(crate)
        return answers[crate.folder]

    return kept


def all_below(crate):
    below = {}
    for library in crate.deps:
        for it in [*library.below(), library]:
            below.setdefault(it.folder, it)
    return list(below.values())


def build(rt, crate):
    """The library of a crate, with its statements: whether it was built."""
    crate = copy.copy(crate)
    os.makedirs(f"{crate.folder}/out", exist_ok=True)
    kept = f"{crate.folder}/out/rlib/stamp"
    shutil.rmtree(os.path.dirname(kept), ignore_errors=True)
    os.makedirs(os.path.dirname(kept))
    with open(f"{crate.folder}/out/lib.log", "w") as crate.out:
        words = crate.words(["--jobs", "1"], keeps=False)
        built = crate.call(rt.RATTLE, "build", *words, "--statements", "-o", crate.rlib) == 0
    if built:
        with open(kept, "w") as file:
            file.write(crate.stamp())
    return built


class Builds:
    """Crates that are built, each behind those that it stands on."""

    def __init__(self, rt, crates):
        self.rt, self.left = rt, list(crates)
        self.done, self.failed, self.running = set(), [], 0
        self.changed = threading.Condition()

    def one(self, crate):
        begun = time.time()
        is_new = not crate.is_built()
        built = build(self.rt, crate) if is_new else True
        with self.changed:
            self.running -= 1
            if built:
                self.done.add(crate.folder)
            else:
                self.failed.append(crate.name)
            if is_new:
                print(f"{crate.name}: {'built' if built else 'FAILED'}, {time.time() - begun:.0f}s", flush=True)
            self.changed.notify_all()

    def all(self):
        with self.changed:
            while self.left or self.running:
                ready = [it for it in self.left if all(below.folder in self.done for below in it.deps)]
                if ready and self.running < AT_ONCE:
                    self.left.remove(ready[0])
                    self.running += 1
                    threading.Thread(target=self.one, args=(ready[0],)).start()
                elif self.running:
                    self.changed.wait()
                else:
                    break
        return not self.failed and not self.left


def main():
    if len(sys.argv) < 2:
        sys.exit(__doc__)
    root = os.getcwd()
    folder = f"{root}/crates/{sys.argv[1]}"
    rt = kit()
    rt.guarded = lambda *words, **flags: []
    rt.Crate.stamp, rt.Crate.below = once(rt.Crate.stamp), once(all_below)
    os.chdir(folder)
    crate = rt.Crate(folder, root, {})
    if not Builds(rt, crate.below()).all():
        sys.exit(1)
    os.makedirs("out", exist_ok=True)
    flags = ["--jobs", "1", *sys.argv[2:]]
    sys.exit(crate.call(rt.RATTLE, "check", *crate.words(flags), *rt.KEPT))


if __name__ == "__main__":
    main()
