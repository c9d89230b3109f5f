"""Gives a checkout the libraries that `rt ci` has kept: what checks/give.sh says."""

import os
import shutil
import sys
from importlib.machinery import SourceFileLoader
from importlib.util import module_from_spec, spec_from_loader


def load_rt():
    """The kit's `rt`, as a module."""
    loader = SourceFileLoader("rt", os.path.realpath(shutil.which("rt")))
    module = module_from_spec(spec_from_loader("rt", loader))
    loader.exec_module(module)
    return module


def give(kept, crate):
    """Gives the crate its library, and returns a word that says what came of it."""
    out, key = f"{crate.folder}/out/rlib", kept.key(crate)
    has_stood = crate.is_built()
    if not has_stood:
        if not os.path.isdir(kept.place(crate, False, key)):
            return "not kept"
        shutil.rmtree(out, ignore_errors=True)
        if not kept.give(crate, False, key):
            return "not kept"
        with open(f"{out}/stamp", "w", encoding="utf-8") as file:
            file.write(crate.stamp())
    kept.is_built(crate)
    return "stood already" if has_stood else "given"


def main(top):
    os.chdir(top)
    rt = load_rt()
    rt.Crate.allowed = rt.handles_of(top)
    crates = rt.crates_of(top)
    # until this ends, no other rt works in these folders
    rt.rtlib.lock(crates)
    kept, has = rt.Kept(crates), set()
    # what is damaged counts as not kept, and stays for `rt ci` to remove
    kept.drop = lambda path: None
    for crate in crates:
        # nothing stands on a program or on a static library
        if crate.is_program or crate.is_static:
            continue
        lacking = [below.name for below in crate.below() if below.name not in has]
        result = f"left, as it stands on {lacking[0]}" if lacking else give(kept, crate)
        if result in ("given", "stood already"):
            has.add(crate.name)
        print(f"{crate.name}: {result}", flush=True)
    return 0 if has else 1


if __name__ == "__main__":
    sys.exit(main(sys.argv[1]))
