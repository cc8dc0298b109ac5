"""The kit's own Python, which stands beside `rt`: `rtlib()`, and `loaded("rt")`, which has the gate too."""
import importlib.machinery
import importlib.util
import os
import shutil
import sys


def loaded(file):
    """The kit's file as a module."""
    rt = shutil.which("rt") or sys.exit("rt isn't on the path")
    name, at = file.partition(".")[0], os.path.join(os.path.dirname(os.path.realpath(rt)), file)
    loader = importlib.machinery.SourceFileLoader(name, at)
    made = importlib.util.module_from_spec(importlib.util.spec_from_loader(name, loader))
    sys.modules[name] = made
    loader.exec_module(made)
    return made


def rtlib():
    """The kit's rtlib, with sums of texts that are made once."""
    made = loaded("rtlib.py")
    whole, sums = made.Crate.stamp, {}

    def stamp(crate):
        # The kit's own reads a library once for each way that leads to it.
        if crate.folder not in sums:
            sums[crate.folder] = whole(crate)
        return sums[crate.folder]

    made.Crate.stamp = stamp
    return made
