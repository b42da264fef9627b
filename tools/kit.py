"""The kit's rt as a module, in which each crate's sum and list of libraries is made once."""
import importlib.machinery
import importlib.util
import os
import shutil


def load():
    path = os.path.realpath(shutil.which("rt"))
    loader = importlib.machinery.SourceFileLoader("rt_of_the_kit", path)
    made = importlib.util.module_from_spec(importlib.util.spec_from_loader("rt_of_the_kit", loader))
    made.__file__ = path
    loader.exec_module(made)
    crate = made.rtlib.Crate
    crate.stamp, crate.below = once(crate.stamp), once(crate.below)
    return made


def once(method):
    known = {}

    def kept(self):
        if self.folder not in known:
            known[self.folder] = method(self)
        found = known[self.folder]
        return list(found) if isinstance(found, list) else found

    return kept
