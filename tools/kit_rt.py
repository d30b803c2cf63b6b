"""The kit's rt as a module, for the tools of this folder."""
import functools
import importlib.machinery
import importlib.util
import os
import shutil
import sys
from pathlib import Path


def kit():
    """The file of the rt that is on the path."""
    file = shutil.which("rt")
    return os.path.realpath(file) if file else sys.exit("there is no rt on the path")


def folder():
    """The folder of the kit."""
    return Path(kit()).parents[1]


def load():
    """The kit's rt."""
    loader = importlib.machinery.SourceFileLoader("rt", kit())
    module = importlib.util.module_from_spec(importlib.util.spec_from_loader("rt", loader))
    sys.modules["rt"] = module
    loader.exec_module(module)
    return module


def crate(folder, top):
    """A crate of a repository as rt sees it. Its `stamp` is a sum of all that it is made from: its own files, the kit, and the crates below it, each summed once."""
    rtlib = load().rtlib
    rtlib.Crate.stamp = functools.cache(rtlib.Crate.stamp)
    return rtlib.Crate(os.path.abspath(folder), os.path.abspath(top), {})
