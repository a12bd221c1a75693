"""The scripts of tools/ whose names have no ending, as modules."""
import functools
import importlib.machinery
import importlib.util
from pathlib import Path


@functools.cache
def load(name):
    """tools/NAME, which has to do nothing where it isn't the program."""
    loader = importlib.machinery.SourceFileLoader(name.replace("-", "_"), str(Path(__file__).resolve().parent / name))
    module = importlib.util.module_from_spec(importlib.util.spec_from_loader(loader.name, loader))
    loader.exec_module(module)
    return module
