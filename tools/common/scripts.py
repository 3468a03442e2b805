"""A script that has no ending, as a module: for those that test it, and for those that ask the same.

A script imports this by `sys.path.insert(0, ".../tools/common"); import scripts`.
"""
import importlib.machinery
import importlib.util
import pathlib
import sys
import types


def module(path: pathlib.Path) -> types.ModuleType:
    """Reads a script, of which nothing runs but what stands outside of its functions."""
    name = path.name.replace("-", "_")
    loader = importlib.machinery.SourceFileLoader(name, str(path))
    spec = importlib.util.spec_from_loader(name, loader)
    assert spec
    made = importlib.util.module_from_spec(spec)
    # Its dataclasses look for their module by its name.
    sys.modules[name] = made
    loader.exec_module(made)
    return made
