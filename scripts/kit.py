"""The kit's own code. Its names are no promise: a caller has a way for a kit with other code."""
import os
import shutil
from importlib.machinery import SourceFileLoader
from types import ModuleType


def kit_module(file: str) -> ModuleType:
    """The Python code of a file that lies beside the command rt, or rt's own.

    Raises FileNotFoundError without rt or the file, and all that its code raises.
    """
    command = shutil.which("rt")
    if command is None:
        raise FileNotFoundError("no rt on the PATH")
    path = os.path.join(os.path.dirname(os.path.realpath(command)), file)
    found = ModuleType(file.removesuffix(".py"))
    found.__file__ = path
    SourceFileLoader(found.__name__, path).exec_module(found)
    return found
