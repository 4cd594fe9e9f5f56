"""What the tests share: the package of this repository, its example files, and whether there is a library."""
import os
import sys
import unittest

TOP = os.path.dirname(os.path.dirname(os.path.dirname(os.path.abspath(__file__))))
sys.path.insert(0, os.path.join(TOP, "python", "src"))

from buckfleet import _library  # noqa: E402

needs_library = unittest.skipIf(_library.place() is None, _library.NONE)


def example(name: str) -> str:
    """The path of a file of examples/."""
    return os.path.join(TOP, "examples", name)


def read(path: str) -> bytes:
    with open(path, "rb") as file:
        return file.read()
