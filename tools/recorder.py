"""Builds the program histories, which makes histories of concurrent calls, without its proofs; what is kept of its sources is taken."""
import os

from unproved.build import Build
from unproved.crates import TOP, NotBuilt, Repository

__all__ = ["TOP", "NotBuilt", "program"]


def program():
    """Returns the path of the program."""
    return os.path.relpath(Build(Repository(TOP), "histories").make())
