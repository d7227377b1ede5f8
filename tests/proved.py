"""The proved programs, where rt leaves what it builds."""
import os
import sys

CRATES = os.path.join(os.path.dirname(os.path.dirname(os.path.abspath(__file__))), "crates")


def program(name):
    """The path of a program, which has to be built."""
    path = os.path.join(CRATES, name, "out", name)
    if not os.path.exists(path):
        sys.exit("%s is not there: `rt run` in crates/%s proves and builds it, and so does `rt ci`" % (os.path.relpath(path), name))
    return path
