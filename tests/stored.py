"""Files that a script makes and the repository keeps: `keep` writes them, or, where the script was called with --check, holds them to
what it would write."""
import os
import sys


def keep(folder, files):
    """files: name to bytes, to be found in the folder. Ends the script where one is not what it would write."""
    check = sys.argv[1:] == ["--check"]
    if sys.argv[1:] and not check:
        sys.exit("usage: %s [--check]" % sys.argv[0])
    for name, content in files.items():
        path = os.path.join(folder, name)
        if not check:
            with open(path, "wb") as f:
                f.write(content)
            continue
        if not os.path.exists(path) or open(path, "rb").read() != content:
            sys.exit("%s is not what make writes" % os.path.relpath(path))


def keep_example(folder, answer, name="pitch", **more):
    """The folder of a program that is run on an example that README shows: stdin is the sheet of this name, of the pitch system where none is given, stdout the
    answer, a file of examples that has its name and this ending, and more are further files by their names."""
    examples = os.path.join(os.path.dirname(os.path.abspath(__file__)), "..", "examples")

    def example(ending):
        with open(os.path.join(examples, name + "." + ending), "rb") as file:
            return file.read()

    keep(folder, {"stdin": example("sheet"), "stdout": example(answer), **more})
