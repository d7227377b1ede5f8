"""The Rust programs of tests/: `generate`, which makes sheets, and `oracle`, which has the original answer them."""
import os
import subprocess
import sys

import cases

TESTS = os.path.dirname(os.path.abspath(__file__))


def build():
    manifest = os.path.join(TESTS, "Cargo.toml")
    subprocess.run(["cargo", "build", "--manifest-path", manifest, "--release", "--offline", "--quiet"], check=True)


def run(program, *words, given=None, **more):
    return subprocess.run([os.path.join(TESTS, "target/release", program), *words], input=given, stdout=subprocess.PIPE, **more)


def output(program, *words, given=None):
    """What a program prints; the script ends where it does not end well."""
    ended = run(program, *words, given=given)
    if ended.returncode != 0:
        sys.exit("%s: %s %s ended with %d" % (sys.argv[0], program, " ".join(words), ended.returncode))
    return ended.stdout


def generated(first, count, *options):
    """(label, sheet, nothing) of the sheets of so many seeds."""
    return list(cases.read(output("generate", str(first), str(count), *options)))


def answered(some, *options):
    """The same cases with the original's texts; with none where it does not accept the sheet."""
    return list(cases.read(output("oracle", "--stream", *options, given=cases.stream(some))))


def lifted(some, *options):
    """The same cases with the texts of the copy of the original whose chains have no limit on their steps."""
    return answered(some, "--lifted", *options)
