"""The table of trials (crates/as5506/proofs/Trials.antt) in a throw-away copy of the definition, in which it can be changed."""
import os
import re
import shutil
import subprocess

CRATE = os.path.join(os.path.dirname(os.path.abspath(__file__)), "..", "..", "crates", "as5506")
# the proof that every trial passes, and all behind it
TABLE = re.compile(r"table-passes : T \(every trial_table\)\n(unfolding .*\n)table-passes = tt\n.*", re.S)


def read(*path):
    with open(os.path.join(*path), encoding="utf-8") as f:
        return f.read()


def write(text, *path):
    with open(os.path.join(*path), "w", encoding="utf-8") as f:
        f.write(text)


def trial_modules(name="Trials", found=None):
    """The modules of proofs/ that the table of trials needs, each after those that it needs."""
    found = [] if found is None else found
    for used in re.findall(r"^use Rattle\.as5506\.proofs\.(\w+)\.", read(CRATE, "proofs", name + ".antt"), re.M):
        if used not in found:
            trial_modules(used, found)
    found.append(name)
    return found


def copy_of(folder):
    """Where the copy of the crate is, in a folder that is a repository of its own."""
    return os.path.join(folder, "crates", "as5506")


def check(folder):
    """-> whether the crate in `folder` is proved, and what was printed. What is checked is kept in its out/, for copies of the folder."""
    run = subprocess.run(["rt", "check"], cwd=copy_of(folder), stdin=subprocess.DEVNULL, stdout=subprocess.PIPE, stderr=subprocess.STDOUT)
    return run.returncode == 0, run.stdout.decode("utf-8", "replace")


def copy_into(folder):
    """Makes a copy of the crate with its specs, the table of trials and no other proof."""
    copy = copy_of(folder)
    os.makedirs(copy)
    write("as5506:\n", folder, "crates.txt")
    shutil.copytree(os.path.join(CRATE, "src"), os.path.join(copy, "src"))
    shutil.copytree(os.path.join(CRATE, "specs"), os.path.join(copy, "specs"))
    os.makedirs(os.path.join(copy, "proofs"))
    modules = trial_modules()
    for name in modules:
        shutil.copy(os.path.join(CRATE, "proofs", name + ".antt"), os.path.join(copy, "proofs"))
    write("".join("pub mod %s\n" % name for name in modules), copy, "proofs", "Lib.antt")
