"""The crates of tests/crates, which are run and not proved, in a repository with the crates that they use."""
import filecmp
import os
import re
import shutil
import subprocess


def lines_of(path):
    """The lines of a crates.txt, without comments."""
    with open(path, encoding="utf-8") as it:
        return [line for line in (part.partition("#")[0].strip() for part in it) if line]


def name_of(line):
    return re.split(r"[ :]", line)[0]


def make_room(tree, room, listed):
    """A repository of the crates of `tree` and of those of tests/crates that a file lists; gives their names."""
    own, others = lines_of(f"{tree}/crates.txt"), lines_of(f"{tree}/{listed}")
    os.mkdir(f"{room}/crates")
    for line in own:
        name = name_of(line)
        os.mkdir(f"{room}/crates/{name}")
        for part in ("src", "specs", "proofs"):
            if os.path.isdir(f"{tree}/crates/{name}/{part}"):
                os.symlink(f"{tree}/crates/{name}/{part}", f"{room}/crates/{name}/{part}")
    for line in others:
        shutil.copytree(f"{tree}/tests/crates/{name_of(line)}", f"{room}/crates/{name_of(line)}")
    shutil.copy(f"{tree}/HANDLES", f"{room}/HANDLES")
    with open(f"{room}/crates.txt", "w", encoding="utf-8") as it:
        it.write("\n".join(own + others) + "\n")
    return [name_of(line) for line in others]


def files_below(folder):
    return sorted(os.path.relpath(f"{at}/{name}", folder) for at, _, names in os.walk(folder) for name in names)


def fault_of_layout(tree, room, name):
    """The first file of a crate of tests/crates that `rt fmt` would write otherwise, or None."""
    subprocess.run(["rt", "fmt"], cwd=f"{room}/crates/{name}", capture_output=True, check=False)
    for path in files_below(f"{tree}/tests/crates/{name}"):
        if not filecmp.cmp(f"{tree}/tests/crates/{name}/{path}", f"{room}/crates/{name}/{path}", shallow=False):
            return path
    return None


def lanes():
    """How many are built at a time."""
    return int(os.environ.get("LANES", os.cpu_count()))
