"""The tour: scenes of steps as texts, and how one is played. README.md describes their lines."""
import glob
import os
import re
import time
from dataclasses import dataclass, field

HERE = os.path.dirname(os.path.abspath(__file__))
# how many lines of a trail are shown of a step
SHOWN = 12
STEP = re.compile(r"(root|alice|bob)(@second)?\$ (.*)")


@dataclass
class Step:
    """A command with who gives it and where, and what is expected of it; and what came."""

    place: str
    who: str
    second: bool
    command: str
    status: str = "0"
    said: list = field(default_factory=list)
    trail: list = field(default_factory=list)
    lacks: str = ""
    came: tuple = ()
    # by how many bytes the store grew where nothing was killed, and whether the server was killed in the midst of that
    growth: int = 0
    was_hit: bool = False

    def is_as_expected(self):
        status, said, trail = self.came
        return str(status) == self.status and fits(self.said, said) and fits(self.trail, trail)

    def shows_a_lack(self):
        return self.lacks != ""

    def is_refused(self):
        """Some list refused something in it."""
        return any(line.startswith("DENY") for line in self.trail)


@dataclass
class Scene:
    title: str
    # "memory" or "home", where the scene is for one of them alone
    over: str = ""
    # the lines of the server's book, where it has one
    book: list = field(default_factory=list)
    options: list = field(default_factory=list)
    steps: list = field(default_factory=list)
    seconds: float = 0
    # how often its server was killed beside it
    kills: int = 0


def fits(wanted, came):
    """Each line that came is the one that is wanted. In it * stands for any text, and a line ... for any lines."""
    if not wanted:
        return not came
    if wanted[0] == "...":
        return any(fits(wanted[1:], came[at:]) for at in range(len(came) + 1))
    return bool(came) and fits_line(wanted[0], came[0]) and fits(wanted[1:], came[1:])


def fits_line(wanted, came):
    return re.fullmatch(".*".join(map(re.escape, wanted.split("*"))), came) is not None


def read(path):
    """The scenes of a text."""
    scenes, lacks = [], ""
    with open(path, encoding="utf-8") as it:
        for number, line in enumerate(it.read().splitlines(), 1):
            found = STEP.match(line)
            word, _, rest = line.partition(" ")
            if word == "scene":
                scenes.append(Scene(rest))
            elif found:
                place = f"{os.path.basename(path)}:{number}"
                scenes[-1].steps.append(Step(place, found[1], bool(found[2]), found[3], lacks=lacks))
                lacks = ""
            elif word == "lacks":
                lacks = rest
            elif word == "over":
                scenes[-1].over = rest
            elif word == "book":
                scenes[-1].book.append(rest)
            elif word == "options":
                scenes[-1].options = rest.split()
            elif line.startswith("|"):
                scenes[-1].steps[-1].said.append(line[2:])
            elif word == ">":
                scenes[-1].steps[-1].command += f"\n{rest}"
            elif word == "=":
                scenes[-1].steps[-1].status = rest
            elif word == "!":
                scenes[-1].steps[-1].trail.append(rest)
            elif line and word != "#":
                raise SystemExit(f"mount: {path}:{number} isn't a line of a tour")
    return scenes


def texts(folder, names):
    """The paths of a folder's texts, in their order: those whose name begins with one of these words, or all."""
    paths = sorted(glob.glob(f"{HERE}/{folder}/*.txt"))
    return [it for it in paths if not names or os.path.basename(it).startswith(tuple(names))]


def written(step):
    """A step with what came of it, as a text of the tour has it."""
    status, said, trail = step.came
    lines = [f"{step.who}{'@second' * step.second}$ " + step.command.replace("\n", "\n> ")]
    lines += [f"| {line}" for line in said] + [f"! {line}" for line in trail[:SHOWN]] + ["! ..."] * (len(trail) > SHOWN)
    return "\n".join(lines + [f"= {status}"] * (status != 0))
