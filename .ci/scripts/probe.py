"""Lines for server_probe, its answers, and whether these are the expected ones."""
import os
import subprocess

# the most seconds that the probe may take
PATIENCE = 900

# two of the checks that `rt try` builds in are left out, which a quarter of the time would go into: that no memory of a
# function that returned is used, and that what is filled or copied as a whole has room
AROUND = {**os.environ, "ASAN_OPTIONS": "detect_stack_use_after_return=0:replace_intrin=0"}


class Difference(Exception):
    """An answer that isn't the wanted one."""


class Asked:
    """A line with an answer, which comes once all lines are sent."""

    def __init__(self, line):
        self.line = line
        self.answer = None

    def bytes(self):
        """The bytes of an answer in hexadecimal digits, of which garbage has none."""
        return b"" if self.answer == "garbage" else bytes.fromhex(self.answer)

    def text(self):
        """The text of these bytes, a letter a byte."""
        return self.bytes().decode("latin-1")

    def numbers(self):
        return [int(it) for it in self.answer.split()]


def shown(value, place):
    """What stands around a place of bytes or of a text, as a person reads it."""
    if isinstance(value, str):
        return repr(value[max(0, place - 40):place + 80])
    start = max(0, place // 4 * 4 - 32)
    return value[start:start + 96].hex(" ", 4) or "nothing"


def first_other(given, wanted):
    """The place of the first byte or letter that differs."""
    for place, (one, other) in enumerate(zip(given, wanted)):
        if one != other:
            return place
    return min(len(given), len(wanted))


def difference(what, given, wanted):
    if not isinstance(given, (bytes, str)):
        return Difference(f"{what}: {given}, and not {wanted}")
    place = first_other(given, wanted)
    return Difference(f"{what}: at {place}: {shown(given, place)}, and not {shown(wanted, place)}")


class Talk:
    """What is sent, and what has to come of it."""

    def __init__(self):
        self.lines, self.asked, self.checks = [], [], []
        # whether lines are sent; not where the probe says them again itself, once for each heap
        self.sends = True

    def begin(self, what):
        """Begins a block of lines, over a new server or hub."""
        self.lines += ["", what] if self.lines else [what]

    def tell(self, line):
        """A line without an answer."""
        if self.sends:
            self.lines.append(line)

    def ask(self, line):
        self.tell(line)
        return self.awaited(line)

    def awaited(self, what):
        """An answer without a line."""
        self.asked.append(Asked(what))
        return self.asked[-1]

    def see(self, what, given, wanted):
        """Has a function's value compared with another's, once all answers are there."""
        self.checks.append((what, given, wanted))

    def run(self, program):
        """Sends all lines, and compares."""
        sent = "".join(line + "\n" for line in self.lines)
        try:
            how = {"capture_output": True, "text": True, "env": AROUND, "timeout": PATIENCE, "check": False}
            ran = subprocess.run([program], input=sent, **how)
        except subprocess.TimeoutExpired as error:
            raise Difference(f"no end within {PATIENCE} seconds") from error
        answers = ran.stdout.split("\n")[:-1]
        for asked, answer in zip(self.asked, answers):
            asked.answer = answer
        if ran.returncode != 0 or len(answers) != len(self.asked):
            last = self.asked[len(answers)].line if len(answers) < len(self.asked) else "the end"
            raise Difference(f"the probe ended with {ran.returncode} at {last[:200]!r}: {ran.stderr.strip()}")
        for what, given, wanted in self.checks:
            one, other = given(), wanted()
            if one != other:
                raise difference(what, one, other)


def expect(talk, line, wanted):
    """Sends a line that has to be answered so."""
    asked = talk.ask(line)
    talk.see(line[:80], lambda: asked.answer, lambda: wanted)


def expect_ok(talk, what, line):
    """Sends a line that has to be answered `ok`."""
    asked = talk.ask(line)
    talk.see(what, lambda: asked.answer, lambda: "ok")


def digits(text):
    """The hexadecimal digits of a text."""
    return text.encode().hex()
