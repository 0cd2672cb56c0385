"""The lines of a text that is played, and what its lines define: names, tables, books."""
import os
import re

from scripts.words import ALICE, BOB, CAROL, ROOT, Unreadable, number_in, split_word

# what begins a line that goes on with the one before it
ATTACHED = ("|", "=", "~")

# what begins a line that gives a name to something
NAMING = ("caller", "let", "book", "table", "act")


def joined(content):
    """A text's lines: one that ends with a backslash goes on in the next, and spaces in front of a line don't count."""
    lines, begun = [], ""
    for line in content.split("\n"):
        line = begun + line.lstrip()
        begun = line[:-1] if line.endswith("\\") else ""
        if not line.endswith("\\"):
            lines.append(line)
    return lines


def up_to(lines, is_last):
    """The lines before the first of a kind, or all."""
    for place, line in enumerate(lines):
        if is_last(line):
            return lines[:place]
    return lines


def up_to_end(lines):
    return up_to(lines, lambda line: line == "end")


def up_to_name(lines):
    """The lines before the first that gives a name to something, or all."""
    return up_to(lines, lambda line: split_word(line)[0] in NAMING)


def barred(lines):
    """The text of the first lines that begin with a bar, each with a newline."""
    found = up_to(lines, lambda line: not line.startswith("|"))
    return "".join(line[1:].removeprefix(" ") + "\n" for line in found)


class Line:
    """A line of a scene with those that belong to it: the lines after it with a sign, and those of a `repeat`."""

    def __init__(self, line, after):
        self.whole = line
        self.word, self.rest = split_word(line)
        self.attached = up_to(after, lambda it: split_word(it)[0] not in ATTACHED)
        self.body = up_to_end(after) if self.word == "repeat" else []

    def length(self):
        return 1 + (len(self.body) + 1 if self.word == "repeat" else len(self.attached))

    def text(self):
        """The text after the line, which has nothing else after it."""
        if any(not it.startswith("|") for it in self.attached):
            raise Unreadable(f"an answer without a call: {self.whole}")
        return barred(self.attached)

    def alone(self):
        """The rest of the line, which has nothing after it."""
        if self.attached:
            raise Unreadable(f"a line that belongs to none: {self.attached[0]}")
        return self.rest


def lines_in(lines):
    """The lines of a scene without remarks, each with those that belong to it."""
    place = 0
    while place < len(lines):
        line = Line(lines[place], lines[place + 1:])
        if not line.word or line.word.startswith("#"):
            line.alone()
        else:
            yield line
        place += line.length()


class Text:
    """A text of scenes, and of names between them."""

    def __init__(self, path):
        self.name = os.path.basename(path)
        self.used = set()
        with open(path, encoding="utf-8") as it:
            self.lines = joined(it.read())

    def scenes(self):
        """Each scene's title and lines."""
        for place, line in enumerate(self.lines):
            if line.startswith("scene "):
                yield line.removeprefix("scene "), up_to(self.lines[place + 1:], lambda it: it.startswith("scene "))

    def names(self):
        """The word and the name of each line that names something, and other lines between scenes, which say nothing."""
        part = ""
        for line in self.lines:
            word, rest = split_word(line)
            if word == "scene" or word in NAMING:
                part = word
            if word in NAMING:
                yield word, split_word(rest)[0]
            elif part == "table" and line == "end":
                part = ""
            elif part not in ("scene", "table") and word not in ("", "scene", "|") and not word.startswith("#"):
                yield line, ""

    def see_that_all_is_used(self):
        for word, name in self.names():
            if (word, name) not in self.used:
                raise Unreadable(f"nothing uses {word} {name}")

    def after(self, word, name):
        """The rest of the first line that begins with a word and a name, and the lines after it; or None."""
        self.used.add((word, name))
        for place, line in enumerate(self.lines):
            first, rest = split_word(line)
            second, rest = split_word(rest)
            if (first, second) == (word, name):
                return rest, self.lines[place + 1:]
        return None

    def the_after(self, word, name):
        found = self.after(word, name)
        if found is None:
            raise Unreadable(f"no {word} {name}")
        return found

    def line(self, word, name):
        """The rest of the line that begins with a word and a name."""
        return self.the_after(word, name)[0]

    def table(self, name):
        return up_to_end(self.the_after("table", name)[1])

    def book(self, name):
        """The text of a book, or of one without names where there is none."""
        found = self.after("book", name)
        return barred(found[1]) if found else ""

    def caller(self, name):
        """A caller's uid, gid and further group; or None."""
        always = {"root": ROOT, "alice": ALICE, "bob": BOB, "carol": CAROL}
        if name in always or not self.after("caller", name):
            return always.get(name)
        uid, gid, group = (number_in(it, 10) for it in self.line("caller", name).split())
        return uid, gid, group

    def filled(self, line, number):
        """A line with {N}, {5N+2} and the like as hexadecimal numbers, and {NAME} as `let NAME TEXT` has it."""

        def fill(found):
            place = re.fullmatch(r"([0-9]*)N([+-][0-9]+)?", found[1])
            if not place:
                return self.line("let", found[1])
            return f"{int(place[1] or 1) * number + int(place[2] or 0):x}"

        return re.sub(r"\{([^{}]*)\}", fill, line)
