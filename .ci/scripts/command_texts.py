"""The scenes of a text of commands or of scripts, its tables and books, and the places and repetitions in a line.

tests/commands/README.md describes the lines.
"""
import itertools
import re

from scripts.lines import up_to, up_to_end
from scripts.words import Unreadable, number_in, split_word

# the first words of lines that say what other lines mean
DEFINITIONS = ("", "let", "rows", "book", "each")


class Scene:
    """A scene of a text: what plays it, its lines, and what its rows fill in."""

    def __init__(self, text, title, lines):
        self.name = f"{text.name}: {title}"
        self.head = split_word(lines[0])
        self.lines = [line for line in lines[1:] if not is_definition(line)]
        self.fillings = list(fillings_of(text, lines))


def is_definition(line):
    return split_word(line)[0] in DEFINITIONS or line[0] in "#|"


def scenes_of(text):
    return [Scene(text, title, lines) for title, lines in text.scenes()]


def bars(lines):
    """The first lines that begin with a bar, without it."""
    return [line[1:] for line in up_to(lines, lambda line: not line.startswith("|"))]


def rows_of(text, name):
    """The rows of a table, each as its columns with their values."""
    columns, after = text.the_after("rows", name)
    names = [it.strip() for it in columns.split("|")]
    return [dict(zip(names, (it.strip() for it in row.split("|")))) for row in bars(after)]


def names_of(text, word):
    """The names that lines with this first word define."""
    return [split_word(split_word(line)[1])[0] for line in text.lines if split_word(line)[0] == word]


def books_of(text):
    """The books of a text by their names."""
    found = {name: bars(text.the_after("book", name)[1]) for name in names_of(text, "book")}
    return {name: "".join(line_of_book(row) for row in rows) for name, rows in found.items()}


def line_of_book(row):
    return row[2:] if row.startswith("- ") else row.removeprefix(" ") + "\n"


def fillings_of(text, scene):
    """What a scene's places are filled in with, for each row of its first table and each of its second."""
    lets = {name: text.line("let", name) for name in names_of(text, "let")}
    tables = [rows_of(text, split_word(line)[1]) for line in scene if line.startswith("each ")]
    for rows in itertools.product(*tables):
        filling = {**lets, "N": "0"}
        for row in reversed(rows):
            filling.update(row)
        yield filling


def repeated(line):
    """A line with each <FROM TO TEXT> written out: '?' is the letter of a number, 'A' of 0, and '#' the number."""

    def each(found):
        numbers = range(number_in(found[1], 10), number_in(found[2], 10))
        return "".join(found[3].replace("?", chr(65 + number)).replace("#", str(number)) for number in numbers)

    out = re.sub(r"<(\S+) (\S+) ([^>]*)>", each, line)
    if "<" in out:
        raise Unreadable(f"no repetition: {line}")
    return out


def written(line, filling):
    """A line with its places filled in, and its repetitions written out."""

    def value(found):
        if found[1] not in filling:
            raise Unreadable(f"nothing stands for {found[1]}")
        return filling[found[1]]

    return repeated(re.sub(r"\{([^}]*)\}", value, line))


def escaped(text):
    r"""The bytes of a text, in which \n is a newline, and \xHH the byte with these hexadecimal digits."""

    def byte(found):
        return "\n" if found[1] == "n" else chr(number_in(found[1][1:]))

    if re.search(r"\\(?!n|x[0-9a-fA-F]{2})", text):
        raise Unreadable(f"no byte: {text}")
    return re.sub(r"\\(n|x..)", byte, text).encode("latin-1")


def spread(lines, filling):
    """The lines of a script with what fills them in: those from `repeat` to `end` once for each of the numbers."""
    place = 0
    while place < len(lines):
        word, numbers = split_word(lines[place])
        if word == "repeat":
            body = up_to_end(lines[place + 1 :])
            yield from ((line, {**filling, "N": str(number)}) for number in numbers_of(numbers) for line in body)
            place += len(body) + 2
        else:
            yield lines[place], filling
            place += 1


def numbers_of(spelled):
    """The numbers of FROM..TO, or of a list."""
    if ".." in spelled:
        return range(*(number_in(it, 10) for it in spelled.split("..")))
    return [number_in(it, 10) for it in spelled.split()]
