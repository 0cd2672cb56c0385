"""Scenes over a server: calls that it answers one by one."""
from scripts.probe import digits, expect_ok
from scripts.stages import GARBAGE, RESULTS, STATUS, Stage
from scripts.words import Unreadable, answer_of, bytes_of, call_of, number_in, split_word

# a repeat comes so many seconds after its call
LATER = 1000


def ask_call(talk, sessions, who, second, arguments, record=0):
    """Sends the arguments of a call by a caller at a second, in a record of at least as many bytes as are given."""
    words = [*who, second, record, arguments.hex()]
    return talk.ask(" ".join(map(str, ["session" if sessions else "call", *words])))


def arguments_of(row):
    return call_of(row.call) if row.form in (RESULTS, STATUS) else bytes_of(row.call)


def wanted_of(row):
    return answer_of(row.answer) if row.form == RESULTS else b"" if row.form == GARBAGE else bytes_of(row.answer)


class Direct:
    """A server that is asked directly."""

    def __init__(self, talk):
        self.talk = talk

    def settle(self):
        pass

    def load(self, book):
        expect_ok(self.talk, "a book", f"load {digits(book)}")

    def other(self, _text, _number, line):
        """Lines that grow the tree were sent before."""
        return line.word in GROWING and line.alone() is not None

    def call(self, way, row):
        if way.turn:
            self.see_turn(way, row)
            return
        self.see_call(way, way.second, row)
        if way.twice:
            self.see_call(way, way.second + LATER, row)

    def see_call(self, way, second, row):
        asked = ask_call(self.talk, way.sessions, row.who, second, arguments_of(row), way.record)
        wanted = wanted_of(row)
        what = f"at {second}: {row.whole}"
        if row.form == STATUS:
            self.talk.see(what, lambda: asked.bytes()[:4], lambda: wanted)
        else:
            self.talk.see(what, asked.bytes, lambda: wanted)

    def see_turn(self, way, row):
        """Sees a call after a SEQUENCE, and its repeat."""
        if row.form != RESULTS or way.record or way.twice:
            raise Unreadable(f"a call after SEQUENCE has its results alone: {row.whole}")
        arguments, wanted = call_of(way.turn.call(row.call)), answer_of(way.turn.answer(row.answer))
        for second in (way.second, way.second + LATER):
            asked = ask_call(self.talk, True, row.who, second, arguments)
            self.talk.see(f"after SEQUENCE at {second}: {row.whole}", asked.bytes, lambda: wanted)


def add(directory, name, kind, *entries):
    """`add DIRECTORY NAME KIND LIST`"""
    return [f"add {directory} {digits(name)} {kind} {' '.join(entries)}"]


def short_name(number):
    """A name of two bytes for each number."""
    return number.to_bytes(2, "big").hex()


def fill(directory, count):
    """`fill DIRECTORY COUNT`: that many files, whose names are two bytes."""
    return [f"add {directory} {short_name(number)} file " for number in range(number_in(count, 10))]


def name(called, number):
    """`name NAME NUMBER`: a link has one more name in the root."""
    return [f"name {digits(called)} {number}"]


def often(number, count):
    """`often NUMBER COUNT`: a link has that many more names in the root."""
    return [f"name {short_name(it)} {number}" for it in range(number_in(count, 10))]


def set_list(called, *entries):
    """`set NAME LIST`: the list of the object that has a name in the root."""
    return [f"set {digits(called)} {' '.join(entries)}"]


GROWING = {"add": add, "fill": fill, "name": name, "often": often, "set": set_list}


def grow(talk, lines):
    """Adds to a tree what a scene's lines say."""
    for line in lines:
        word, rest = split_word(line)
        for it in GROWING[word](*rest.split()) if word in GROWING else ():
            talk.tell(it)


def on_sample(text, talk, _words, lines):
    """`sample`: over the sample tree."""
    talk.begin("sample")
    return Stage(text, talk, Direct(talk)).play(lines)


def on_root(text, talk, words, lines):
    """`root LIST`: over a root with this list, and what the scene's lines add to it."""
    talk.begin(f"root {words}")
    grow(talk, lines)
    return Stage(text, talk, Direct(talk)).play(lines)
