"""The lines of a scene, one after the other, over a server or a hub."""
from scripts.lines import lines_in
from scripts.looks import Looks
from scripts.words import Unreadable, number_in, split_word

# how an answer is written: the status and the results of operations; the status alone; all words; none, for garbage
RESULTS, STATUS, WORDS, GARBAGE = range(4)


class Row:
    """A call and its answer, both with all their words where a colon ends the caller's name."""

    def __init__(self, text, number, line):
        name = line.word.removesuffix(":")
        self.who, self.call = text.caller(name), text.filled(line.rest, number)
        if self.who is None:
            raise Unreadable(f"no such word: {line.whole}")
        if len(line.attached) != 1:
            raise Unreadable(f"a call has one answer: {line.whole}")
        sign, answer = split_word(line.attached[0])
        self.answer = text.filled(answer, number)
        self.form = self.form_of(sign, line.word.endswith(":"))
        self.whole = f"{name} {self.call}"

    def form_of(self, sign, is_whole):
        if (sign, is_whole, self.answer) == ("=", True, "garbage"):
            return GARBAGE
        forms = {("=", True): WORDS, ("=", False): RESULTS, ("~", False): STATUS}
        if (sign, is_whole) not in forms:
            raise Unreadable(f"no answer: {self.whole}")
        return forms[sign, is_whole]


class Turn:
    """The SEQUENCE on slot 0 before a call: session, number, highest slot, and whether the reply is to be cached."""

    def __init__(self, session, number, highest, keeps):
        self.session, self.number, self.highest, self.keeps = session, number, highest, keeps

    def next(self):
        return Turn(self.session, self.number + 1, self.highest, self.keeps)

    def call(self, operations):
        return f"SEQUENCE ^0 ^{self.session:x} {self.number:x} 0 {self.highest:x} {self.keeps:x} {operations}"

    def answer(self, answer):
        status, results = split_word(answer)
        slots = f"0 {self.highest:x} {self.highest:x} 0"
        return f"{status} SEQUENCE ok ^0 ^{self.session:x} {self.number:x} {slots} {results}"


class Way:
    """How the next calls are made."""

    def __init__(self):
        # the second of the last call, and the bytes of a call's record where they are more than those of its arguments
        self.second, self.record = 0, 0
        # whether sessions are in use, and whether each call is made once more, 1,000 seconds later
        self.sessions = self.twice = False
        # the SEQUENCE that is put before the next call
        self.turn = None

    def set(self, line):
        """Sets it as a line says; whether the line speaks of it."""
        words = {"at", "record", "sessions", "twice", "once", "after", "keeps", "direct"}
        if line.word in words:
            getattr(self, f"set_{line.word}")(*(number_in(it, 10) for it in line.alone().split()))
        return line.word in words

    def set_at(self, second):
        self.second = second - 1

    def set_record(self, length):
        self.record = length

    def set_sessions(self):
        self.sessions = True

    def set_twice(self):
        self.twice = True

    def set_once(self):
        self.twice = False

    def set_after(self, session, number, highest, keeps):
        self.turn = Turn(session, number, highest, keeps)

    def set_keeps(self, keeps):
        self.turn.keeps = keeps

    def set_direct(self):
        self.turn = None


class Stage:
    """A scene's lines over a house: a server or a hub, which takes calls, books, and lines of its own."""

    def __init__(self, text, talk, house):
        self.text, self.house = text, house
        self.way, self.looks = Way(), Looks(talk)
        self.number, self.count = 0, 0

    def play(self, lines):
        """Plays a scene, and gives the number of its calls."""
        self.play_lines(lines)
        self.house.settle()
        return self.count

    def play_lines(self, lines):
        for line in lines_in(lines):
            self.step(line)

    def step(self, line):
        steps = {"load": self.load, "play": self.play_table, "repeat": self.repeat}
        if line.word in steps:
            steps[line.word](line)
        elif self.house.other(self.text, self.number, line):
            self.count += line.word == "sent"
        elif not self.way.set(line) and not self.look(line):
            self.call(line)

    def look(self, line):
        if line.word in self.looks.WORDS:
            self.house.settle()
        return self.looks.look(line)

    def call(self, line):
        """A call, one second after the one before it."""
        row = Row(self.text, self.number, line)
        self.way.second += 1
        self.count += 1
        self.house.call(self.way, row)
        self.way.turn = self.way.turn and self.way.turn.next()

    def load(self, line):
        """`load NAME`: another book."""
        self.house.settle()
        self.house.load(self.text.book(line.alone()))

    def play_table(self, line):
        """`play NAME`: the lines of a table, the first call at second 1."""
        self.way.second = 0
        self.play_lines(self.text.table(line.alone()))

    def repeat(self, line):
        """`repeat FROM TO`: the lines up to `end`, for each number from one up to another."""
        first, last = (number_in(it, 10) for it in line.rest.split())
        for number in range(first, last):
            self.number = number
            self.play_lines(line.body)
