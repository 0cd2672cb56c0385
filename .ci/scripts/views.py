"""Scenes of two worlds that differ in a part that is hidden from bob: his calls get equal answers in both."""
from scripts.lines import lines_in
from scripts.probe import digits, expect_ok
from scripts.servers import Direct, ask_call
from scripts.stages import Stage
from scripts.words import BOB, ROOT, Unreadable, bytes_of, call_of, number_in, split_word

# all bits, for everyone
ALL = "A:0:1f07ff:EVERYONE@"

# how client 1 of bob and its session 1 come
SESSION = ("EXCHANGE_ID ^0 'own 0 0 0", "CREATE_SESSION ^1 1 0 0 10000 10000 0 10 8 0 0 0 0 0 0 0 0 0 0")

# the second of bob's calls
ASKED = 100


class Making:
    """How worlds are made: over the sample tree or a root alone, with sessions or without, and by a book."""

    def __init__(self, text, talk, tree, sessions, book):
        self.text, self.talk, self.sessions = text, talk, sessions
        self.over = {"sample": "sample", "root": f"root {ALL}"}[tree]
        self.book = text.book(book)

    def perform(self, sessions, who, second, call):
        """Makes a call, which is OK."""
        asked = ask_call(self.talk, sessions, who, second, call_of(call))
        self.talk.see(call, lambda: asked.bytes()[:4], lambda: bytes(4))

    def act(self, name):
        """An act of this name, `act NAME CALLER SECOND CALL`."""
        caller, rest = split_word(self.text.line("act", name))
        second, call = split_word(rest)
        self.perform(False, self.text.caller(caller), number_in(second, 10), call)

    def make(self, acts):
        """Makes a world by acts, whose names stand there with spaces between them."""
        self.talk.begin(self.over)
        expect_ok(self.talk, "a book", f"load {digits(self.book)}")
        for name in acts.split():
            self.act(name)

    def answer(self, acts, who, call):
        """Asks in a world of these acts: the answer, and after it the lines of the trail."""
        self.make(acts)
        for it in SESSION if self.sessions else ():
            self.perform(True, BOB, ASKED, it)
        asked = ask_call(self.talk, self.sessions, who, ASKED, call_of(call))
        trail = self.talk.ask("trail")
        return lambda: asked.bytes() + trail.bytes()


class Pair:
    """Two worlds by their acts, and a call of root whose answers differ: `pair NAME / ACTS / ACTS / CALL`."""

    def __init__(self, line):
        self.name, *self.worlds, self.call = line.removeprefix("pair ").split(" / ")
        if len(self.worlds) != 2:
            raise Unreadable(f"no pair: {line}")

    def answers(self, making, who, call, status):
        """The answers in both worlds, of which the first has this status, or any."""
        first, second = (making.answer(acts, who, call) for acts in self.worlds)
        if status != "any":
            making.talk.see(f"{self.name}: {call}", lambda: first()[:4], lambda: bytes_of(status))
        return first, second

    def see_equal(self, making, status, call):
        """Sees that bob's call is answered alike in both worlds."""
        making.talk.see(f"{self.name}, first world and second: {call}", *self.answers(making, BOB, call, status))

    def see_different(self, making, who, call, status):
        """Sees that a call is answered otherwise in the second world."""
        first, second = self.answers(making, who, call, status)
        making.talk.see(f"{self.name}: whether the worlds are equal", lambda: first() == second(), lambda: False)


def lines_of(text, table):
    return [line for line in text.table(table) if line and not line.startswith("#")]


def see_pairs(making, pairs, asks):
    """`pairs TABLE TABLE`: root's call tells the worlds of each pair apart, and bob's calls, `STATUS CALL`, don't."""
    for pair in pairs:
        if not making.sessions:
            pair.see_different(making, ROOT, pair.call, "ok")
        for line in asks:
            pair.see_equal(making, *split_word(line))
    return len(pairs) * len(asks)


def see_differ(making, pairs, call):
    """`differs TABLE CALL`: bob's call is answered otherwise in the two worlds of each pair."""
    for pair in pairs:
        pair.see_different(making, BOB, call, "any")
    return len(pairs)


def play_views(text, talk, words, lines):
    """`views sample|root sessions|none BOOK`: sees a scene's pairs of worlds, and gives the number of bob's calls."""
    tree, sessions, book = words.split(" ", 2)
    making, count = Making(text, talk, tree, {"sessions": True, "none": False}[sessions], book), 0
    for line in lines_in(lines):
        table, rest = split_word(line.alone())
        pairs = [Pair(it) for it in lines_of(text, table)]
        if line.word == "pairs":
            count += see_pairs(making, pairs, lines_of(text, rest))
        elif line.word == "differs":
            count += see_differ(making, pairs, rest)
        else:
            raise Unreadable(f"no such word: {line.whole}")
    return count


def play_world(text, talk, words, lines):
    """`world sample|root BOOK ACTS`: plays the lines of a scene in a world of these acts."""
    tree, rest = split_word(words)
    book, acts = split_word(rest)
    Making(text, talk, tree, False, book).make(acts)
    return Stage(text, talk, Direct(talk)).play(lines)
