"""Scenes over a hub: records on a connection that come in pieces of several sizes."""
from scripts.probe import digits, expect_ok
from scripts.stages import RESULTS, Stage
from scripts.words import Unreadable, bytes_of, call_record, number_in, reply_record, split_word

# the pieces of a scene that names none: 1, 3, 7 and 100 bytes, and the whole
SIZES = "1 3 7 100 10000000"

# how a stream is served: at second 0, read in pieces of a size; nothing fails
SERVING = "0 0 10000000 {} 1000000000000 1000000000 1000000000000 stops"

# how a stream ends: the numbers that the probe answers where it is served, and the two where it is fed
ENDS = {"ended": ("1", "0 0"), "inside": ("2", "0 0"), "broken": ("3", "3 3")}


class Through:
    """A hub, and the talk on its next connection: all calls up to a look, as one stream in pieces of a size."""

    def __init__(self, talk, size):
        self.talk, self.size = talk, size
        self.calls, self.replies = [], []
        self.xid, self.end = 0, "ended"

    def call(self, way, row):
        if row.form != RESULTS or way.record or way.twice or way.sessions or way.turn:
            raise Unreadable(f"a hub's call has its results alone: {row.whole}")
        self.xid += 1
        self.calls.append(call_record(self.xid, row.who, row.call))
        self.replies.append(reply_record(self.xid, row.answer))

    def settle(self):
        """Sends the stream, on a connection of its own."""
        if self.calls:
            self.see(b"".join(self.calls), b"".join(self.replies))
            self.calls, self.replies = [], []
        elif self.replies:
            raise Unreadable("replies without calls")

    def see(self, stream, wanted):
        served = self.size.startswith("served-")
        size = number_in(self.size.removeprefix("served-"), 10)
        asked = self.talk.ask(f"{f'serve {SERVING.format(size)}' if served else f'feed {size}'} {stream.hex()}")
        what, end = f"in pieces of {self.size}, up to call {self.xid}", ENDS[self.end][0 if served else 1]
        self.talk.see(f"the end {what}", lambda: asked.answer.rpartition(" ")[0], lambda: end)
        self.talk.see(what, lambda: bytes.fromhex(asked.answer.rpartition(" ")[2]), lambda: wanted)

    def load(self, book):
        expect_ok(self.talk, "a book", f"load {digits(book)}")

    def other(self, text, number, line):
        """Does as a line says that is of a hub alone; whether it is one."""
        if line.word in ("sent", "given"):
            put = self.calls if line.word == "sent" else self.replies
            put.append(bytes_of(text.filled(line.alone(), number)))
        elif line.word == "ends":
            self.end = line.alone()
        return line.word in ("sent", "given", "ends", "pieces")


def over(text, words):
    """`sample`: a hub of the sample tree, without sessions. `root BOOK`: one of a root alone, with sessions."""
    what, book = split_word(words)
    return {"sample": "hub", "root": f"book {digits(text.book(book))}"}[what]


def in_pieces(text, talk, words, lines):
    """`hub WHAT`: plays a scene over a new hub for each size of a piece."""
    sizes = next((line.removeprefix("pieces ") for line in lines if line.startswith("pieces ")), SIZES)
    count = 0
    for size in sizes.split():
        talk.begin(over(text, words))
        count += Stage(text, talk, Through(talk, size)).play(lines)
    return count
