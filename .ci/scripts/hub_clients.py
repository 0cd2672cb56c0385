"""Sixteen connections of four clients, whose calls arrive in 2,000 pieces, beside one connection that gets the same calls complete, in the order of their last bytes."""
from scripts.hub_lines import MOST, close, connect
from scripts.probe import Difference, Talk, digits, expect
from scripts.streams import calls_of, records_in, replies_of
from scripts.words import ALICE, BOB, CAROL, ROOT, call_record

BOOK = """domain = 'example.org'
root_owner = 0
root_group = 0
root_mode = 511
[users]
[groups]
"""

CALLERS = (ROOT, ALICE, BOB, CAROL)
SERVER = "'nfs41-lists 'nfs41-lists 0"

# the calls by which the sessions 1 to 4 are created
OPENING = [
    (who, f"EXCHANGE_ID ^0 '{owner} 0 0 0", f"ok EXCHANGE_ID ok ^{client} 1 10000 0 ^0 {SERVER}")
    for client, (who, owner) in enumerate(zip(CALLERS, "abcd"), 1)
] + [
    (who, f"CREATE_SESSION ^{client} 1 0 0 1000 1000 0 10 4 0 0 0 0 0 0 0 0 0 0", f"ok CREATE_SESSION ok ^0 ^{client} 1 0 0 1000 1000 1000 10 4 0 0 0 0 0 0 0 0")
    for client, who in enumerate(CALLERS, 1)
]

# operations on a few names that all clients use
OPERATIONS = (
    "PUTROOTFH CREATE 2 'd +33 ( 1ff )",
    "PUTROOTFH OPEN 0 3 0 ^0 'o 1 0 0 0 0 'f WRITE anon ^0 0 'first GETATTR +3+4",
    "PUTROOTFH LOOKUP 'f READ anon ^0 40",
    "PUTROOTFH SAVEFH RENAME 'f 'g",
    "PUTROOTFH READDIR ^0 ^0 0 400 +1+4+11+33+36",
    "PUTROOTFH LOOKUP 'd CREATE 5 'text 'l 0 0",
    "PUTROOTFH REMOVE 'g",
    "PUTROOTFH OPEN 0 3 0 ^0 'o 1 0 +33 ( 1b6 ) 0 'h WRITE anon ^4 0 'second",
    "PUTROOTFH LOOKUP 'h SETATTR anon +12 ( 2 U:30:3:EVERYONE@ A:0:1f07ff:EVERYONE@ )",
    "PUTROOTFH LOOKUP 'h WRITE anon ^2 0 'third READ anon ^0 40",
    "PUTROOTFH LOOKUP 'h SAVEFH PUTROOTFH LINK 'g",
    "PUTROOTFH LOOKUP 'd REMOVE 'l",
    "PUTROOTFH SAVEFH LOOKUP 'd RENAME 'f 'l",
    "PUTROOTFH LOOKUP 'f SETATTR anon +33 ( 180 )",
    "PUTROOTFH REMOVE 'd",
    "PUTROOTFH LOOKUP 'g ACCESS 3f GETATTR +1+3+4+12+35",
)


def call(connection, number):
    """A call of a connection: four connections share a session, each with a slot of its own."""
    words = OPERATIONS[(7 * connection + 5 * number) % 16]
    sequence = f"SEQUENCE ^0 ^{connection % 4 + 1:x} {number:x} {connection // 4:x} 0 0"
    return call_record(number, CALLERS[connection % 4], f"{sequence} {words}")


class Sender:
    """The calls of a connection, 59 of them: how many bytes were sent, and where the first call begins whose last byte wasn't."""

    def __init__(self, connection):
        self.stream = b"".join(call(connection, number) for number in range(1, 60))
        self.sent = self.begun = 0

    def piece(self, length):
        """The next piece, of this length."""
        start = self.sent
        self.sent = min(start + length, len(self.stream))
        return self.stream[start:self.sent]

    def whole(self):
        """The call whose last byte was in the last piece, which is shorter than a call; nothing where there is none."""
        found = records_in(self.stream[self.begun:self.sent])[:1]
        self.begun += sum(map(len, found))
        return b"".join(found)


def schedule():
    """The connections and the lengths of 2,000 pieces, 1 to 71 bytes."""
    number = 1
    for _ in range(2000):
        number = (number * 1_664_525 + 1_013_904_223) % (1 << 32)
        yield number >> 28, (number >> 8) % 71 + 1


class Past:
    """What comes over a new hub, of 16 connections or of one alone."""

    def __init__(self, talk, is_one):
        self.talk, self.is_one, self.sent = talk, is_one, 0
        talk.begin(f"book {digits(BOOK)}")
        self.open()
        self.taken = [self.step(*it) for it in enumerate(self.pieces())]
        self.picture, self.counts = talk.ask("picture 1000"), talk.ask("counts")

    def open(self):
        """Creates the sessions on a connection of its own, and opens the others."""
        connect(self.talk)
        calls, replies = (b"".join(it(OPENING)).hex() for it in (calls_of, replies_of))
        expect(self.talk, f"exchange 0 0 {calls}", f"0 0 {replies}")
        close(self.talk, 0)
        for _ in range(1 if self.is_one else 16):
            connect(self.talk)

    def pieces(self):
        """The place of a connection and the bytes that come next: the pieces in turn, or the calls that are whole with each."""
        senders = [Sender(it) for it in range(16)]
        for connection, length in schedule():
            piece, whole = senders[connection].piece(length), senders[connection].whole()
            yield (1, whole) if self.is_one else (1 + connection, piece)

    def step(self, second, piece):
        """Sends bytes, and takes what is pending then."""
        place, content = piece
        self.sent += content != b""
        expect(self.talk, f"send {place} {second} {content.hex()}", "0")
        return self.talk.ask(f"take {place} {MOST}")


def clients(program):
    """A call is run when its last byte comes, whatever comes on other connections between its pieces."""
    talk = Talk()
    many, one = Past(talk, False), Past(talk, True)
    for second, (first, other) in enumerate(zip(many.taken, one.taken)):
        talk.see(f"at {second}", lambda it=first: it.answer, lambda it=other: it.answer)
    talk.see("the picture", many.picture.text, one.picture.text)
    talk.run(program)
    if one.sent <= 400 or many.counts.numbers()[0] == 0:
        raise Difference(f"{one.sent} calls, {many.counts.answer}")
    return f"2000 pieces, {one.sent} calls"
