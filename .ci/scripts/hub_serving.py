"""Serving over readers and writers, some of which fail: no reply is written in place of the error."""
from scripts.hub_lines import connect
from scripts.probe import Talk, expect
from scripts.streams import ACCESS_NOTES, ACCESS_NOTES_REPLY, BREAKING, CREATE_D, CREATE_E, NULL, NULL_REPLY, calls_of, records_in, replies_of
from scripts.words import ROOT

# the numbers of ends
ENDED, INSIDE, BROKEN, MEMORY, TOO_MANY, READ, WRITE, TURNS = range(1, 9)

# more reads, writes or bytes than are ever made
ALWAYS = 1 << 40

CALLS = [
    (ROOT, "EXCHANGE_ID ^0 'own 0 0 0", "ok EXCHANGE_ID ok ^1 1 10000 0 ^0 'nfs41-lists 'nfs41-lists 0"),
    (ROOT, "CREATE_SESSION ^1 1 0 0 10000 10000 0 10 8 0 0 0 0 0 0 0 0 0 0", "ok CREATE_SESSION ok ^0 ^1 1 0 0 10000 10000 10000 10 8 0 0 0 0 0 0 0 0"),
    (ROOT, "$1.1 PUTROOTFH CREATE 2 'd 0 0", "ok =1.1 PUTROOTFH ok CREATE ok 1>2 0"),
    (ROOT, "$1.2 PUTROOTFH LOOKUP 'd GETFH", "ok =1.2 PUTROOTFH ok LOOKUP ok GETFH ok @2"),
    (ROOT, "$1.3 PUTROOTFH REMOVE 'e", "noent =1.3 PUTROOTFH ok REMOVE noent"),
]

# a call over the sample tree, and calls with sessions over a root alone: the house, the calls and the replies
RUNS = [("hub", NULL, NULL_REPLY), ("book ", b"".join(calls_of(CALLS)), b"".join(replies_of(CALLS)))]


class Serving:
    """How a stream is served: from second 70 on, each piece a second later."""

    def __init__(self, house="hub", turns=1_000_000, read=4096, reads=ALWAYS, written=1024, writes=ALWAYS, fails=False):
        self.house, self.turns, self.fails = house, turns, fails
        self.sizes = f"{read} {reads} {written} {writes}"

    def line(self, stream):
        return f"serve 70 1 {self.turns} {self.sizes} {'fails' if self.fails else 'stops'} {stream.hex()}"

    def see(self, talk, stream, end, written):
        """Sees serving end so with these bytes written, on a connection that is closed then; without a free one it is refused."""
        talk.begin(self.house)
        expect(talk, self.line(stream), f"{end} {written.hex()}")
        for _ in range(16):
            connect(talk)
        expect(talk, self.line(stream), f"{TOO_MANY} ")


def streams(program):
    """A call, a call before what breaks the connection, and more empty fragments than turns."""
    talk = Talk()
    Serving(turns=10).see(talk, ACCESS_NOTES, ENDED, ACCESS_NOTES_REPLY)
    Serving(turns=10).see(talk, NULL + BREAKING, BROKEN, NULL_REPLY)
    Serving(turns=199, read=1).see(talk, bytes(50 * 4), TURNS, b"")
    talk.run(program)
    return "3 streams"


def fronts(program):
    """Nothing is written where a stream ends inside a call, at every place."""
    talk = Talk()
    for length in range(len(ACCESS_NOTES)):
        Serving(turns=10).see(talk, ACCESS_NOTES[:length], INSIDE if length else ENDED, b"")
    talk.run(program)
    return f"{len(ACCESS_NOTES)} fronts"


def moments(program):
    """The moment of a call is the clock's, as its piece comes."""
    talk, stream = Talk(), CREATE_D + CREATE_E
    talk.begin("hub")
    served, tree = talk.ask(Serving(turns=10, read=len(CREATE_D)).line(stream)), talk.ask("tree 6")
    talk.see("the end", lambda: served.answer.split(" ")[0], lambda: str(ENDED))
    for number, second in ((4, 70), (5, 71)):
        talk.see(f"object {number}", lambda it=number: [line.split()[5] for line in tree.text().split("\n") if line.startswith(f"{it} dir")], lambda it=second: [f"times={it},{it}"])
    talk.run(program)
    return "2 pieces"


def see_reads(talk, house, calls, replies):
    """A reader fails after a number of reads of five bytes: the calls before that are answered."""
    for reads in range(len(calls) // 5 + 4):
        count = len(records_in(calls[:5 * reads]))
        end = READ if reads <= -(-len(calls) // 5) else ENDED
        Serving(house, read=5, reads=reads).see(talk, calls, end, b"".join(records_in(replies)[:count]))


def see_writes(talk, house, calls, replies):
    """A writer fails or takes nothing after a number of writes of three bytes: it has the front of the replies."""
    for writes in range(len(replies) // 3 + 3):
        end = WRITE if writes < -(-len(replies) // 3) else ENDED
        for fails in (False, True):
            Serving(house, written=3, writes=writes, fails=fails).see(talk, calls, end, replies[:3 * writes])


def failures(program):
    """Readers and writers fail, in the midst of a call and of a session's calls."""
    talk = Talk()
    for run in RUNS:
        see_reads(talk, *run)
        see_writes(talk, *run)
    talk.run(program)
    return f"{talk.lines.count('') + 1} places"
