"""Each growth fails: runs of calls over hubs in heaps of every size in turn. Each call is answered as with ample memory, up to the first whose last operation is
answered DELAY, or that breaks the connection because an allocation failed."""
from collections import Counter

from scripts.heaps import PAGE, first_size, in_heaps, least_size, steps
from scripts.hub_lines import MOST, connect
from scripts.probe import Difference, Talk, expect
from scripts.streams import ACCESS_NOTES, ACCESS_NOTES_REPLY, DELAY, calls_of, replies_of, word_at
from scripts.words import ALICE, BOB, OPERATIONS, ROOT, numbers

OWNER = (ROOT, "EXCHANGE_ID ^0 'own 0 0 0", "ok EXCHANGE_ID ok ^1 1 10000 0 ^0 'nfs41-lists 'nfs41-lists 0")
SESSION = (
    ROOT, "CREATE_SESSION ^1 1 0 0 1000 1000 0 10 8 0 0 0 0 0 0 0 0 0 0", "ok CREATE_SESSION ok ^0 ^1 1 0 0 1000 1000 1000 10 8 0 0 0 0 0 0 0 0",
)

# calls of a session of 8 slots with calls and replies of 4,096 bytes; each of the operations that may be delayed is among them; a call is repeated, and a reply is too big
ROWS = [
    OWNER,
    SESSION,
    (
        ROOT, "$1.1 PUTROOTFH CREATE 2 'd 0 0 SETATTR anon +12 ( 3 A:3:40027:OWNER@ A:0:2:1002 U:20:1:EVERYONE@ ) SETATTR anon +33 ( 1a0 ) GETATTR +12+33",
        "ok =1.1 PUTROOTFH ok CREATE ok 1>2 0 SETATTR ok +12 SETATTR ok +33 GETATTR ok +12+33"
        " ( 8 A:0:1e01c7:OWNER@ D:0:20:OWNER@ A:b:40027:OWNER@ A:0:0:1002 U:20:1:EVERYONE@ A:0:1:GROUP@ D:0:66:GROUP@ A:0:120080:EVERYONE@ 1a0 )",
    ),
    (
        ROOT, "$1.2 PUTROOTFH OPEN 0 2 0 ^0 'o 1 0 0 0 0 'a WRITE 1 0 0 1 ^0 0 'hi SAVEFH PUTROOTFH LINK 'b",
        "ok =1.2 PUTROOTFH ok OPEN ok 1 0 0 1 2>5 0 0 0 WRITE ok 2 2 0 0 SAVEFH ok PUTROOTFH ok LINK ok 5>7",
    ),
    (ROOT, "$1.3 PUTROOTFH SAVEFH RENAME 'b 'c", "ok =1.3 PUTROOTFH ok SAVEFH ok RENAME ok 7>8 7>8"),
    (ROOT, "$1.3 PUTROOTFH SAVEFH RENAME 'b 'c", "ok =1.3 PUTROOTFH ok SAVEFH ok RENAME ok 7>8 7>8"),
    (ROOT, "$1.4 PUTROOTFH CREATE 5 ~400 'l 0 0 GETFH", "ok =1.4 PUTROOTFH ok CREATE ok 8>9 0 GETFH ok @4"),
    (ROOT, "$1.5 PUTFH @3 SETATTR anon +12 ( 3b *3a A:0:1f07ff:EVERYONE@ )", "ok =1.5 PUTFH ok SETATTR ok +12"),
    (ROOT, "$1.6 PUTFH @3 VERIFY +12 ( 3b *3a A:0:1f07ff:EVERYONE@ ) NVERIFY +33 ( 0 )", "ok =1.6 PUTFH ok VERIFY ok NVERIFY ok"),
    (
        ROOT, "$1.7 PUTFH @3 READ anon ^0 10 PUTROOTFH READDIR ^0 ^0 0 400 +1",
        "ok =1.7 PUTFH ok READ ok 1 'hi PUTROOTFH ok READDIR ok ^0 1 ^3 'd +1 ( 2 ) 1 ^4 'a +1 ( 1 ) 1 ^6 'c +1 ( 1 ) 1 ^7 'l +1 ( 5 ) 0 1",
    ),
    (ROOT, "$1.8 PUTFH @3 WRITE anon ^0 0 ~e88", "ok =1.8 PUTFH ok WRITE ok e88 2 0 0"),
    (
        ROOT, "SEQUENCE ^0 ^1 9 0 0 1 PUTFH @3 READ anon ^0 e88 PUTROOTFH REMOVE 'c",
        "reptoobigtocache =1.9 PUTFH ok READ ok 1 ~e88 PUTROOTFH ok REMOVE reptoobigtocache",
    ),
    (BOB, "$1.a PUTFH @2 LOOKUP 'none", "access =1.a PUTFH ok LOOKUP access"),
    (ROOT, "$1.b PUTROOTFH REMOVE 'c PUTFH @3 CLOSE 0 1 0 0 1", "ok =1.b PUTROOTFH ok REMOVE ok 9>c PUTFH ok CLOSE ok closed"),
    (ROOT, "$1.c PUTROOTFH REMOVE 'x", "noent =1.c PUTROOTFH ok REMOVE noent"),
    (ALICE, "EXCHANGE_ID ^0 'other 0 0 0", "ok EXCHANGE_ID ok ^2 1 10000 0 ^0 'nfs41-lists 'nfs41-lists 0"),
    (ROOT, "CREATE_SESSION ^1 2 0 0 1000 1000 0 10 8 0 0 0 0 0 0 0 0 0 0", "ok CREATE_SESSION ok ^0 ^2 2 0 0 1000 1000 1000 10 8 0 0 0 0 0 0 0 0"),
    (ROOT, "DESTROY_SESSION ^0 ^2", "ok DESTROY_SESSION ok"),
]

# the operations that may be delayed
DELAYED = {OPERATIONS[it] for it in "CREATE LINK NVERIFY OPEN RENAME SETATTR VERIFY WRITE EXCHANGE_ID CREATE_SESSION".split()}

# the places of the status in a reply's record and of its first result, and that of the count of operations in a call's record: after its mark, header, tag and minor version
STATUS, RESULTS, COUNT = 28, 40, 76


def front_of(call, count):
    """A call of the first of its operations."""
    return call[:COUNT] + numbers(count) + call[COUNT + 4:] if call else call


def is_delayed(reply, wanted):
    """Whether a reply is the wanted one up to its last result, which is that of an operation that is delayed. The result of SETATTR has one word more."""
    tail = 8 if reply.endswith(DELAY) else 12
    last = len(reply) - tail
    if last < RESULTS or reply[STATUS:STATUS + 4] != DELAY or reply[last + 4:last + 8] != DELAY or reply[RESULTS:last] != wanted[RESULTS:last]:
        return False
    operation = word_at(reply, last)
    return operation in DELAYED and (operation == OPERATIONS["SETATTR"]) == (tail == 12) and wanted[last:last + 4] == numbers(operation)


class Run:
    """Calls that are made in turn on a connection of a hub, and their replies as they are with ample memory."""

    def __init__(self, house, calls, replies):
        self.house, self.calls, self.replies = house, calls, replies

    def ask(self, talk):
        """Makes the calls up to the first that isn't answered so, and then loads a book: pictures before it and after it."""
        return Asked(talk, self)

    def wanted_picture(self, talk, ran):
        """The picture that is left with ample memory by that many calls, and that many operations of the next."""
        count, operations = ran
        talk.begin(f"{self.house} ")
        connect(talk)
        for call in self.calls[:count]:
            expect(talk, f"send 0 0 {call.hex()}", "0")
        for call in self.calls[count:count + 1]:
            expect(talk, f"send 0 0 {front_of(call, operations).hex()}", "0")
        return talk.ask("picture 24")


class Asked:
    """What is asked of a hub for a run."""

    def __init__(self, talk, run):
        self.run = run
        self.opened = talk.ask("connect")
        talk.tell("go 0")
        self.exchanges = [self.exchange(talk, *it) for it in zip(run.calls, run.replies)]
        talk.tell("on")
        self.picture, self.loaded, self.again = talk.ask("picture 24"), talk.ask("load "), talk.ask("picture 24")

    @staticmethod
    def exchange(talk, call, reply):
        asked = talk.ask(f"exchange 0 0 {call.hex()}")
        talk.tell(f"go 0 0 {reply.hex()}")
        return asked

    def end(self):
        """How the run ended: the word for it, and how many calls and operations of the next one were run. A connection that breaks has no reply, and stays broken."""
        if self.opened.answer != "0":
            return "refused", (0, 0)
        for place, (asked, wanted) in enumerate(zip(self.exchanges, self.run.replies)):
            faults, _, given = asked.answer.rpartition(" ")
            reply = bytes.fromhex(given)
            if faults == "4 3" and not reply:
                return "broken", (place, 0)
            if faults == "0 0" and is_delayed(reply, wanted):
                return "delayed", (place, word_at(reply, RESULTS - 4) - 1)
            if (faults, reply) != ("0 0", wanted):
                raise Difference(f"call {place}: {asked.answer}")
        return "answered", (len(self.exchanges), 0)

    def see_pictures(self, wanted, size):
        """Sees that the run leaves what it leaves with ample memory, and that a book is loaded and changes nothing."""
        if self.picture.answer != wanted.answer:
            raise Difference(f"a heap of {size}: the picture after {self.end()}: {self.picture.text()}, and not {wanted.text()}")
        if (self.loaded.answer, self.again.answer) != ("ok", self.picture.answer):
            raise Difference(f"a heap of {size}: a book changes the picture")


def end_in(heap):
    try:
        return heap.asked.end() if heap.has_house() else ("none", (0, 0))
    except Difference as error:
        raise Difference(f"a heap of {heap.size}: {error}") from error


def see_ends(program, run, heaps):
    """Counts the ends of a run in heaps, and sees the pictures that it leaves."""
    ends, talk = [(heap, *end_in(heap)) for heap in heaps], Talk()
    wanted = {ran: run.wanted_picture(talk, ran) for ran in sorted({ran for _, _, ran in ends})}
    talk.run(program)
    for heap, end, ran in ends:
        if end != "none":
            heap.asked.see_pictures(wanted[ran], heap.size)
    return Counter(end for _, end, _ in ends)


def counted(counts, *needed, none=()):
    """The counts as text, where there have to be some of each that is needed."""
    if any(counts[it] == 0 for it in needed) or any(counts[it] for it in none):
        raise Difference(f"the ends are {dict(counts)}")
    return ", ".join(f"{counts[it]} {it}" for it in sorted(counts))


def sessions(program):
    """Over heaps that have no session; over heaps that have one, 48 bytes apart, and 1,024 bytes apart; and over an ample one."""
    run, counts = Run("book", calls_of(ROWS), replies_of(ROWS)), Counter()
    least = least_size(program, "book")
    ready = first_size(program, "book", run.ask, least, lambda heap: end_in(heap)[1][0] >= 2)
    for sizes in (steps(least, (ready - least) // 400, 400), steps(ready - PAGE, 48, 400), steps(ready + 0x3000, 1024, 100), steps(ready + 0x4_0000, 1, 1)):
        counts += see_ends(program, run, in_heaps(program, "book", sizes, run.ask))
    return counted(counts, "delayed", "broken", "answered")


def bare(program):
    """A call without sessions, over every size of a small heap: answered as with ample memory, or the connection breaks."""
    run = Run("hub", [ACCESS_NOTES], [ACCESS_NOTES_REPLY])
    counts = see_ends(program, run, in_heaps(program, "hub", steps(0, PAGE, 320), run.ask))
    return counted(counts, "none", "broken", "answered", none=("delayed",))


# two calls of such a session
TWO = [OWNER, SESSION, (ROOT, "$1.1 PUTROOTFH CREATE 2 'd 0 0", "ok =1.1 PUTROOTFH ok CREATE ok 1>2 0"), (ROOT, "$1.2 PUTROOTFH CREATE 2 'e 0 0", "ok =1.2 PUTROOTFH ok CREATE ok 2>3 0")]


class Again:
    """A call that creates `e` in the root is refused the room of its reply, as the reply before it is still pending on another connection; then it is made again."""

    def __init__(self, talk):
        calls, self.reply = [it.hex() for it in calls_of(TWO)], replies_of(TWO)[3].hex()
        self.begun = [talk.ask(it) for it in ("connect", f"send 0 0 {calls[0]}{calls[1]}", "close 0", "connect", f"send 1 0 {calls[2]}")]
        self.refused = [talk.ask(it) for it in ("connect", f"send 2 0 {calls[3]}", f"send 2 0 {calls[3]}", f"take 2 {MOST}", "close 2")]
        self.tree = talk.ask("tree 24")
        self.made = [talk.ask(it) for it in ("close 1", "connect", f"send 3 0 {calls[3]}", f"take 3 {MOST}")]

    def is_tried(self):
        return all(it.answer == "0" for it in self.begun) and [it.answer for it in self.refused] == ["0", "4", "3", "0 ", "0"]

    def is_answered(self):
        """Whether the heap is one for this; then the call is new."""
        if not self.is_tried():
            return False
        if " e\n" in self.tree.text() or [it.answer for it in self.made] != ["0", "0", "0", f"0 {self.reply}"]:
            raise Difference(f"a call without room isn't new again: {[it.answer for it in self.made]}")
        return True


def room(program):
    """A call whose reply has no room isn't run: the connection breaks, and an equal call on another connection is new."""
    return see_answered(program, Again, 0, 80, range(9, 81))


# a session of 8 slots, and under the same number one of a single slot
SMALLER = [
    OWNER,
    (ROOT, "CREATE_SESSION ^1 1 0 0 10000 10000 0 10 8 0 0 0 0 0 0 0 0 0 0", "delay CREATE_SESSION delay"),
    (ROOT, "CREATE_SESSION ^1 1 0 0 1000 1000 0 10 1 0 0 0 0 0 0 0 0 0 0", "ok CREATE_SESSION ok ^0 ^1 1 0 0 1000 1000 1000 10 1 0 0 0 0 0 0 0 0"),
]


class Smaller:
    """Three calls, of which the second is to be delayed."""

    def __init__(self, talk):
        self.opened = talk.ask("connect")
        self.exchanges = [talk.ask(f"exchange 0 0 {it.hex()}") for it in calls_of(SMALLER)]

    def is_answered(self):
        return self.opened.answer == "0" and [it.answer for it in self.exchanges] == [f"0 0 {it.hex()}" for it in replies_of(SMALLER)]


def numbers_kept(program):
    """A session that is delayed takes neither the number of its call nor a session's number, over all heaps that have room for a small session and not for a large one."""
    return see_answered(program, Smaller, 20, 256, [236])


def see_answered(program, act, first, end, wanted):
    """Does this in heaps of so many pages more than the least that has a hub, and sees in how many it is answered."""
    least = least_size(program, "book")
    heaps = in_heaps(program, "book", steps(least + first * PAGE, PAGE, end - first), act)
    count = sum(heap.has_house() and heap.asked.is_answered() for heap in heaps)
    if count not in wanted:
        raise Difference(f"{count} of {len(heaps)} heaps")
    return f"{count} of {len(heaps)} heaps"
