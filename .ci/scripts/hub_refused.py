"""Each growth fails in turn, and no other: the scenes of texts over hubs in which the growth of one number fails. A run gives the answers of its text up to the first whose last
operation is answered DELAY, or at which the connection breaks because an allocation failed. It continues as without that operation and those after it in its call, or as without that
call. No later answer differs."""
import os
from collections import Counter

from scripts.hub_growth import front_of, is_delayed
from scripts.lines import Text, up_to_name
from scripts.probe import Difference, Talk, digits
from scripts.stages import RESULTS, Stage
from scripts.streams import word_at
from scripts.words import Unreadable, call_record, reply_record, split_word

# the texts, of whose scenes each is over a hub of a root alone
TEXTS = ("hub_granted.txt", "hub_sessions.txt")

# the pieces of a call: the whole, and cut after every 100 bytes
SIZES = (10_000_000, 100)

# how many numbers of a growth one run of the program has
BATCH = 32

# the places of the transaction in a record, and of the count of results in a reply
XID, COUNT = 4, 36

# the answers where a call isn't run for want of memory: its connection breaks, or isn't opened
NOT_RUN = ("4 3 ", "4 4 ")


class Noted:
    """Takes the calls of a scene with their replies, as records."""

    def __init__(self):
        self.calls, self.replies = [], []

    def call(self, _, row):
        if row.form != RESULTS:
            raise Unreadable(f"a hub's call has its results alone: {row.whole}")
        xid = len(self.calls) + 1
        self.calls.append(call_record(xid, row.who, row.call))
        self.replies.append(reply_record(xid, row.answer))

    def settle(self):
        """Nothing is looked at."""

    def other(self, *_):
        return False


class Row:
    """The calls and the replies of a scene, and the book of its hub."""

    def __init__(self, text, title, lines):
        what, book = split_word(lines[0].removeprefix("hub "))
        if not lines[0].startswith("hub ") or what != "root":
            raise Unreadable(f"{title}: no hub of a root: {lines[0]}")
        noted = Noted()
        Stage(text, Talk(), noted).play(up_to_name(lines[1:]))
        self.title, self.book = title, digits(text.book(book))
        self.calls, self.replies = noted.calls, noted.replies


def rows_of(path):
    text = Text(path)
    return [Row(text, title, lines) for title, lines in text.scenes()]


def reply_in(answer):
    """The reply of an answer to `feed`."""
    return bytes.fromhex(answer.rpartition(" ")[2])


def without_xid(record):
    return record[:XID] + record[XID + 4:]


class Run:
    """A row over a hub that is refused the growth of one number."""

    def __init__(self, talk, row, size, number):
        self.row, self.what = row, f"{row.title}: in pieces of {size}, growth {number} refused"
        self.made, self.answers, self.pictures = talk.awaited("a hub"), [], []
        for call, reply in zip(row.calls, row.replies):
            self.answers.append(talk.ask(f"feed {size} {call.hex()}"))
            talk.tell(f"stop 0 0 {reply.hex()}")
            self.pictures.append(talk.ask("picture 24"))
            talk.tell("on")
        self.end, self.last = talk.ask("picture 24"), talk.awaited("the bytes in use")

    def difference(self, what):
        return Difference(f"{self.what}: {what}")

    def is_refused(self):
        """Whether there was such a growth. All memory is given back."""
        if self.made.answer != "made" or self.last.answer not in ("yes 0", "no 0"):
            raise self.difference(f"the bytes in use at the end: {self.last.answer}")
        return self.last.answer == "yes 0"

    def turn(self):
        """The place of the first call that isn't answered as in the text, whether it was run, and how many of its operations were; nothing where each is."""
        for place, (asked, wanted) in enumerate(zip(self.answers, self.row.replies)):
            if asked.answer in NOT_RUN:
                return place, False, 0
            if asked.answer != f"0 0 {wanted.hex()}":
                reply = reply_in(asked.answer)
                if not asked.answer.startswith("0 0 ") or not is_delayed(reply, wanted):
                    raise self.difference(f"call {place + 1} is answered {asked.answer}, and not {wanted.hex()}")
                return place, True, word_at(reply, COUNT) - 1
        return None

    def see(self, course):
        """Sees that the run goes on along its course, as with ample memory."""
        turn = self.turn()
        place = len(self.answers) if turn is None else turn[0]
        for number in range(place, len(self.answers)):
            if number > place and self.answers[number].answer != course.wanted(number, reply_in(self.answers[place].answer)):
                raise self.difference(f"call {place + 1} isn't done, and call {number + 1} is answered {self.answers[number].answer}")
            if self.pictures[number].answer not in ("-", course.pictures[number].answer):
                raise self.difference(f"call {place + 1} isn't done, and after call {number + 1} there stands {self.pictures[number].text()}")
        if self.end.answer != course.pictures[-1].answer:
            raise self.difference(f"at the end there stands {self.end.text()}")


class Course:
    """A row over a hub with ample memory: one call of it as the first of its operations alone, or left out; or all calls whole."""

    def __init__(self, row, turn):
        self.place, self.is_run, operations = turn or (len(row.calls), True, 0)
        # where SEQUENCE was run, an equal call is answered from its slot; any other is a new one
        self.again = [it for it in range(self.place + 1, len(row.calls)) if operations > 0 and without_xid(row.calls[it]) == without_xid(row.calls[self.place])]
        self.calls = [front_of(call, operations) if it == self.place or it in self.again else call for it, call in enumerate(row.calls)]
        self.book, self.answers, self.pictures = row.book, [], []

    def ask(self, talk):
        talk.begin(f"book {self.book}")
        for place, call in enumerate(self.calls):
            is_made = place != self.place or self.is_run
            self.answers.append(talk.ask(f"feed {SIZES[0]} {call.hex()}") if is_made else None)
            self.pictures.append(talk.ask("picture 24"))

    def wanted(self, number, delayed):
        """The answer that is wanted to a later call: where it is answered from the slot, the delayed reply under its own transaction."""
        answer = self.answers[number].answer
        if number in self.again and without_xid(reply_in(answer)) == without_xid(reply_in(self.answers[self.place].answer)):
            return f"0 0 {(delayed[:XID] + reply_in(answer)[XID:XID + 4] + delayed[XID + 4:]).hex()}"
        return answer


def batch_of(program, row, size, first):
    """The runs for some numbers of a growth."""
    talk, runs = Talk(), []
    talk.begin(f"refused {first} {BATCH} {row.book}")
    for number in range(first, first + BATCH):
        runs.append(Run(talk, row, size, number))
        talk.sends = False
    talk.run(program)
    return runs


def runs_of(program, row, size):
    """The runs for each number of which there is a growth."""
    runs, first = [], 1
    while len(runs) == first - 1:
        runs += [it for it in batch_of(program, row, size, first) if it.is_refused()]
        first += BATCH
    return runs


def ends_in(program, row):
    """Refuses each growth of a row, and counts the ends."""
    runs, talk = [it for size in SIZES for it in runs_of(program, row, size)], Talk()
    courses = {turn: Course(row, turn) for turn in {None, *(it.turn() for it in runs)}}
    for course in courses.values():
        course.ask(talk)
    talk.run(program)
    if [it.answer for it in courses[None].answers] != [f"0 0 {it.hex()}" for it in row.replies]:
        raise Difference(f"{row.title}: with ample memory it isn't answered as in the text")
    for run in runs:
        run.see(courses[run.turn()])
    return Counter("answered" if it is None else "delayed" if it[1] else "broken" for it in (run.turn() for run in runs))


def each_growth(program):
    """Each growth of each scene."""
    folder, counts = f"{os.path.dirname(program)}/../tests/calls", Counter()
    rows = [row for name in TEXTS for row in rows_of(f"{folder}/{name}")]
    for row in rows:
        ends = ends_in(program, row)
        if not ends["delayed"] or not ends["broken"]:
            raise Difference(f"{row.title}: the ends are {dict(ends)}")
        counts += ends
    return f"{len(rows)} rows, {', '.join(f'{counts[it]} {it}' for it in sorted(counts))}"
