"""The calls of a scene's client and the replies to them, its commands, and their expected outcomes (RFC 5531, RFC 8881).

tests/commands/README.md describes the lines.
"""
from scripts.command_texts import escaped, repeated, written
from scripts.words import OPERATIONS, STATUSES, Unreadable, bytes_of, call_of, number_in, numbers, record, reply_record
from scripts.words import split_word

# the faults of a command, with the numbers that nfs_tool gives them
FAULTS = {"path": 1, "refused": 2, "reply": 3, "read": 4, "write": 5, "memory": 6, "entry": 7, "failed": 8, "toolarge": 9}


class Talk:
    """The calls that a client has to write, and the replies that it is given."""

    def __init__(self):
        self.takes = self.gives = b""
        self.number = 0  # of the last call

    def bare_call(self, operations):
        """A call by user 1001 in group 100 alone, with AUTH_SYS (RFC 5531, section 9 and appendix A)."""
        self.number += 1
        header = numbers(self.number, 0, 2, 100003, 4, 1, 1, 20, 0, 0, 1001, 100, 0, 0, 0)
        self.takes += record(header + call_of(operations))

    def bare_reply(self, results):
        """The reply to the last call."""
        self.gives += reply_record(self.number, results)

    def call(self, operations):
        """A call of SEQUENCE on session 1 by the call's number, and of these operations."""
        self.bare_call(f"$1.{self.number + 1:x} {operations}")

    def reply(self, results):
        """The reply to the last call: a status, the result of its SEQUENCE, and results."""
        status, results = split_word(results)
        self.bare_reply(f"{status} =1.{self.number:x} {results}")

    def bare(self, line):
        word, rest = split_word(line)
        if word not in ("call", "reply"):
            raise Unreadable(f"no such line: bare {line}")
        (self.bare_call if word == "call" else self.bare_reply)(rest)

    def approaches(self, line):
        """Approaches from the root up to each of these numbers of names. Each gets that number's filehandle + MORE."""
        more, *ends = (number_in(it, 10) for it in line.split())
        begin, handle, start = "PUTROOTFH", "", 0
        for end in ends:
            reached = f"@{end + more:x}"
            self.call(repeated(f"{begin} {handle} <{start} {end} LOOKUP '? >GETFH"))
            self.reply(repeated(f"ok {begin} ok <{start} {end} LOOKUP ok >GETFH ok {reached}"))
            begin, handle, start = "PUTFH", reached, end

    def sent(self, line):
        """A call with all its words."""
        self.number += 1
        self.takes += bytes_of(line)

    def given(self, line):
        """A reply with all its words."""
        self.gives += bytes_of(line)


TALKS = {
    "call": Talk.call,
    "reply": Talk.reply,
    "bare": Talk.bare,
    "approaches": Talk.approaches,
    "sent": Talk.sent,
    "given": Talk.given,
}


class Session:
    """A scene of a client with its places filled in: its talk, its commands, and what has to come of each."""

    def __init__(self, scene, filling):
        self.talk, self.asked, self.wanted = Talk(), [], []
        kind, self.numbers = scene.head
        self.takes_any = self.numbers == "any"
        self.opens = kind == "opens"
        if self.opens:
            self.asked.append(" ".join(scene.head))
        for line in scene.lines:
            word, rest = split_word(line)
            self.add(word, written(rest, filling))
        if len(self.asked) != len(self.wanted):
            raise Unreadable("a command without an outcome")

    def add(self, word, rest):
        if word in TALKS:
            TALKS[word](self.talk, rest)
        elif word in ("run", "do", "zero", "replace", "leave"):
            self.add_to(self.asked, " ".join([word, *rest.split()]), len(self.wanted))
        elif word in ("=", "!"):
            self.add_to(self.wanted, outcome(word, rest), len(self.asked) - 1)
        else:
            raise Unreadable(f"no such line: {word} {rest}")

    @staticmethod
    def add_to(those, line, count):
        """Adds a line behind `count` others: a command has one outcome, which stands before the next command."""
        if len(those) != count:
            raise Unreadable(f"commands and outcomes don't come in turn: {line}")
        those.append(line)

    def probe(self):
        """The scene as `client_probe` reads it."""
        takes = "any" if self.takes_any else self.talk.takes.hex()
        commands = self.asked[1:] if self.opens else self.asked
        return "\n".join([self.begin(), f"takes {takes}", f"gives {self.talk.gives.hex()}".rstrip(), *commands])

    def begin(self):
        if self.opens:
            return f"open {bytes_of(self.numbers).hex()}"
        return "resume 1 1" if self.numbers in ("", "any") else f"resume {self.numbers}"

    def printed(self):
        """What `client_probe` has to print."""
        return [*self.wanted, "left 0 0"]


def outcome(word, rest):
    """The line of what has to come of a command."""
    if word == "=":
        return f"= {escaped(rest).hex()}"
    name, *refused = rest.split()
    if name not in FAULTS:
        raise Unreadable(f"no such fault: {name}")
    if name != "refused":
        return f"! {FAULTS[name]}"
    operation, status = refused
    return f"! {FAULTS[name]} {OPERATIONS[operation]} {STATUSES[status]}"
