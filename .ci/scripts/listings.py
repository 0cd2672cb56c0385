"""Directories that are read to their end over many calls (RFC 8881, section 18.23)."""
from scripts.probe import Talk
from scripts.servers import add, ask_call
from scripts.views import ALL
from scripts.words import BOB, answer_of, call_of, numbers, opaque

# directories of a root, with their files, whose names are the numbers from 0 on in four digits
COUNTS = {2: 0, 3: 1, 4: 1000, 5: 4096}

# the directory that is listed, the bytes that a result may have, and whether it changes meanwhile: between calls two names go, the last that was returned and the next one, and
# up to ten come
PLANS = [
    (2, 16, False), (3, 44, False), (3, 0x1_0000, False), (4, 44, False), (4, 1000, False), (4, 0x1_0000, False), (4, 44, True), (5, 1000, False),
    (5, 0x1_0000, False), (5, 4000, True),
]

# the bytes of an entry, and those of a result without entries after its status
ENTRY, EMPTY = 28, 16

# the bytes that entries may have in a reply of 65,536: its header has 24, the results before the entries have 36 and what ends them 8, and 16 are kept back
ROOM = 0x1_0000 - 24 - 36 - 8 - 16

# the first cookie of an entry (RFC 8881, section 18.23.3)
FIRST = 3


class Cookies:
    """The cookies of names: each name that comes gets the next number of its tree."""

    def __init__(self):
        self.next, self.given = FIRST, {}

    def add(self, directory):
        self.given.setdefault(directory, []).append(self.next)
        self.next += 1

    def entry(self, directory, number):
        """The entry of a name, which is its number in four digits."""
        return numbers(1, 0, self.given[directory][number]) + opaque(f"{number:04x}".encode()) + numbers(0, 0)


class Listing:
    """A directory that is read to its end: the cookie that is sent next, the next number of a name, and how many names have come."""

    def __init__(self, talk, cookies, directory, most, changes):
        self.talk, self.cookies, self.directory, self.most, self.changes = talk, cookies, directory, most, changes
        self.cookie = self.next = self.come = self.calls = 0

    def end(self):
        return COUNTS[self.directory] + self.come

    def ask(self, operations):
        self.calls += 1
        return ask_call(self.talk, False, BOB, 0, call_of(f"PUTFH @{self.directory:x} {operations}"))

    def read_on(self):
        """Reads on; each name that is there is returned once, in the order of the cookies."""
        asked = self.ask(f"READDIR ^{self.cookie:x} 0 0 0 {self.most:x} 0")
        last = min(self.end(), self.next + min(self.most - EMPTY, ROOM) // ENTRY)
        entries = b"".join(self.cookies.entry(self.directory, it) for it in range(self.next, last))
        wanted = answer_of("ok PUTFH ok READDIR ok 0 0") + entries + numbers(0, last == self.end())
        self.talk.see(f"directory {self.directory} by {self.most} from {self.next} on", asked.bytes, lambda: wanted)
        self.next, self.cookie = last, self.cookies.given[self.directory][last - 1] if last else 0

    def change(self):
        """The last name that was returned goes, and the next one; a name comes after all."""
        asked = self.ask(f"REMOVE '{self.next - 1:04x} REMOVE '{self.next:04x} CREATE 5 't '{self.end():04x} 0 0")
        self.talk.see("a change", lambda: asked.bytes()[:4], lambda: bytes(4))
        self.cookies.add(self.directory)
        self.next, self.come = self.next + 1, self.come + 1

    def read(self):
        self.read_on()
        while self.next < self.end():
            if self.changes and self.come < 10:
                self.change()
            self.read_on()


def listings(program):
    """Each name that is there all the time is returned once, in the order of the cookies; so are those that come after the last one that was returned."""
    talk, cookies = Talk(), Cookies()
    talk.begin(f"root {ALL}")
    for name in "abcd":
        talk.tell(*add(1, name, "dir", ALL))
        cookies.add(1)
    for directory, count in COUNTS.items():
        for number in range(count):
            talk.tell(*add(directory, f"{number:04x}", "file"))
            cookies.add(directory)
    found = [Listing(talk, cookies, *plan) for plan in PLANS]
    for it in found:
        it.read()
    talk.run(program)
    return f"{sum(it.calls for it in found)} calls"
