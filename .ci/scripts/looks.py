"""The state of a server or a hub: its trail, its tree, its opens."""
from scripts.probe import digits
from scripts.words import number_in, split_word

# the numbers that the probe answers to `counts`
TOTAL, EXAMINED, TICK, STAMP = range(4)

# every object and every name below this limit are in a picture
LIMIT = 1000


class Picture:
    """The tree, the trail, and how many lines and open files there are; and how many entries were examined."""

    def __init__(self, talk):
        self.tree = talk.ask(f"tree {LIMIT}")
        self.trail = talk.ask("trail")
        self.counts = talk.ask("counts")
        self.opens = talk.ask("opens")

    def bytes(self):
        counts = f"{self.counts.numbers()[TOTAL]} {self.opens.numbers()[0]}"
        return self.tree.bytes() + self.trail.bytes() + counts.encode()

    def examined(self):
        return self.counts.numbers()[EXAMINED]


class Looks:
    """The looks of a scene, of which `same` and `examined` compare with what `keep` has kept."""

    WORDS = ("trail", "tree", "list", "total", "next", "opens", "bytes", "keep", "same", "examined")

    def __init__(self, talk):
        self.talk = talk
        self.kept = None

    def see_text(self, asked, line):
        wanted = line.text()
        self.talk.see(line.whole, asked.text, lambda: wanted)

    def trail(self, line):
        """`trail TOTAL`, and the lines of the trail after it."""
        self.see_text(self.talk.ask("trail"), line)
        self.total(line)

    def tree(self, line):
        """`tree LIMIT`, and a line for each object and each name below the limit after it."""
        self.see_text(self.talk.ask(f"tree {number_in(line.rest, 10)}"), line)

    def list(self, line):
        """`list NUMBER`, and after it a line for each entry of the object's list, and the high bits of its mode."""
        self.see_text(self.talk.ask(f"list {number_in(line.rest, 10)}"), line)

    def total(self, line):
        """`total COUNT`: that many lines were written to the trail."""
        wanted, asked = number_in(line.rest, 10), self.talk.ask("counts")
        self.talk.see(line.whole, lambda: asked.numbers()[TOTAL], lambda: wanted)

    def next(self, line):
        """`next TICK STAMP`: those that the tree gives next."""
        wanted, asked = [number_in(it, 10) for it in line.alone().split()], self.talk.ask("counts")
        self.talk.see(line.whole, lambda: asked.numbers()[TICK:STAMP + 1], lambda: wanted)

    def opens(self, line):
        """`opens COUNT NUMBERS`: that many files are open, and the first of them have these numbers."""
        wanted, asked = [number_in(it, 10) for it in line.alone().split()], self.talk.ask("opens")
        self.talk.see(line.whole, lambda: asked.numbers()[:len(wanted)], lambda: wanted)

    def bytes(self, line):
        """`bytes NUMBER TEXT`: the first 64 bytes of an object."""
        number, wanted = split_word(line.alone())
        asked = self.talk.ask(f"bytes {number_in(number, 10)}")
        self.talk.see(line.whole, lambda: asked.answer, lambda: digits(wanted))

    def keep(self, line):
        """`keep`: the picture is kept."""
        line.alone()
        self.kept = Picture(self.talk)

    def same(self, line):
        """`same`: the picture is the one that was kept."""
        line.alone()
        self.talk.see("the picture", Picture(self.talk).bytes, self.kept.bytes)

    def examined(self, line):
        """`examined none`: no entry was examined since the picture was kept; `examined some`: some were."""
        wanted = {"none": False, "some": True}[line.alone()]
        now, kept = Picture(self.talk), self.kept
        self.talk.see(line.whole, lambda: now.examined() > kept.examined(), lambda: wanted)

    def look(self, line):
        """Looks as a line says; whether it has a look."""
        if line.word in self.WORDS:
            getattr(self, line.word)(line)
        return line.word in self.WORDS
