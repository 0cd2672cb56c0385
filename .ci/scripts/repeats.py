"""Scenes in which calls are made again: beside the same calls made once, all results and the final state are equal."""
from scripts.lines import lines_in
from scripts.looks import Looks, Picture
from scripts.servers import LATER, ask_call
from scripts.stages import STATUS, Row
from scripts.words import Unreadable, bytes_of, call_of, number_in


class Past:
    """The calls of a scene over the sample tree, and their results."""

    def __init__(self, text, talk, repeats):
        self.text, self.talk, self.repeats = text, talk, repeats
        self.made, self.looks = [], Looks(talk)

    def play(self, lines):
        """Plays the lines, and gives the picture that they leave."""
        for line in lines_in(lines):
            if line.word == "again":
                self.again(line)
            elif not self.looks.look(line):
                self.make(line)
        return Picture(self.talk)

    def make(self, line):
        """Makes a call, whose results begin with a status."""
        row, second = Row(self.text, 0, line), len(self.made)
        if row.form != STATUS:
            raise Unreadable(f"no status: {row.whole}")
        arguments = call_of(row.call)
        asked, wanted = ask_call(self.talk, True, row.who, second, arguments), bytes_of(row.answer)
        self.talk.see(row.whole, lambda: asked.bytes()[:4], lambda: wanted)
        self.made.append((row.who, arguments, asked))

    def again(self, line):
        """`again NUMBERS`: the calls of these numbers, from 1 on, are made again and have the results that they had."""
        for number in (number_in(it, 10) for it in line.alone().split() if self.repeats):
            who, arguments, before = self.made[number - 1]
            asked = ask_call(self.talk, True, who, number + LATER, arguments)
            self.talk.see(f"call {number} again", asked.bytes, before.bytes)


def play_repeats(text, talk, _words, lines):
    """`repeats`: plays a scene with its repeats and without them."""
    pasts, pictures = [Past(text, talk, repeats) for repeats in (True, False)], []
    for past in pasts:
        talk.begin("sample")
        pictures.append(past.play(lines))
    for number, ((_, _, one), (_, _, other)) in enumerate(zip(*(past.made for past in pasts)), 1):
        talk.see(f"call {number} with repeats and without", one.bytes, other.bytes)
    talk.see("the picture with repeats and without", pictures[0].bytes, pictures[1].bytes)
    return len(pasts[1].made)
