"""Houses over heaps of a size, in which allocations fail."""
from scripts.probe import Difference, Talk

PAGE = 4096

# how many heaps there are in one run of the program, and the most in the search for the first of a kind
BATCH = 64
MOST = 2048


class Heap:
    """A heap of a size: whether it has a house, what was asked of the house, and the bytes that are in use once the house is gone."""

    def __init__(self, size, made, asked, used):
        self.size, self.made, self.asked, self.used = size, made, asked, used

    def has_house(self):
        return self.made.answer == "made"

    def see_empty(self):
        if self.used.answer != "0":
            raise Difference(f"a heap of {self.size}: {self.used.answer} bytes are in use when the house is gone")


def in_batch(program, what, sizes, ask):
    talk = Talk()
    talk.begin(f"heaps {what} {sizes.start} {sizes.step} {len(sizes)}")
    heaps = []
    for size in sizes:
        heaps.append(Heap(size, talk.awaited("a house"), ask(talk), talk.awaited("the bytes in use")))
        talk.sends = False
    talk.run(program)
    for heap in heaps:
        heap.see_empty()
    return heaps


def in_heaps(program, what, sizes, ask):
    """Makes a house in a heap of each size of a range, and gives the heaps. What `ask` asks of a talk is asked over each house."""
    batches = [sizes[start:start + BATCH] for start in range(0, len(sizes), BATCH)]
    return [heap for it in batches for heap in in_batch(program, what, it, ask)]


def steps(first, step, count):
    """That many sizes, from one on, each larger by a step than the one before."""
    return range(first, first + step * count, step)


def first_size(program, what, ask, start, is_wanted):
    """The first size, whole pages after one, of a heap that is wanted."""
    for page in range(0, MOST, BATCH):
        for heap in in_heaps(program, what, steps(start + page * PAGE, PAGE, BATCH), ask):
            if is_wanted(heap):
                return heap.size
    raise Difference("no heap is large enough")


def least_size(program, what):
    """The first size in pages of a heap that has a house."""
    return first_size(program, what, lambda talk: None, 0, Heap.has_house)
