"""Kills of a server that has a home: by the clock, and right after its store has grown by a given number of bytes."""
import random
import threading
import time

# a server is killed whenever so many seconds have gone, and how often its store is looked at
EVERY, GLANCE = 20, 0.001
# under the judge it is killed once its store has grown by up to so many bytes
SPAN = 600_000


class Killer(threading.Thread):
    """Kills a server and starts it anew, until it ends. It aims at a number of bytes that the store is to grow by."""

    def __init__(self, server, seed, often=False):
        super().__init__(daemon=True)
        self.server, self.chance, self.often = server, random.Random(seed), often
        self.kills = self.grown = 0
        self.aim, self.size, self.fault = None, server.size(), None
        self.ends = threading.Event()
        if often:
            self.aim_at(SPAN)
        self.start()

    def aim_at(self, most):
        """Once more it is killed after up to so many bytes, by chance."""
        self.grown = 0
        self.aim = self.chance.uniform(0, most) if most else None

    def run(self):
        due = time.time() + EVERY
        try:
            while not self.ends.wait(GLANCE):
                if self.has_hit():
                    self.aim = None
                    self.kill()
                    if self.often:
                        self.aim_at(SPAN)
                elif time.time() > due:
                    self.kill()
                    due = time.time() + EVERY
        except BaseException as it:  # pylint: disable=broad-exception-caught
            self.fault = it

    def has_hit(self):
        size = self.server.size()
        self.grown += max(0, size - self.size)
        self.size = size
        return self.aim is not None and self.grown > self.aim

    def kill(self):
        self.server.stop()
        self.server.start()
        self.kills += 1
        # a start writes all that is kept into another file, which isn't a step's doing
        self.size = self.server.size()

    def end(self):
        self.ends.set()
        self.join()
        if self.fault:
            raise self.fault
