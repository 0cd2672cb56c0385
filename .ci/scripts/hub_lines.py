"""Lines about a hub and its connections, which have places in the order in which they were opened."""
from scripts.probe import digits, expect

# the most bytes that are taken at once, more than a connection here has pending
MOST = 8192


def connect(talk, fault=0):
    expect(talk, "connect", f"{fault}")


def send(talk, place, content, second=0, fault=0):
    expect(talk, f"send {place} {second} {content.hex()}", f"{fault}")


def take(talk, place, wanted, what):
    """Takes all pending bytes, which have to be these."""
    asked = talk.ask(f"take {place} {MOST}")
    talk.see(what, lambda: asked.answer, lambda: f"0 {wanted.hex()}")


def load(talk, book):
    expect(talk, f"load {digits(book)}", "ok")


def close(talk, place, fault=0):
    expect(talk, f"close {place}", f"{fault}")
