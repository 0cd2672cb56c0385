"""Operations of COMPOUND and their results as words, and the bytes that the words represent.

The numbers are written here as the standards have them (RFC 4506; RFC 8881, sections 15.1, 16.2 and 18), and are not taken
from the code, so that a server is compared with another's reading.

    the name of an operation or of a status     its number
    hexadecimal digits                          that number
    'x                                          the bytes x with their length and padding
    ~n                                          n letters 'a' in the same form
    @n                                          the filehandle of an object
    a>b                                         a directory's change before and after
    ^n                                          a number of 8 bytes
    +a+b                                        the bitmap of these attributes, whose numbers are decimal
    TYPE:FLAGS:MASK:WHO                         an access control entry (ACE), of type A, D, U or L
    n*TYPE:FLAGS:MASK:WHO                       n of that ACE
    *n                                          n ACEs that allow user 5 to read
    #n                                          attributes: an ACL of n of these ACEs
    ( words )                                   the bytes of words with their length
    [ words ]                                   the bytes of words as a record of one fragment
    %n                                          n bytes of zero
    anon, bypass, closed                        the special stateids, and that of an open that has ended
    $s.n                                        SEQUENCE of session s, whose slot 0 has the call of this number
    =s.n                                        the result of it, if the session has 8 slots
"""
import re
import struct

# operations (RFC 8881, section 18)
OPERATIONS = {
    "ACCESS": 3, "CLOSE": 4, "COMMIT": 5, "CREATE": 6, "GETATTR": 9, "GETFH": 10, "LINK": 11, "LOCK": 12,
    "LOOKUP": 15, "LOOKUPP": 16, "NVERIFY": 17, "OPEN": 18, "PUTFH": 22, "PUTROOTFH": 24, "READ": 25, "READDIR": 26,
    "READLINK": 27, "REMOVE": 28, "RENAME": 29, "RESTOREFH": 31, "SAVEFH": 32, "SETATTR": 34, "VERIFY": 37,
    "WRITE": 38, "EXCHANGE_ID": 42, "CREATE_SESSION": 43, "DESTROY_SESSION": 44, "SEQUENCE": 53,
    "DESTROY_CLIENTID": 57, "RECLAIM_COMPLETE": 58, "ILLEGAL": 10044,
}

# statuses (RFC 8881, section 15.1)
STATUSES = {
    "ok": 0, "perm": 1, "noent": 2, "access": 13, "exist": 17, "notdir": 20, "isdir": 21, "inval": 22, "fbig": 27,
    "nospc": 28, "mlink": 31, "nametoolong": 63, "notempty": 66, "stale": 70, "badhandle": 10001,
    "badcookie": 10003, "notsupp": 10004, "toosmall": 10005, "badtype": 10007, "delay": 10008, "same": 10009,
    "clidinuse": 10017, "nofilehandle": 10020, "minorvers": 10021, "staleclientid": 10022, "oldstateid": 10024,
    "badstateid": 10025, "notsame": 10027, "symlink": 10029, "attrnotsupp": 10032, "badxdr": 10036,
    "openmode": 10038, "badowner": 10039, "badchar": 10040, "badname": 10041, "illegal": 10044, "badsession": 10052,
    "badslot": 10053, "completealready": 10054, "seqmisordered": 10063, "sequencepos": 10064, "reqtoobig": 10065,
    "reptoobig": 10066, "reptoobigtocache": 10067, "toomanyops": 10070, "opnotinsession": 10071,
    "clientidbusy": 10074, "seqfalseretry": 10076, "badhighslot": 10077, "notonlyop": 10081, "wrongtype": 10083,
}

# stateids (RFC 8881, section 8.2.3)
STATEIDS = {"anon": (0, 0, 0, 0), "bypass": (0xFFFF_FFFF,) * 4, "closed": (0xFFFF_FFFF, 0, 0, 0)}

# types of entries (RFC 8881, section 6.2.1.1)
TYPES = {"A": 0, "D": 1, "U": 2, "L": 3}

# callers: the uid, the gid, and one further group; carol is in the group of bob
ROOT = (0, 0, 0)
ALICE = (1001, 100, 100)
BOB = (1002, 7, 7)
CAROL = (1003, 7, 100)

# an entry that allows user 5 to read, and the bitmap of the attribute acl (RFC 8881, section 5.8)
READER = (0, 0, 1, 1, 0x3500_0000)
ACL = (1, 0x1000)


class Unreadable(Exception):
    """A word, or a line, that stands for nothing."""


def split_word(line):
    """The first word of a line, and the rest of it."""
    word, _, rest = line.partition(" ")
    return word, rest


def number_in(digits, base=16):
    """The number that digits stand for."""
    if not re.fullmatch("[0-9a-fA-F]+" if base == 16 else "[0-9]+", digits):
        raise Unreadable(f"no number: {digits!r}")
    return int(digits, base)


def numbers(*them):
    """Numbers of 4 bytes (RFC 4506, section 4.2)."""
    try:
        return struct.pack(f">{len(them)}I", *them)
    except struct.error as error:
        raise Unreadable(f"numbers of more than 4 bytes: {them}") from error


def opaque(content):
    """Bytes with their length and padding (RFC 4506, section 4.10)."""
    return numbers(len(content)) + content + bytes(-len(content) % 4)


def record(content):
    """A record of one fragment (RFC 5531, section 11)."""
    return numbers(0x8000_0000 | len(content)) + content


def entry(letter, rest):
    """An entry of this type, of which the rest is FLAGS:MASK:WHO."""
    flags, _, rest = rest.partition(":")
    mask, _, who = rest.partition(":")
    return numbers(TYPES[letter], number_in(flags), number_in(mask)) + opaque(who.encode())


def repeated(count, spelled):
    letter, _, rest = spelled.partition(":")
    return number_in(count) * entry(letter, rest)


def readers(count):
    return number_in(count) * numbers(*READER)


def list_of_readers(count):
    """Attributes: the bitmap, and the bytes of the list with their length."""
    content = numbers(number_in(count)) + readers(count)
    return numbers(*ACL, len(content)) + content


def bitmap(decimals):
    """A bitmap without trailing words of zero, and of one at least."""
    bits = sum({1 << number_in(it, 10) for it in decimals.split("+")})
    count = max(1, (bits.bit_length() + 31) // 32)
    return numbers(count, *(bits >> 32 * place & 0xFFFF_FFFF for place in range(count)))


def numbered(word):
    """The session and the number of a word for SEQUENCE, after its sign."""
    session, _, number = word.partition(".")
    return number_in(session), number_in(number or "0")


def sequence(word):
    session, number = numbered(word)
    return numbers(OPERATIONS["SEQUENCE"], 0, 0, 0, session, number, 0, 0, 0)


def sequenced(word):
    session, number = numbered(word)
    return numbers(OPERATIONS["SEQUENCE"], 0, 0, 0, 0, session, number, 0, 7, 7, 0)


# what a word stands for that begins with a sign
SIGNED = {
    "'": lambda text: opaque(text.encode()),
    "$": sequence,
    "=": sequenced,
    "~": lambda count: opaque(number_in(count) * b"a"),
    "*": readers,
    "%": lambda count: bytes(number_in(count)),
    "#": list_of_readers,
    "+": bitmap,
    "^": lambda digits: number_in(digits).to_bytes(8, "big"),
    "@": lambda object: numbers(16, 0, 0, 0, number_in(object)),
}


def plain(word):
    """The bytes of a name or a number."""
    if word in STATEIDS:
        return numbers(*STATEIDS[word])
    number = OPERATIONS.get(word, STATUSES.get(word))
    return numbers(number_in(word) if number is None else number)


def bytes_of_word(word):
    if word[0] in SIGNED:
        return SIGNED[word[0]](word[1:])
    if "*" in word:
        return repeated(*word.split("*", 1))
    if ":" in word:
        return entry(*word.split(":", 1))
    if ">" in word:
        before, after = word.split(">", 1)
        return numbers(1, 0, number_in(before), 0, number_in(after))
    return plain(word)


CLOSING = {")": lambda content: numbers(len(content)) + content, "]": record}


def bytes_of(words):
    """The bytes of words."""
    begun, out = [], b""
    for word in words.split():
        if word in "([":
            begun.append(out)
            out = b""
        elif word in CLOSING:
            out = begun.pop() + CLOSING[word](out)
        else:
            out += bytes_of_word(word)
    if begun:
        raise Unreadable(f"a bracket that isn't closed: {words}")
    return out


def operations_in(words):
    """How many operations words name."""
    return sum(1 for word in words.split() if word[0] in "$=" or word in OPERATIONS)


def call_of(operations):
    """The arguments of a COMPOUND of these operations, without a tag (RFC 8881, section 16.2)."""
    return numbers(0, 1, operations_in(operations)) + bytes_of(operations)


def answer_of(answer):
    """The results of a COMPOUND without a tag: its status, and those of its operations."""
    status, results = split_word(answer)
    return bytes_of_word(status) + numbers(0, operations_in(results)) + bytes_of(results)


def call_record(xid, caller, operations):
    """The record of a call of COMPOUND by a caller, with AUTH_SYS (RFC 5531, section 9 and appendix A)."""
    uid, gid, group = caller
    header = numbers(xid, 0, 2, 100003, 4, 1, 1, 24, 0, 0, uid, gid, 1, group, 0, 0)
    return record(header + call_of(operations))


def reply_record(xid, answer):
    """The record of the reply to a call."""
    return record(numbers(xid, 1, 0, 0, 0, 0) + answer_of(answer))
