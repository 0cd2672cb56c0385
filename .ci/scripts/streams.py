"""Streams of records of one fragment (RFC 5531, section 11): calls, and their replies."""
import struct

from scripts.words import bytes_of, call_record, reply_record

# PUTROOTFH, LOOKUP of `notes`, ACCESS of READ, MODIFY, EXTEND and EXECUTE, by user 1002 in group 100; and the reply
ACCESS_NOTES = bytes_of("80000064 2 0 2 186a3 4 1 1 14 0 0 3ea 64 0 0 0 0 1 3 18 f 5 6e6f7465 73000000 3 2d")
ACCESS_NOTES_REPLY = bytes_of("80000044 2 1 0 0 0 0 0 0 3 18 0 f 0 3 0 2d 1")

# the call NULL, and its reply
NULL = bytes_of("80000028 1 0 2 186a3 4 0 0 0 0 0")
NULL_REPLY = bytes_of("80000018 1 1 0 0 0 0")

# PUTROOTFH, LOOKUP of `pub` and CREATE of the directory `d` or `e` in it, by user 1002 in group 100
CREATE_D = bytes_of("80000070 2 0 2 186a3 4 1 1 14 0 0 3ea 64 0 0 0 0 1 3 18 f 3 70756200 6 2 1 64000000 0 0")
CREATE_E = bytes_of("80000070 2 0 2 186a3 4 1 1 14 0 0 3ea 64 0 0 0 0 1 3 18 f 3 70756200 6 2 1 65000000 0 0")

# the mark of a record that is longer than a record may be
BREAKING = bytes_of("80020001")

# the status DELAY
DELAY = bytes_of("delay")


def word_at(content, place):
    """The number of four bytes at a place."""
    return struct.unpack_from(">I", content, place)[0]


def records_in(stream):
    """The records that are whole, each with its mark."""
    found, start = [], 0
    while start + 4 <= len(stream):
        end = start + 4 + (word_at(stream, start) & 0x7FFF_FFFF)
        if end > len(stream):
            break
        found.append(stream[start:end])
        start = end
    return found


def calls_of(rows):
    """The calls of rows, CALLER, OPERATIONS and ANSWER, numbered from 1 on."""
    return [call_record(number, who, operations) for number, (who, operations, _) in enumerate(rows, 1)]


def replies_of(rows):
    """The replies to the calls of rows."""
    return [reply_record(number, answer) for number, (_, _, answer) in enumerate(rows, 1)]
