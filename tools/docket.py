#!/usr/bin/env python3
"""A decoder of the docket, independent of the monitor's code.

An entry is packed most significant bit first: the kind in 1 bit (0 is a release), the task in 3, the
record in 6, granted in 1 (1 is yes). A refused entry goes on with the question in 5 bits, and at
question 16 with the group in 16. Then come the clause count in 4 bits, the clauses of the new formula in
16 each, and zero bits to the end of the byte. Lawful are the questions 5, 6 and 12 to 16, at most 8
clauses, clauses that rise and of which none contains another, and zero bits at the end. At each field
question 19 is put first, are all bits present, and then 20, is the content lawful.
"""

QUESTIONS = {5, 6, 12, 13, 14, 15, 16}


class Refused(Exception):
    """The number of the question that refuses a reading."""


class Bits:
    """The bits of some bytes, taken from the front."""

    def __init__(self, data):
        self.row = "".join(f"{byte:08b}" for byte in data)
        self.at = 0

    def take(self, width):
        field = self.row[self.at : self.at + width]
        if len(field) < width:
            raise Refused(19)
        self.at += width
        return int(field, 2) if field else 0


def kept(clauses):
    """Whether the clauses rise and none contains another."""
    pairs = [(c, d) for i, c in enumerate(clauses) for d in clauses[i + 1 :]]
    return all(c < d and c & d != c and c & d != d for c, d in pairs)


def lawful(test):
    if not test:
        raise Refused(20)


def entry(data):
    """The entry that the bytes begin with, and how many bytes it takes."""
    bits = Bits(data)
    kind = bits.take(1)
    task = bits.take(3)
    record = bits.take(6)
    question, group = 0, None
    if bits.take(1) == 0:
        question = bits.take(5)
        lawful(question in QUESTIONS)
        if question == 16:
            group = bits.take(16)
    count = bits.take(4)
    lawful(count <= 8)
    clauses = [bits.take(16) for _ in range(count)]
    lawful(kept(clauses))
    lawful(bits.take(-bits.at % 8) == 0)
    return (kind, task, record, question, group, clauses), bits.at // 8


def read(data, place):
    """What stands at a place, in words, with the bytes of an entry."""
    if place > len(data):
        return "19"
    if place == len(data):
        return "over"
    try:
        (kind, task, record, question, group, clauses), size = entry(data[place:])
    except Refused as refused:
        return str(refused)
    words = ["endorse" if kind else "release", str(task), str(record)]
    words.append(str(question) if question else "ok")
    if group is not None:
        words.append(f"{group:04x}")
    words.append(".".join(f"{clause:04x}" for clause in clauses) or "T")
    return f"{' '.join(words)} next {place + size} as {data[place : place + size].hex()}"
