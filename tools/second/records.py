"""Fare lines, term lines and bars as records in memory, which may hold anything, and when they are lawful."""

from refusal import RECORD, Refused

PLACES = 8
MOST_FARES = 1024
MOST_TERMS = 512
MOST_BARS = 32

GIVES = 1
DENIES = 2


class MarkList:
    """A count and eight places; the places at or behind the count are unused."""

    def __init__(self, marks=()):
        marks = list(marks)
        self.count = len(marks)
        self.places = (marks + [0] * PLACES)[:PLACES]

    def used(self):
        return tuple(self.places[:self.count])

    def lawful(self, width):
        if self.count > PLACES:
            return False
        used = self.used()
        if any(mark >= width for mark in used):
            return False
        return all(a < b for a, b in zip(used, used[1:]))

    def __eq__(self, other):
        return self.count == other.count and self.used() == other.used()


class FareLine:
    """The head follows if all conditions hold, unless one of the unless-marks does."""

    def __init__(self, head, conditions=(), unless=()):
        self.head = head
        self.conditions = MarkList(conditions)
        self.unless = MarkList(unless)

    def lawful(self, width):
        return self.head < width and self.conditions.lawful(width) and self.unless.lawful(width)

    def __eq__(self, other):
        return (self.head == other.head and self.conditions == other.conditions
                and self.unless == other.unless)


class TermLine:
    """Kind 1 gives its head whenever all conditions hold; kind 2 denies that they all hold."""

    def __init__(self, kind, head, conditions=()):
        self.kind = kind
        self.head = head  # unused in a denial
        self.conditions = MarkList(conditions)

    def lawful(self, width):
        if self.kind == GIVES and self.head >= width:
            return False
        return self.conditions.lawful(width)

    def __eq__(self, other):
        if self.kind != other.kind or self.conditions != other.conditions:
            return False
        return self.kind == DENIES or self.head == other.head


class Bar:
    """Two marks in ascending order that never hold together."""

    def __init__(self, first, second):
        self.first = first
        self.second = second

    def lawful(self, width):
        return self.first < self.second < width


def check_records(records, most, width):
    """Refuse more records than the limit, or one that is not lawful for the width."""
    if len(records) > most or any(not record.lawful(width) for record in records):
        raise Refused(RECORD)
