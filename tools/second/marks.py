"""Sets of marks: a width from 1 to 512 together with some marks below it."""

from refusal import MARK_TOO_HIGH, WIDTH, Refused

WIDEST = 512


def check_width(width):
    """Refuse a width outside 1 to 512."""
    if not 1 <= width <= WIDEST:
        raise Refused(WIDTH)


class MarkSet:
    """A set of marks that its owner may change."""

    def __init__(self, width, marks=()):
        check_width(width)
        self.width = width
        self.marks = set(marks)
        # a set with a mark at or above its width cannot be formed at all
        if any(not 0 <= mark < width for mark in self.marks):
            raise ValueError("a mark at or above the width")

    @classmethod
    def empty(cls, width):
        return cls(width)

    @classmethod
    def full(cls, width):
        check_width(width)
        return cls(width, range(width))

    def contains(self, mark):
        return mark in self.marks

    def insert(self, mark):
        if mark >= self.width:
            raise Refused(MARK_TOO_HIGH)
        self.marks.add(mark)

    def remove(self, mark):
        if mark >= self.width:
            raise Refused(MARK_TOO_HIGH)
        self.marks.discard(mark)

    def _same_width(self, other):
        if self.width != other.width:
            raise Refused(WIDTH)

    def union(self, other):
        self._same_width(other)
        self.marks |= other.marks

    def intersection(self, other):
        self._same_width(other)
        self.marks &= other.marks

    def difference(self, other):
        self._same_width(other)
        self.marks -= other.marks

    def subset(self, other):
        self._same_width(other)
        return self.marks <= other.marks

    def equal(self, other):
        self._same_width(other)
        return self.marks == other.marks

    def next(self, start):
        """The lowest mark at or after the number, or None."""
        return min((mark for mark in self.marks if mark >= start), default=None)

    def count(self):
        return len(self.marks)
