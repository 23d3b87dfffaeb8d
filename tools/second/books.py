"""The four kinds of term book: bare, line, world and barred. Inside, sets are frozensets of marks of the book's width."""

from marks import check_width
from records import DENIES, GIVES, MOST_BARS, MOST_TERMS, check_records
from refusal import RECORD, WIDTH, Refused

MOST_WORLDS = 64


class Book:
    """What every book has: a width, a closure and a clash; a kind defines the last two."""

    width = 0

    def closure(self, marks):
        raise NotImplementedError

    def clashes(self, marks):
        raise NotImplementedError

    def all_marks(self):
        return frozenset(range(self.width))

    def denies(self, mark, marks):
        """The book denies a mark at a set when it clashes at the two together."""
        return self.clashes(marks | {mark})

    def close(self, given):
        """Turn the set into its closure; say whether the book clashed at it as it was given."""
        if given.width != self.width:
            raise Refused(WIDTH)
        before = frozenset(given.marks)
        clash = self.clashes(before)
        given.marks = set(self.closure(before))
        return clash


class BareBook(Book):
    """Nothing follows and nothing clashes."""

    def __init__(self, width):
        check_width(width)
        self.width = width

    def closure(self, marks):
        return marks

    def clashes(self, marks):
        return False


class LineBook(Book):
    """A book that stands on at most 512 term lines."""

    def __init__(self, width):
        check_width(width)
        self.width = width
        self.gives = []
        self.denials = []

    def fill(self, lines):
        check_records(lines, MOST_TERMS, self.width)
        self.gives = [(frozenset(line.conditions.used()), line.head)
                      for line in lines if line.kind == GIVES]
        self.denials = [frozenset(line.conditions.used())
                        for line in lines if line.kind == DENIES]

    def grown(self, marks):
        """The least set that holds the marks and each head whose conditions it holds."""
        found = set(marks)
        while True:
            before = len(found)
            for conditions, head in self.gives:
                if conditions <= found:
                    found.add(head)
            if len(found) == before:
                return frozenset(found)

    def _denied(self, grown):
        return any(conditions <= grown for conditions in self.denials)

    def clashes(self, marks):
        return self._denied(self.grown(marks))

    def closure(self, marks):
        grown = self.grown(marks)
        return self.all_marks() if self._denied(grown) else grown


class WorldBook(Book):
    """A book that stands on at most 64 sets of its width, the worlds."""

    def __init__(self, width):
        check_width(width)
        self.width = width
        self.worlds = []

    def fill(self, worlds):
        if any(world.width != self.width for world in worlds):
            raise Refused(WIDTH)
        if len(worlds) > MOST_WORLDS:
            raise Refused(RECORD)
        self.worlds = [frozenset(world.marks) for world in worlds]

    def around(self, marks):
        return [world for world in self.worlds if marks <= world]

    def clashes(self, marks):
        return not self.around(marks)

    def closure(self, marks):
        # with no world around, what all of them have in common is all marks
        return self.all_marks().intersection(*self.around(marks))


class BarredBook(Book):
    """A book that stands on another one and at most 32 bars."""

    def __init__(self, below):
        self.below = below
        self.width = below.width
        self.bars = []

    def fill(self, bars):
        check_records(bars, MOST_BARS, self.width)
        self.bars = [frozenset((bar.first, bar.second)) for bar in bars]

    def clashes(self, marks):
        if self.below.clashes(marks):
            return True
        closed = self.below.closure(marks)
        return any(bar <= closed for bar in self.bars)

    def closure(self, marks):
        return self.all_marks() if self.clashes(marks) else self.below.closure(marks)
