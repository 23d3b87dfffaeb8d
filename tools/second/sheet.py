"""The sheet of one trip with its calls, and the call that performs a list of calls."""

import readings
from marks import MarkSet
from refusal import (FACT_STANDS, MARK_TOO_HIGH, NOT_SETTLED, NO_SUCH_FACT, OUTPUT_SHORT, WIDTH,
                     Refused)


class Sheet:
    """A width and a set of facts; a settled sheet also keeps its T and U."""

    def __init__(self, width):
        self.facts = MarkSet.empty(width)
        self.width = width
        self.reading = None  # T and U while settled

    def _below_width(self, mark):
        if mark >= self.width:
            raise Refused(MARK_TOO_HIGH)

    def _is_settled(self):
        if self.reading is None:
            raise Refused(NOT_SETTLED)

    def enter(self, mark):
        self._below_width(mark)
        if self.facts.contains(mark):
            raise Refused(FACT_STANDS)
        self.facts.insert(mark)
        self.reading = None

    def strike(self, mark):
        self._below_width(mark)
        if not self.facts.contains(mark):
            raise Refused(NO_SUCH_FACT)
        self.facts.remove(mark)
        self.reading = None

    def settle(self, fares, book, method):
        """Verdict and rounds."""
        settled = readings.settle(self.facts, fares, book, method)
        self.reading = settled.t, settled.u
        return settled.verdict, settled.rounds

    def ask(self, mark):
        self._below_width(mark)
        self._is_settled()
        return readings.answer(mark, *self.reading)

    def counts(self):
        """How many marks hold, are not, are open, are both."""
        self._is_settled()
        answers = [readings.answer(mark, *self.reading) for mark in range(self.width)]
        return tuple(answers.count(which) for which in
                     (readings.HOLDS, readings.NOT, readings.OPEN, readings.BOTH))

    def try_set(self, fares, book, tried):
        return readings.is_sound(self.facts, fares, book, tried)

    def alike(self, other):
        if self.width != other.width:
            raise Refused(WIDTH)
        self._is_settled()
        other._is_settled()
        return all(self.ask(mark) == other.ask(mark) for mark in range(self.width))


class Enter:
    """The call that enters a fact."""

    def __init__(self, mark):
        self.mark = mark

    def perform(self, sheet, fares, book):
        return sheet.enter(self.mark)


class Strike:
    """The call that strikes a fact."""

    def __init__(self, mark):
        self.mark = mark

    def perform(self, sheet, fares, book):
        return sheet.strike(self.mark)


class Settle:
    """The call that settles by a method."""

    def __init__(self, method):
        self.method = method

    def perform(self, sheet, fares, book):
        return sheet.settle(fares, book, self.method)


class Ask:
    """The call that asks for a mark."""

    def __init__(self, mark):
        self.mark = mark

    def perform(self, sheet, fares, book):
        return sheet.ask(self.mark)


def perform_list(width, fares, book, calls, replies):
    """Make a new sheet and write the reply to call i into record i; a reply is what
    the call answered, None for done, or the refusal it met."""
    sheet = Sheet(width)
    if len(replies) < len(calls):
        raise Refused(OUTPUT_SHORT)
    for index, call in enumerate(calls):
        try:
            replies[index] = call.perform(sheet, fares, book)
        except Refused as refusal:
            replies[index] = refusal
