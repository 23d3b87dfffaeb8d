"""Full and guarded yields, the two methods of settling, verdicts and sound readings, each by its definition."""

from collections import namedtuple

from records import MOST_FARES, check_records
from refusal import WIDTH, Refused

CLEAR = 0
SUSPECT = 1
BROKEN = 2

NOT = 0
HOLDS = 1
OPEN = 2
BOTH = 3

# a fare line that has been found lawful, or a fact, with its lists as sets
Rule = namedtuple("Rule", "head conditions unless")

Settled = namedtuple("Settled", "verdict rounds t u")


def check(widths, fares, width):
    """The tests of every settling function: 7 for widths that differ, then 8 for the fare lines."""
    if any(other != width for other in widths):
        raise Refused(WIDTH)
    check_records(fares, MOST_FARES, width)


def rules_of(facts, fares):
    """The fare lines, and each fact as a fare line with two empty lists."""
    rules = [Rule(line.head, frozenset(line.conditions.used()), frozenset(line.unless.used()))
             for line in fares]
    return rules + [Rule(mark, frozenset(), frozenset()) for mark in sorted(facts.marks)]


def least_set(book, start, rules):
    """The least set that holds the start, is closed, and holds the head of each
    of these rules whose conditions it holds; unless-marks are the caller's matter."""
    found = book.closure(frozenset(start))
    while True:
        heads = {rule.head for rule in rules if rule.conditions <= found}
        if heads <= found:
            return found
        found = book.closure(found | heads)


def undenied(book, rules, given):
    """The rules whose head the book does not deny at the given set."""
    heads = {rule.head for rule in rules}
    denied = {head for head in heads if book.denies(head, given)}
    return [rule for rule in rules if rule.head not in denied]


def rules_full_yield(book, rules, given):
    firing = [rule for rule in rules if not rule.unless & given]
    return least_set(book, (), firing)


def rules_guarded_yield(book, rules, given):
    firing = [rule for rule in rules if not rule.unless & given]
    return least_set(book, (), undenied(book, firing, given))


def rules_first_method(book, rules):
    """Give T and U after each round of the alternating fixpoint, the last round included."""
    t, u = frozenset(), book.all_marks()
    while True:
        before = t, u
        t = rules_full_yield(book, rules, u)
        u = rules_guarded_yield(book, rules, t)
        yield t, u
        if (t, u) == before:
            return


def rules_second_method(book, rules):
    """Give T and U after each round of the iterated method, which keeps T and F."""
    t, f = frozenset(), frozenset()
    while True:
        # 1: grow T by the lines whose unless-marks are all in F
        certain = [rule for rule in rules if rule.unless <= f]
        grown = least_set(book, t, certain)
        # 2: what can still come about
        possible = [rule for rule in rules
                    if not rule.conditions & f and not rule.unless & grown]
        y = least_set(book, (), undenied(book, possible, grown))
        # 3: what cannot
        new_f = f | (book.all_marks() - y)
        before = t, f
        t, f = grown, new_f
        yield t, book.all_marks() - f
        if (t, f) == before:
            return


METHODS = {1: rules_first_method, 2: rules_second_method}


def verdict_of(book, rules, t, u):
    """The verdict read off the least reading."""
    if book.clashes(frozenset()) or t - u:
        return BROKEN
    if rules_full_yield(book, rules, t) != rules_guarded_yield(book, rules, t):
        return SUSPECT
    return CLEAR


def answer(mark, t, u):
    """The answer for a mark by the T and U of the least reading."""
    if mark in t:
        return HOLDS if mark in u else BOTH
    return OPEN if mark in u else NOT


# The calls.

def full_yield(facts, fares, book, given):
    check((facts.width, given.width), fares, book.width)
    return rules_full_yield(book, rules_of(facts, fares), frozenset(given.marks))


def guarded_yield(facts, fares, book, given):
    check((facts.width, given.width), fares, book.width)
    return rules_guarded_yield(book, rules_of(facts, fares), frozenset(given.marks))


def all_rounds(facts, fares, book, method):
    """T and U after each round of the method."""
    check((facts.width,), fares, book.width)
    return list(METHODS[method](book, rules_of(facts, fares)))


def settle(facts, fares, book, method):
    """Verdict, rounds, T and U by the method."""
    rounds = all_rounds(facts, fares, book, method)
    t, u = rounds[-1]
    return Settled(verdict_of(book, rules_of(facts, fares), t, u), len(rounds), t, u)


def is_sound(facts, fares, book, tried):
    """Whether the set is a sound reading: no clash at it, and its full yield is the set again."""
    check((facts.width, tried.width), fares, book.width)
    marks = frozenset(tried.marks)
    if book.clashes(marks):
        return False
    return rules_full_yield(book, rules_of(facts, fares), marks) == marks
