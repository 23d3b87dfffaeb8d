"""The well-founded model of facts and fare lines without a book, by unfounded sets."""

from readings import rules_of
from records import MOST_FARES, check_records


def grow(t, f, rules):
    """Put into T the heads of the lines whose conditions it holds and whose unless-marks
    are all in F, until none is missing."""
    certain = [rule for rule in rules if rule.unless <= f]
    while True:
        before = len(t)
        for rule in certain:
            if rule.conditions <= t:
                t.add(rule.head)
        if len(t) == before:
            return


def greatest_unfounded(width, rules, t, f):
    """All marks that lie in some set unfounded at T, F; their union is unfounded too."""
    # lines that have neither a condition in F nor an unless-mark in T; where the head
    # of one is in an unfounded set, a condition must be in the set as well
    live = [rule for rule in rules
            if rule.conditions.isdisjoint(f) and rule.unless.isdisjoint(t)]
    found = set(range(width))
    while True:
        before = len(found)
        for rule in live:
            if rule.conditions.isdisjoint(found):
                found.discard(rule.head)
        if len(found) == before:
            return found


def well_founded(facts, fares):
    """The least pair T, F; both only ever take in what each such pair has."""
    check_records(fares, MOST_FARES, facts.width)
    rules = rules_of(facts, fares)
    t, f = set(), set()
    while True:
        before = len(t) + len(f)
        grow(t, f, rules)
        f |= greatest_unfounded(facts.width, rules, t, f)
        if len(t) + len(f) == before:
            return frozenset(t), frozenset(f)
