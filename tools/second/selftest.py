"""Tests the second implementation against the examples of the documents and against what they promise; prints 'N passed, M failed'."""

import itertools
import os
import random
import re

import examples
import leb
import readings
import tariff_file
import words
from books import BareBook
from marks import MarkSet
from records import DENIES, GIVES, FareLine, TermLine
from refusal import Refused
from second import VERDICTS, run_case
from sheet import Enter, Settle, perform_list
from wellfounded import well_founded

passed = 0
failed = 0


def expect(name, got, wanted):
    global passed, failed
    if got == wanted:
        passed += 1
    else:
        failed += 1
        print("%s: got %s, wanted %s" % (name, got, wanted))


def subsets(width):
    marks = range(width)
    for size in range(width + 1):
        for chosen in itertools.combinations(marks, size):
            yield frozenset(chosen)


def test_examples():
    for case, printed in examples.ALL:
        expect(case, run_case(case), printed)


def test_document():
    """The table of CASES.md as it stands, where it can be found."""
    path = os.path.join(os.path.dirname(os.path.abspath(__file__)), "../../docs/CASES.md")
    if not os.path.exists(path):
        return
    with open(path) as file:
        text = file.read()
    rows = re.findall(r"^\| `([^`]+)` \| `([^`]+)` \|$", text.split("## Examples")[1], re.M)
    expect("rows of CASES.md", rows, examples.CASES)


def test_rounds():
    """T and U after each round, by both methods, the sound readings and the verdict."""
    for name, facts, fares, book, rounds, verdict, _, sound in examples.SHEETS:
        facts = words.read_set(facts)
        fares = words.read_fares(fares)
        book = words.read_book(book.split())
        for method in (1, 2):
            got = [(words.marks_text(t), words.marks_text(u))
                   for t, u in readings.all_rounds(facts, fares, book, method)]
            expect(name, got, rounds)
            settled = readings.settle(facts, fares, book, method)
            expect(name, VERDICTS[settled.verdict], verdict)
        got = [words.marks_text(tried) for tried in subsets(book.width)
               if readings.is_sound(facts, fares, book, MarkSet(book.width, tried))]
        expect(name, got, sound)


def some_list(chance, width, most):
    return sorted(chance.sample(range(width), chance.randint(0, min(most, width))))


def some_book(chance, width, deep=2):
    kind = chance.choice(["bare", "line", "line", "world", "barred"] if deep else
                         ["bare", "line", "world"])
    if kind == "bare":
        return words.read_book(["bare", str(width)])
    if kind == "line":
        lines = [TermLine(chance.choice([GIVES, GIVES, DENIES]), chance.randrange(width),
                          some_list(chance, width, 3)) for _ in range(chance.randint(0, 5))]
        return words.read_book(["line", str(width), words.terms_text(lines)])
    if kind == "world":
        worlds = ["%d:%s" % (width, words.list_text(some_list(chance, width, width)))
                  for _ in range(chance.randint(0, 4))]
        return words.read_book(["world", str(width), "+".join(worlds) or "-"])
    book = words.BarredBook(some_book(chance, width, deep - 1))
    if width > 1:
        book.fill([words.Bar(*sorted(chance.sample(range(width), 2)))
                   for _ in range(chance.randint(0, 2))])
    return book


def laws_kept(book):
    """The six laws at all sets of the book's width."""
    sets = list(subsets(book.width))
    closure = {s: book.closure(s) for s in sets}
    clash = {s: book.clashes(s) for s in sets}
    for s in sets:
        if not s <= closure[s] or closure[closure[s]] != closure[s]:
            return False
        if clash[closure[s]] and not clash[s]:
            return False
        if clash[s] and closure[s] != book.all_marks():
            return False
        for bigger in sets:
            if s <= bigger and not closure[s] <= closure[bigger]:
                return False
            if s <= bigger and clash[s] and not clash[bigger]:
                return False
    return True


def least_by_search(book, rules, given, guarded):
    """The yield found among all sets of the width: the one that lies within every other."""
    firing = [rule for rule in rules if not rule.unless & given]
    if guarded:
        firing = [rule for rule in firing if not book.clashes(given | {rule.head})]
    fitting = [x for x in subsets(book.width) if book.closure(x) == x
               and all(rule.head in x for rule in firing if rule.conditions <= x)]
    return frozenset.intersection(*fitting)


def test_promises():
    """What RULES.md promises, on random small tariffs with all kinds of book."""
    chance = random.Random(1)
    for number in range(300):
        width = chance.randint(1, 4)
        book = some_book(chance, width)
        facts = MarkSet(width, some_list(chance, width, chance.randint(0, 1)))
        fares = [FareLine(chance.randrange(width), some_list(chance, width, 2),
                          some_list(chance, width, 2)) for _ in range(chance.randint(0, 7))]
        rules = readings.rules_of(facts, fares)
        name = "tariff %d" % number
        expect(name + " laws", laws_kept(book), True)
        full, guarded = {}, {}
        for s in subsets(width):
            full[s] = readings.rules_full_yield(book, rules, s)
            guarded[s] = readings.rules_guarded_yield(book, rules, s)
        expect(name + " least sets",
               all(full[s] == least_by_search(book, rules, s, False)
                   and guarded[s] == least_by_search(book, rules, s, True) for s in full), True)
        expect(name + " guarded within full", all(guarded[s] <= full[s] for s in full), True)
        expect(name + " yields shrink",
               all(full[b] <= full[a] and guarded[b] <= guarded[a]
                   for a in full for b in full if a <= b), True)
        # the least reading among all readings
        pairs = [(t, u) for u, t in full.items() if guarded[t] == u]
        first = readings.all_rounds(facts, fares, book, 1)
        t, u = first[-1]
        expect(name + " a reading", (t, u) in pairs, True)
        expect(name + " the least", all(t <= other and more <= u for other, more in pairs), True)
        expect(name + " methods", readings.all_rounds(facts, fares, book, 2), first)
        expect(name + " rounds", 1 <= len(first) <= width + 2, True)
        # verdicts and sound readings
        verdict = readings.verdict_of(book, rules, t, u)
        sound = [m for m in full
                 if readings.is_sound(facts, fares, book, MarkSet(width, m))]
        expect(name + " sound", all(t <= m <= u and full[m] == m == guarded[m] for m in sound),
               True)
        expect(name + " broken", verdict == readings.BROKEN, book.clashes(t))
        if verdict == readings.BROKEN:
            expect(name + " none sound", sound, [])
            expect(name + " all in T", t, book.all_marks())
        else:
            expect(name + " T within U", t <= u, True)
        # the well-founded model is the least reading with the bare book
        model_t, model_f = well_founded(facts, fares)
        bare = BareBook(width)
        t, u = readings.all_rounds(facts, fares, bare, 1)[-1]
        expect(name + " well-founded", (model_t, bare.all_marks() - model_f), (t, u))


def test_numbers():
    """Each number has one form, which reads back; writing needs exactly its bytes."""
    wrong = []
    for value in range(65536):
        form = leb.encode(value)
        if leb.decode(form, 0) != (value, len(form)):
            wrong.append(value)
    expect("numbers", wrong, [])
    for value, size in ((0, 1), (127, 1), (128, 2), (16383, 2), (16384, 3), (65535, 3)):
        expect("spell %d" % value, run_case("spell %d 2 %d" % (2 + size, value)),
               "ok %d aaaa%s" % (2 + size, leb.encode(value).hex()))
        expect("spell %d" % value, run_case("spell %d 2 %d" % (1 + size, value)),
               "refused 13 " + "aa" * (1 + size))


def test_largest_file():
    marks = range(504, 512)
    fares = [FareLine(511, marks, marks)] * 1024
    terms = [TermLine(GIVES, 511, marks)] * 512
    out = bytearray(47111)
    expect("largest file", tariff_file.write_file(512, fares, terms, out), 47110)
    read = tariff_file.read_file(out[:47110], 1024, 512)
    expect("largest file back", read == (512, fares, terms), True)
    try:
        tariff_file.write_file(512, fares, terms, bytearray(47109))
        expect("largest file, too little room", None, 13)
    except Refused as refusal:
        expect("largest file, too little room", refusal.number, 13)


def test_unused_places():
    """Unused places and the head of a denial have no influence."""
    line = FareLine(1, [2], [3])
    line.conditions.places[1:] = [65535] * 7
    expect("unused places", (line.lawful(4), line == FareLine(1, [2], [3])), (True, True))
    denial = TermLine(DENIES, 65535, [0])
    expect("denial", (denial.lawful(1), denial == TermLine(DENIES, 0, [0])), (True, True))


def test_sets():
    """The calls on sets and what they refuse."""
    def refusal_of(call, *arguments):
        try:
            call(*arguments)
        except Refused as refusal:
            return refusal.number
        return 0

    for width, number in ((0, 7), (1, 0), (512, 0), (513, 7)):
        expect("empty", refusal_of(MarkSet.empty, width), number)
        expect("full", refusal_of(MarkSet.full, width), number)
    given, wide = MarkSet(5, [0, 3]), MarkSet(6, [1])
    expect("insert", (refusal_of(given.insert, 5), refusal_of(given.insert, 3)), (9, 0))
    expect("remove", (refusal_of(given.remove, 5), refusal_of(given.remove, 4)), (9, 0))
    for call in (given.union, given.intersection, given.difference, given.subset, given.equal):
        expect("two widths", refusal_of(call, wide), 7)
    expect("as it was", (given.marks, wide.marks), ({0, 3}, {1}))
    expect("contains", (given.contains(3), given.contains(700)), (True, False))


def test_list_refused():
    """A refused list writes no record; records behind the last reply stay."""
    replies = ["as it was"] * 3
    perform_list(2, [], BareBook(2), [Enter(1), Settle(1)], replies)
    expect("records behind", (replies[:2], replies[2]), ([None, (0, 2)], "as it was"))
    replies = ["as it was"]
    number = 0
    try:
        perform_list(2, [], BareBook(2), [Enter(1), Settle(1)], replies)
    except Refused as refusal:
        number = refusal.number
    expect("too few records", (number, replies), (13, ["as it was"]))


def main():
    for test in (test_examples, test_document, test_rounds, test_promises, test_numbers,
                 test_largest_file, test_unused_places, test_sets, test_list_refused):
        test()
    print("%d passed, %d failed" % (passed, failed))
    raise SystemExit(1 if failed else 0)


if __name__ == "__main__":
    main()
