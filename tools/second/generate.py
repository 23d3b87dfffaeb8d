"""Prints some thousands of case lines, random but repeatable: python3 generate.py SEED."""

import random
import sys

import examples
import leb
import readings
import tariff_file
import words
from marks import MarkSet

EDGES = [1, 2, 63, 64, 65, 127, 128, 129, 511, 512]
NO_WIDTHS = [0, 513, 65535]

# A tariff is kept here as plain tuples:
#   fare line  (head, conditions, unless-marks)
#   term line  (head or None for a denial, conditions)
#   book       ("bare",), ("line", terms), ("world", worlds), ("barred", bars, book below)

chance = random.Random()
lines = []


def put(*parts):
    lines.append(" ".join(str(part) for part in parts))


# Words from tuples.

def marks_word(marks):
    return ",".join(str(mark) for mark in marks)


def set_word(width, marks):
    return "%d:%s" % (width, marks_word(marks))


def fares_word(fares):
    return "+".join("%d/%s/%s" % (head, marks_word(conditions), marks_word(unless))
                    for head, conditions, unless in fares) or "-"


def terms_word(terms):
    return "+".join("%s/%s" % ("!" if head is None else head, marks_word(conditions))
                    for head, conditions in terms) or "-"


def worlds_word(width, worlds):
    return "+".join(set_word(width, world) for world in worlds) or "-"


def bars_word(bars):
    return "+".join("%d-%d" % bar for bar in bars) or "-"


def book_word(width, book):
    if book[0] == "bare":
        return "bare %d" % width
    if book[0] == "line":
        return "line %d %s" % (width, terms_word(book[1]))
    if book[0] == "world":
        return "world %d %s" % (width, worlds_word(width, book[1]))
    return "barred %s %s" % (bars_word(book[1]), book_word(width, book[2]))


def hex_word(data):
    return bytes(data).hex() or "-"


# Random pieces.

def ascending(width, most):
    return sorted(chance.sample(range(width), chance.randint(0, min(most, width))))


def half(width):
    """A random set of the width, each mark with the same chance."""
    share = chance.random()
    return [mark for mark in range(width) if chance.random() < share]


def likely(share):
    return chance.random() < share


def any_width():
    """Many small widths, some at the edges, some anywhere."""
    return chance.choice([chance.randint(1, 8), chance.randint(1, 8), chance.choice(EDGES),
                          chance.randint(1, 512)])


def near(width):
    """A mark: below the width mostly, else at it or far above."""
    if likely(0.85):
        return chance.randrange(width)
    return chance.choice([width, width, width + 1, 511, 512, 65535])


def some_fares(width, most):
    """Random fare lines; loops through unless-marks are planted among them."""
    fares = [(chance.randrange(width), ascending(width, chance.choice([0, 1, 1, 2, 3])),
              ascending(width, chance.choice([0, 1, 1, 2]))) for _ in range(chance.randint(1, most))]
    while likely(0.4):
        a, b = chance.choices(range(width), k=2)
        fares += [(a, [], [b]), (b, [], [a])]
    if likely(0.3):
        chain = chance.sample(range(width), chance.randint(1, width))
        fares += [(after, [], [before]) for before, after in zip(chain, chain[1:])]
    chance.shuffle(fares)
    return fares


def some_terms(width, most):
    return [(None if likely(0.35) else chance.randrange(width),
             ascending(width, chance.choice([1, 2, 2, 3]))) for _ in range(chance.randint(0, most))]


def some_worlds(width):
    """Worlds; sometimes all of them hold most marks, so that few sets clash."""
    worlds = []
    for _ in range(chance.choice([0, 1, 1, 2, 2, 3, 3, 4, 5, 6])):
        out = ascending(width, chance.choice([1, 2, width]))
        worlds.append([mark for mark in range(width) if mark not in out])
    return worlds


def some_bars(width):
    if width < 2:
        return []
    return [tuple(sorted(chance.sample(range(width), 2))) for _ in range(chance.randint(0, 3))]


def some_book(width, deep=2):
    kind = chance.choice(["bare", "line", "line", "line", "world", "world"] + ["barred"] * deep)
    if kind == "bare":
        return ("bare",)
    if kind == "line":
        return ("line", some_terms(width, width + 1))
    if kind == "world":
        return ("world", some_worlds(width))
    return ("barred", some_bars(width), some_book(width, deep - 1))


class Tariff:
    """A width, facts, fare lines and a book, with their words and what they settle to."""

    def __init__(self, width, facts, fares, book):
        self.width = width
        self.facts = facts
        self.fares = fares
        self.book = book
        self.facts_word = set_word(width, facts)
        self.fares_word = fares_word(fares)
        self.book_word = book_word(width, book)

    def settle(self):
        return readings.settle(MarkSet(self.width, self.facts), words.read_fares(self.fares_word),
                               words.read_book(self.book_word.split(" ")), 1)

    def sound(self):
        """All sound readings, by trying every set between T and U; none where these are too many."""
        settled = self.settle()
        if settled.verdict == readings.BROKEN or len(settled.u - settled.t) > 9:
            return []
        book = words.read_book(self.book_word.split(" "))
        rules = readings.rules_of(MarkSet(self.width, self.facts),
                                  words.read_fares(self.fares_word))
        left = sorted(settled.u - settled.t)
        found = []
        for number in range(2 ** len(left)):
            tried = settled.t | {mark for index, mark in enumerate(left) if number >> index & 1}
            if not book.clashes(tried) and readings.rules_full_yield(book, rules, tried) == tried:
                found.append(sorted(tried))
        return found

    def renamed(self, width, names):
        """The same tariff in another width; the names ascend, so lists stay ascending."""
        def listed(marks):
            return [names[mark] for mark in marks]

        def in_book(book):
            if book[0] == "line":
                return ("line", [(None if head is None else names[head], listed(conditions))
                                 for head, conditions in book[1]])
            if book[0] == "world":
                others = [mark for mark in range(width) if mark not in names and likely(0.03)]
                return ("world", [sorted(listed(world) + others) for world in book[1]])
            if book[0] == "barred":
                return ("barred", [(names[a], names[b]) for a, b in book[1]], in_book(book[2]))
            return book

        return Tariff(width, listed(self.facts),
                      [(names[head], listed(conditions), listed(unless))
                       for head, conditions, unless in self.fares], in_book(self.book))


def some_tariff(width):
    return Tariff(width, ascending(width, chance.choice([0, 1, 1, 2])),
                  some_fares(width, 2 * width), some_book(width))


def suspect_tariff(width):
    """A tariff with a good chance of being suspect: a denied head, held up by something open."""
    tariff = some_tariff(width)
    a, b, c = chance.choices(range(width), k=3)
    fares = tariff.fares + [(a, [], [b]), (b, [], [a]), (c, ascending(width, 1), [a])]
    facts = ascending(width, 2)
    with_c = sorted({c} | set(ascending(width, 1)))
    if likely(0.7):
        book = ("line", [(None, with_c)] + some_terms(width, 3))
    else:
        book = ("barred", [tuple(sorted((c, mark))) for mark in facts if mark != c],
                some_book(width, 1))
    return Tariff(width, facts, fares, book)


def slow_tariff(width):
    """A tariff with a good chance of many rounds: a chain through unless-marks, conditions and the book."""
    order = chance.sample(range(width), width)
    fares, terms = some_fares(width, 2), some_terms(width, 2)
    for before, after in zip(order, order[1:]):
        if likely(0.7):
            fares.append((after, ascending(width, chance.choice([0, 0, 1])), [before]))
        elif likely(0.5):
            fares.append((after, [before], []))
        else:
            terms.append((after, [before]))
    chance.shuffle(fares)
    chance.shuffle(terms)
    book = ("line", terms)
    for _ in range(chance.choice([0, 0, 0, 1, 2])):
        book = ("barred", some_bars(width), book)
    return Tariff(width, ascending(width, 1), fares, book)


def wanted_tariff():
    """A small tariff with a quality drawn by chance, if a search of some tries finds one."""
    want = chance.choice(["any", "any", "suspect", "suspect", "broken", "broken", "rounds", "rounds",
                          "rounds", "sound", "sound", "open"])
    rounds = chance.choice([3, 4, 4, 5])
    for _ in range(60):
        width = chance.randint(2, 8)
        kind = {"suspect": suspect_tariff, "rounds": slow_tariff}.get(want, some_tariff)
        tariff = kind(width)
        settled = tariff.settle()
        left = settled.u - settled.t
        if want == "any":
            break
        if want == "suspect" and settled.verdict == readings.SUSPECT:
            break
        if want == "broken" and settled.verdict == readings.BROKEN and 0 < len(settled.u) < width:
            break
        if want == "rounds" and settled.rounds >= rounds:
            break
        if want == "open" and len(left) >= 3:
            break
        if want == "sound" and left and len(tariff.sound()) >= 1:
            break
    return tariff


def wide_tariff():
    """A small tariff spread over a larger width, with its marks at the edges where there are any."""
    small = wanted_tariff()
    width = max(chance.choice(EDGES[2:] + [chance.randint(9, 512)]), small.width)
    edges = [mark for mark in (0, 62, 63, 64, 65, 126, 127, 128, 129, 191, 192, 510, width - 1)
             if mark < width]
    names = set(chance.sample(edges, min(len(edges), small.width)))
    while len(names) < small.width:
        names.add(chance.randrange(width))
    return small.renamed(width, sorted(names))


# Damage.

def unlawful_fare(width):
    """A fare line that is not lawful for the width, as a word."""
    a, b = sorted(chance.choices(range(width), k=2))
    many = range(chance.choice([9, 10, 16, 100, 255]))
    return chance.choice([
        "%d//" % width, "65535//", "%d/%d/" % (a, width), "%d//%d" % (a, width),
        "%d/%d,65535/" % (a, b), "%d//%d,65535" % (a, b),
        "%d/%d,%d/" % (a, b, a), "%d//%d,%d" % (a, b, a), "%d//%d,%d" % (a, a, a),
        "%d/%s/" % (a, marks_word(many)), "%d//%s" % (a, marks_word(many)),
        "%d/0,0/" % a, "%d/%s/%d" % (a, marks_word(range(9)), b)])


def unlawful_term(width):
    a, b = sorted(chance.choices(range(width), k=2))
    return chance.choice([
        "%d/" % width, "65535/%d" % a, "%d/%d" % (a, width), "!/%d" % width, "!/%d,%d" % (b, a),
        "%d/%d,%d" % (a, a, a), "!/%s" % marks_word(range(9)), "%d/%s" % (a, marks_word(range(255))),
        "!/65535"])


def unlawful_bar(width):
    a, b = sorted(chance.choices(range(width), k=2))
    return chance.choice(["%d-%d" % (b, a), "%d-%d" % (a, a), "%d-%d" % (a, width),
                          "%d-65535" % a, "65535-65535", "%d-%d" % (width, width + 1)])


def among(word, bad, separator="+"):
    """Put the bad item somewhere among the items of the word."""
    items = [] if word == "-" else word.split(separator)
    items.insert(chance.randint(0, len(items)), bad)
    return separator.join(items)


def unmakeable_book(width):
    """A book that is refused, or at times one that only just is not."""
    kind = chance.choice(["bare", "line", "line", "world", "world", "barred", "barred", "below"])
    if kind == "bare":
        return "bare %d" % chance.choice(NO_WIDTHS)
    if kind == "line":
        terms = terms_word(some_terms(width, 4))
        return chance.choice([
            "line %d %s" % (chance.choice(NO_WIDTHS), terms),
            "line %d %s" % (width, among(terms, unlawful_term(width))),
            "line %d 0/*%d" % (width, chance.choice([512, 513])),
            "line %d !/0*%d" % (width, chance.choice([512, 513]))])
    if kind == "world":
        worlds = worlds_word(width, some_worlds(width))
        other = chance.choice([other for other in (width - 1, width + 1, 1, 512)
                               if 1 <= other <= 512 and other != width])
        return chance.choice([
            "world %d %s" % (chance.choice(NO_WIDTHS), worlds),
            "world %d %s" % (width, among(worlds, "%d:" % other)),
            "world %d %s" % (width, among(worlds, "%d:*65" % width)),
            "world %d %d:*%d" % (width, width, chance.choice([64, 65])),
            "world %d %s" % (width, among("%d:*65" % width, "%d:0" % other))])
    if kind == "barred":
        bars = bars_word(some_bars(width))
        below = book_word(width, some_book(width, 1))
        return chance.choice([
            "barred %s %s" % (among(bars, unlawful_bar(width)), below),
            "barred 0-%d*%d %s" % (max(width - 1, 1), chance.choice([32, 33]), below)])
    return "barred %s %s" % (bars_word(some_bars(width)), unmakeable_book_flat(width))


def unmakeable_book_flat(width):
    """One without bars, to stand below a barred one."""
    while True:
        book = unmakeable_book(width)
        if not book.startswith("barred"):
            return book


def damage(data):
    """The bytes with one changed, cut off, or with one behind them."""
    data = bytearray(data)
    how = chance.choice(["change", "change", "change", "step", "top", "cut", "behind", "long",
                         "leave out"])
    if how == "behind" or not data:
        return data + bytes([chance.choice([0, 1, 128, chance.randrange(256)])])
    place = chance.randrange(len(data))
    if how == "change":
        data[place] = chance.choice([0, 1, 2, 3, 4, 8, 9, 127, 128, 129, 255, chance.randrange(256)])
    elif how == "step":
        data[place] = (data[place] + chance.choice([1, -1])) % 256
    elif how == "top":
        data[place] ^= 128
    elif how == "cut":
        data = data[:place]
    elif how == "long":
        # a number spelt longer than it need be
        data[place:place + 1] = [data[place] | 128, 0]
    else:
        del data[place]
    return data


def file_of(tariff):
    """The tariff's file; a book of another kind is left out."""
    terms = terms_word(tariff.book[1]) if tariff.book[0] == "line" else "-"
    return tariff_file.file_bytes(tariff.width, words.read_fares(tariff.fares_word),
                                  words.read_terms(terms))


def line_tariff():
    """A tariff with a line book."""
    while True:
        tariff = wanted_tariff() if likely(0.7) else wide_tariff()
        if tariff.book[0] == "line":
            return tariff


def facts_string(marks):
    return leb.encode(len(marks)) + b"".join(leb.encode(mark) for mark in marks)


# Kinds of case.

def put_examples():
    for case, _ in examples.ALL:
        put(case)


def put_numbers():
    values = [0, 1, 2, 7, 8, 9, 126, 127, 128, 129, 130, 255, 256, 511, 512, 513, 1023, 1024, 1025,
              12857, 16383, 16384, 16385, 32767, 32768, 65534, 65535]
    for value in values:
        form = leb.encode(value)
        put("number", 0, 65535, hex_word(form))
        put("number", value, value, hex_word(form + bytes([chance.randrange(256)])))
        if value:
            put("number", 0, value - 1, hex_word(form))
        if value < 65535:
            put("number", value + 1, 65535, hex_word(form))
        put("number", 0, 65535, hex_word(form[:-1]))
        # not the shortest form
        longer = bytes([byte | 128 for byte in form]) + b"\0"
        put("number", 0, 65535, hex_word(longer))
        size = len(form)
        place = chance.randint(0, 3)
        for room in (place + size - 1, place + size, place + size + chance.randint(1, 3)):
            put("spell", room, place, value)
    for value in (65536, 65537, 65663, 131071, 2097151, 2097152, 624485):
        put("number", 0, 65535, hex_word(leb.encode(value)))
    for text in ("80808000", "808080", "ffffff", "ffffffff0f", "ff00", "ffff00", "ffff01", "ffff03",
                 "ffff04", "ffff7f", "ffff80", "818000", "80808001", "ff80", "ff8001", "8180"):
        put("number", 0, 65535, text)
        put("number", 1, 512, text)
    for _ in range(150):
        data = [chance.choice([0, 1, 2, 3, 4, 5, 127, 128, 129, 130, 255, chance.randrange(256)])
                for _ in range(chance.randint(0, 5))]
        low = chance.choice([0, 0, 1, chance.randint(0, 65535)])
        high = chance.choice([65535, 512, 1024, 8, 2, chance.randint(0, 65535)])
        if low <= high:
            put("number", low, high, hex_word(data))
    for room, place, value in ((0, 0, 0), (0, 1, 0), (1, 0, 0), (1, 1, 0), (1, 2, 0), (2, 0, 16384),
                               (3, 0, 65535), (3, 65535, 1), (2, 0, 16383), (3, 1, 65535)):
        put("spell", room, place, value)
    for _ in range(60):
        room = chance.randint(0, 8)
        put("spell", room, chance.randint(0, room + 2),
            chance.choice([chance.randint(0, 127), chance.randint(128, 16383),
                           chance.randint(16384, 65535)]))


def put_facts():
    for width in NO_WIDTHS:
        put("facts", width, "00")
        put("facts", width, "-")
    for width in EDGES:
        put("facts", width, hex_word(facts_string(range(width))))
        put("facts", width, hex_word(facts_string([width - 1])))
        put("facts", width, hex_word(facts_string([width])))
        put("facts", width, hex_word(facts_string([0, width - 1])))
        put("facts", width, hex_word(leb.encode(512)))
        put("facts", width, hex_word(leb.encode(513)))
        put("facts", width, hex_word(leb.encode(513) + b"\0"))
    put("facts", 512, hex_word(facts_string(range(512)) + b"\0"))
    put("facts", 512, hex_word(facts_string(range(513))))
    put("facts", 511, hex_word(facts_string(range(512))))
    put("facts", 3, hex_word(facts_string([65535])))
    put("facts", 3, hex_word(facts_string([0, 65535])))
    for _ in range(200):
        width = any_width()
        data = facts_string(ascending(width, chance.choice([1, 3, 12])))
        put("facts", width, hex_word(data if likely(0.25) else damage(data)))
    for _ in range(60):
        width = chance.randint(1, 5)
        put("facts", width, hex_word([chance.choice([0, 1, 2, 3, 4, 5, 128, 129])
                                      for _ in range(chance.randint(0, 5))]))


def put_reads():
    # every byte of the sample file changed to some values, and every proper beginning (in the examples)
    sample = bytes.fromhex(examples.SAMPLE_FILE)
    for place in range(len(sample)):
        for byte in (0, 5, 9, 128):
            data = bytearray(sample)
            data[place] = byte
            put("read", 1024, 512, hex_word(data))
    for number in range(340):
        tariff = line_tariff()
        data = file_of(tariff)
        if len(data) > 1500:
            continue
        room = (len(tariff.fares), len(tariff.book[1]))
        if number % 6 == 0:
            put("read", room[0], room[1], hex_word(data))
        elif number % 6 == 1:
            # too little room, or just enough, of a file that may be damaged
            put("read", max(room[0] - chance.randint(0, 1), 0),
                max(room[1] - chance.randint(0, 1), 0),
                hex_word(data if likely(0.5) else damage(data)))
        else:
            put("read", 1024, 512, hex_word(damage(data)))
    # random bytes that make many short files
    for _ in range(80):
        data = [chance.randint(1, 3), chance.randint(0, 1), chance.randint(0, 2)]
        data += [chance.choice([0, 0, 1, 1, 1, 2, 2, 3]) for _ in range(chance.randint(0, 9))]
        put("read", 2, 2, hex_word(data))
    # counts at their limits and one past
    put("read", 1024, 512, hex_word(tariff_file.file_bytes(
        3, words.read_fares("1/0/2*1024"), words.read_terms("2/0*512"))))
    put("read", 1023, 512, hex_word(tariff_file.file_bytes(3, words.read_fares("1//*1024"), [])))
    put("read", 1024, 511, hex_word(tariff_file.file_bytes(3, [], words.read_terms("!/2*512"))))
    put("read", 2000, 2000, hex_word(tariff_file.file_bytes(3, words.read_fares("1//*1025"), [])))
    put("read", 2000, 2000, hex_word(tariff_file.file_bytes(3, [], words.read_terms("!/2*513"))))
    for width in (1, 127, 128, 129, 511, 512, 513, 65535):
        put("read", 0, 0, hex_word(leb.encode(width) + b"\0\0"))
    for conditions in (8, 9):
        put("read", 1, 1, hex_word(tariff_file.encode(300) + b"\1\0\1" + facts_string(
            range(290, 290 + conditions)) + b"\0"))
        put("read", 1, 1, hex_word(tariff_file.encode(300) + b"\1\0\1\0" + facts_string(
            range(conditions))))
        put("read", 1, 1, hex_word(tariff_file.encode(300) + b"\0\1\2" + facts_string(
            range(conditions))))
    # the largest file
    marks = [[sorted(chance.sample(range(128, 512), 8)) for _ in range(2)] for _ in range(1536)]
    fares = [(chance.randrange(128, 512), a, b) for a, b in marks[:1024]]
    terms = [(chance.randrange(128, 512), a) for a, _ in marks[1024:]]
    data = tariff_file.file_bytes(512, words.read_fares(fares_word(fares)),
                                  words.read_terms(terms_word(terms)))
    assert len(data) == 47110
    put("read", 1024, 512, hex_word(data))


def put_writes():
    for _ in range(80):
        tariff = line_tariff()
        size = len(file_of(tariff))
        room = chance.choice([size, size, size - 1, size + chance.randint(1, 3),
                              chance.randint(0, size)])
        put("write", tariff.width, room, tariff.fares_word, terms_word(tariff.book[1]))
    for _ in range(90):
        tariff = line_tariff()
        fares, terms = tariff.fares_word, terms_word(tariff.book[1])
        what = chance.choice(["fare", "fare", "term", "term", "width", "both"])
        width = tariff.width
        if what in ("fare", "both"):
            fares = among(fares, unlawful_fare(width))
        if what == "term":
            terms = among(terms, unlawful_term(width))
        if what == "width" or what == "both" and likely(0.5):
            width = chance.choice(NO_WIDTHS)
        put("write", width, chance.choice([0, 3, 40]), fares, terms)
    for width in NO_WIDTHS + [1, 512]:
        for room in (0, 3, 4):
            put("write", width, room, "-", "-")
    put("write", 9, 5200, "1//*1024", "!/*512")
    put("write", 9, 30, "1//*1024", "!/*512")
    put("write", 9, 30, "1//*1025", "-")
    put("write", 9, 30, "-", "!/*513")
    put("write", 9, 30, "0/0,1,2,3,4,5,6,7/", "!/1,2,3,4,5,6,7,8")
    put("write", 9, 30, "0/0,1,2,3,4,5,6,7,8/", "-")
    put("write", 9, 30, "0//0,1,2,3,4,5,6,7,8", "-")
    put("write", 9, 30, "-", "!/0,1,2,3,4,5,6,7,8")
    put("write", 9, 30, "-", "8/0,1,2,3,4,5,6,7,8")
    high = "504,505,506,507,508,509,510,511"
    for room in (47109, 47110):
        put("write", 512, room, "511/%s/%s*1024" % (high, high), "511/%s*512" % high)


def put_hosts():
    for _ in range(380):
        tariff = line_tariff()
        data = file_of(tariff)
        facts = facts_string(tariff.facts)
        room = tariff.width + chance.choice([0, 0, 0, 1, 3])
        out = [chance.choice([0xAA, 0, 0xFF])] * room
        what = chance.choice(["good"] * 7 + ["file", "file", "facts", "facts", "out", "all"])
        if what in ("file", "all"):
            data = damage(data)
        if what in ("facts", "all"):
            facts = damage(facts)
        if what == "out" or what == "all" and likely(0.5):
            out = out[:chance.choice([0, tariff.width - 1, chance.randrange(tariff.width)])]
        put("host", hex_word(data), hex_word(facts), hex_word(out))
    put("host", "-", "-", "-")
    put("host", "010000", "-", "-")
    put("host", "010000", "00", "-")
    put("host", "010000", "00", "aa")
    put("host", "010000", "0100", "aa")
    put("host", "80040000", "00", "aa" * 511)
    put("host", "80040000", hex_word(facts_string(range(512))), "aa" * 513)
    put("host", "0100010200", "00", "aaaa")
    # as many lines as a file can count
    put("host", hex_word(tariff_file.file_bytes(
        200, words.read_fares("1/0/2*1023+199//1"), words.read_terms("150/199*511+!/0,150"))),
        "00", "aa" * 201)


def put_books():
    for width in (0, 1, 2, 511, 512, 513, 65535):
        for kind in ("bare %d", "line %d -", "world %d -", "barred - bare %d",
                     "barred - barred - world %d -"):
            put("make", kind % width)
    for _ in range(150):
        put("make", unmakeable_book(any_width()))
    for _ in range(30):
        width = any_width()
        put("make", book_word(width, some_book(min(width, 8))))
    for often in (511, 512, 513):
        put("make", "line 5 1/0*%d+!/2" % (often - 1))
    for often in (63, 64, 65):
        put("make", "world 5 5:0*%d+5:1,2" % (often - 1))
    for often in (31, 32, 33):
        put("make", "barred 0-1*%d+2-3 bare 5" % (often - 1))
    put("make", "barred 0-1*33 barred 0-1 bare 3")
    put("make", "barred 0-1 barred 0-1*33 bare 3")
    put("make", "barred 0-1*33 barred 2-1 line 0 -")
    put("make", "barred 2-1 barred 0-1 world 3 3:*65+2:")
    put("make", "barred 2-1 barred 0-1 world 3 3:*65")


def put_nexts():
    for width in EDGES:
        full = set_word(width, range(width))
        for start in sorted({0, 1, 62, 63, 64, 65, 127, 128, width - 1, width, width + 1, 512, 65535}):
            if likely(0.4):
                put("next", start, full if width < 130 else set_word(width, [width - 1]))
            if likely(0.3):
                put("next", start, "%d:" % width)
    for _ in range(100):
        width = any_width()
        marks = ascending(width, chance.choice([1, 2, 5, 20]))
        start = chance.choice(marks + [mark + 1 for mark in marks] + [0, near(width)])
        put("next", start, set_word(width, marks))
    put("next", 0, set_word(512, range(512)))


def put_closes():
    for _ in range(220):
        width = chance.randint(1, 8)
        put("close", set_word(width, half(width)), book_word(width, some_book(width)))
    for _ in range(110):
        tariff = wide_tariff()
        used = {mark for _, conditions in tariff.book[1] for mark in conditions} \
            if tariff.book[0] == "line" else set()
        pool = sorted(used | {0, tariff.width - 1})
        marks = sorted(chance.sample(pool, chance.randint(0, len(pool))))
        if likely(0.15):
            marks = list(range(chance.choice([0, 1]), tariff.width))
        put("close", set_word(tariff.width, marks), tariff.book_word)
    for _ in range(40):
        width = any_width()
        other = chance.choice([other for other in (width - 1, width + 1, 512, 1, 64)
                               if 1 <= other <= 512])
        small = min(width, 8)
        put("close", set_word(other, ascending(other, 2)), book_word(width, some_book(small)))
        put("close", set_word(other, []), unmakeable_book(small))
    for width in EDGES:
        put("close", "%d:" % width, "world %d -" % width)
        put("close", "%d:" % width, "line %d !/" % width)
        put("close", "%d:" % width, "line %d %d/" % (width, width - 1))
        put("close", "%d:" % width, "world %d %s" % (width, set_word(width, range(width))))
        put("close", set_word(width, range(width)), "bare %d" % width)
        put("close", set_word(width, range(width)), "world %d %s*64" % (
            width, set_word(width, range(width))))
    # as many worlds as there may be, and chains that run against the order of the lines
    width = 65
    worlds = [sorted(set(range(width)) - {index}) for index in range(64)]
    for marks in ([], [64], [0, 5], list(range(64)), list(range(63)), list(range(1, 64))):
        put("close", set_word(width, marks), "world 65 " + worlds_word(65, worlds))
    chain = terms_word([(index + 1, [index]) for index in reversed(range(511))])
    put("close", "512:3", "line 512 " + chain)
    put("close", "512:0", "line 512 " + chain + "+!/0,511")
    put("close", "512:1", "line 512 " + chain + "+!/0,511")


def put_settles(tariff):
    for method in (1, 2):
        put("settle", method, tariff.fares_word, tariff.facts_word, tariff.book_word)


def put_sound(tariff, tried):
    put("sound", tariff.fares_word, tariff.facts_word, set_word(tariff.width, tried),
        tariff.book_word)


def put_small():
    """Small dense tariffs: settled by both methods, with sets that are sound and sets that are not."""
    for _ in range(390):
        tariff = wanted_tariff()
        put_settles(tariff)
        sound = tariff.sound()
        for tried in chance.sample(sound, min(len(sound), 2)):
            put_sound(tariff, tried)
        if sound and likely(0.5):
            # one mark away from a sound one
            tried = set(chance.choice(sound)) ^ {chance.randrange(tariff.width)}
            put_sound(tariff, sorted(tried))
        if likely(0.4):
            settled = tariff.settle()
            put_sound(tariff, sorted(chance.choice([settled.t, settled.u, half(tariff.width)])))


def put_wide():
    for _ in range(90):
        tariff = wide_tariff()
        put_settles(tariff)
        sound = tariff.sound()
        if sound:
            put_sound(tariff, chance.choice(sound))
        elif likely(0.3):
            put_sound(tariff, tariff.facts)


def put_chains():
    """Long chains, and tariffs in which closing and fare lines feed each other."""
    for width in (2, 3, 8, 30, 63, 64, 65, 128, 129, 512):
        # unless-marks in a row, from a fact and from none
        down = [(index + 1, [], [index]) for index in range(width - 1)]
        put_settles(Tariff(width, [], down, ("bare",)))
        if width < 130:
            put_settles(Tariff(width, [0], down[::-1], ("bare",)))
            put_settles(Tariff(width, [], down + [(0, [], [width - 1])], ("bare",)))
        # fare lines and term lines in turn, against the order of the lines
        fares = [(index + 1, [index], []) for index in range(0, width - 1, 2)]
        terms = [(index + 1, [index]) for index in range(1, width - 1, 2)]
        put_settles(Tariff(width, [0], fares[::-1], ("line", terms[::-1])))
        last = width - 1
        put_settles(Tariff(width, [0], fares, ("line", terms + [(None, sorted({0, last}))])))
        put_sound(Tariff(width, [0], fares[::-1], ("line", terms[::-1])), range(width))
        if width < 130:
            put_settles(Tariff(width, [0], fares, ("barred", [(0, last)], ("line", terms[::-1]))))
            # the same with unless-marks: each step waits for a mark to be not
            waiting = [(index + 1, [index], [last - index] if last - index > index + 1 else [])
                       for index in range(0, width - 1, 2)]
            put_settles(Tariff(width, [0], waiting, ("line", terms)))
    for _ in range(60):
        # two chains, one through the book, with unless-marks across and denials
        width = chance.randint(6, 40)
        order = chance.sample(range(width), width)
        fares, terms = [], []
        for before, after in zip(order, order[1:]):
            if likely(0.45):
                terms.append((after, [before]))
            elif likely(0.5):
                fares.append((after, [before], ascending(width, 1)))
            else:
                fares.append((after, [], [before]))
        for _ in range(chance.randint(0, 3)):
            terms.append((None, sorted(chance.sample(range(width), 2))))
        chance.shuffle(fares)
        chance.shuffle(terms)
        put_settles(Tariff(width, [order[0]] if likely(0.6) else [], fares, ("line", terms)))
    # books in which worlds feed a fare line step by step
    for width in (3, 8, 20, 63):
        worlds = [list(range(width))] + [list(range(index)) for index in range(1, width, 2)]
        fares = [(index + 1, [index], []) for index in range(0, width - 1, 2)]
        put_settles(Tariff(width, [], fares, ("world", worlds)))
        put_settles(Tariff(width, [0], fares, ("world", worlds)))
        put_settles(Tariff(width, [0], fares, ("world", worlds[1:])))


def put_clashes():
    """Books that clash at the empty set, of each kind."""
    for width in (1, 2, 3, 5, 64, 129, 512):
        books = ["line %d !/" % width, "world %d -" % width, "line %d 0/+!/0" % width,
                 "barred - line %d !/" % width, "barred - barred - world %d -" % width]
        if width > 1:
            last = width - 1
            books += ["barred 0-%d line %d 0/+%d/" % (last, width, last),
                      "barred - barred 0-%d world %d %s" % (last, width,
                                                            set_word(width, range(width)))]
        for book in books:
            if width > 64 and likely(0.6):
                continue
            for method in (1, 2):
                put("settle", method, fares_word(some_fares(min(width, 5), 4)),
                    set_word(width, ascending(width, 2)), book)
            put("sound", "-", "%d:" % width, set_word(width, range(width)), book)
            put("close", "%d:" % width, book)
            put("list", width, 5, "s1;a0;a%d;s2" % width, "-", book)


def put_large():
    """Many lines at once."""
    for width in (12, 64, 200, 512):
        fares = [(chance.randrange(width), ascending(width, 2), ascending(width, 2))
                 for _ in range(1024)]
        few = [(chance.randrange(width), ascending(width, 3) or [0], ascending(width, 2) or [1])
               for _ in range(width)]
        terms = [(chance.randrange(width) if likely(0.9) else None,
                  sorted(chance.sample(range(width), chance.choice([2, 3]))))
                 for _ in range(512)]
        facts = ascending(width, 4)
        if width in (12, 512):
            put_settles(Tariff(width, facts, fares, ("bare",)))
            one_more = fares_word(fares + fares[:1])
            put("settle", 1, one_more, set_word(width, facts), "bare %d" % width)
            put("settle", 2, one_more, set_word(width, facts), "bare %d" % width)
        put_settles(Tariff(width, facts, few, ("line", terms)))
        if width < 512:
            put_settles(Tariff(width, range(width), few, ("line", terms[:20])))
    for often in (1024, 1025):
        for method in (1, 2):
            put("settle", method, "3//*%d" % often, "5:0,1,2,3,4", "bare 5")
            put("settle", method, "3//2*%d" % often, "512:" + marks_word(range(0, 512, 3)),
                "barred 3-4 bare 512")
        put("sound", "3//*%d" % often, "5:", "5:3", "bare 5")
        put("list", 5, 3, "e0;s1;s2", "3//*%d" % often, "bare 5")
        put("sheets", 5, 5, "0e0;0s1;1s2;0t5:3;1t5:3;0a3", "3//*%d" % often, "bare 5")
    # 32 bars, 64 worlds, 512 terms together with fare lines
    bars = "+".join("%d-%d" % (index, index + 1) for index in range(32))
    loops = fares_word([(index, [], [index + 1]) for index in range(40)])
    for method in (1, 2):
        put("settle", method, loops, "64:", "barred %s bare 64" % bars)
        put("settle", method, loops, "64:33", "barred %s line 64 40/33*512" % bars)
        put("settle", method, loops, "64:", "world 64 " + worlds_word(
            64, [[mark for mark in range(64) if mark % 8 != index % 8] for index in range(64)]))
    put("settle", 1, "0/0,1,2,3,4,5,6,7/8,9,10,11,12,13,14,15", "16:0,1,2,3,4,5,6,7", "bare 16")
    put("settle", 2, "8/0,1,2,3,4,5,6,7/8,9,10,11,12,13,14,15", "16:0,1,2,3,4,5,6,7", "bare 16")


def put_refused():
    """Settles and sound tests that meet 7 or 8, or both at once, or whose book is unmade."""
    for _ in range(180):
        tariff = wanted_tariff()
        width = tariff.width
        fares, book = tariff.fares_word, tariff.book_word
        facts, tried = tariff.facts_word, set_word(width, half(width))
        what = chance.choice(["fares", "fares", "facts", "tried", "two", "book", "all"])
        if what in ("fares", "two", "all"):
            fares = among(fares, unlawful_fare(width))
        if what in ("facts", "two") or what == "all" and likely(0.5):
            facts = set_word(width + chance.choice([-1, 1]), [])
        if what == "tried":
            tried = set_word(chance.choice([width + 1, width - 1, 512]), [])
        if what == "all" and likely(0.5):
            tried = set_word(512, [511])
        if what in ("book", "all"):
            book = unmakeable_book(width)
        if what == "tried" or likely(0.4):
            put("sound", fares, facts, tried, book)
        else:
            put("settle", chance.choice([1, 2]), fares, facts, book)


def some_calls(width, most, sheets):
    """Calls with many accepted ones; in sheets each has the number of its sheet in front."""
    calls = []
    for _ in range(chance.randint(1, most)):
        letters = "eeeexxsssaaaa" + ("ccttll" if sheets else "")
        letter = chance.choice(letters)
        if letter in "exa":
            call = letter + str(near(width))
        elif letter == "s":
            call = letter + chance.choice("12")
        elif letter == "t":
            other = width if likely(0.9) else max(1, min(512, width + chance.choice([-1, 1])))
            call = letter + set_word(other, half(other) if other < 20 else ascending(other, 3))
        else:
            call = letter
        calls.append((chance.choice("01") if sheets else "") + call)
    return ";".join(calls)


def put_lists():
    put("list", 5, 0, "-", "-", "bare 5")
    put("list", 0, 0, "-", "-", "bare 5")
    put("list", 513, 0, "e0", "-", "bare 512")
    put("list", 0, 5, "e0", "-", "bare 0")
    put("list", 512, 5, "e511;e512;s1;a511;a512", "-", "bare 512")
    put("list", 1, 5, "e0;e1;s2;a0;a1", "-", "bare 1")
    for _ in range(240):
        tariff = wide_tariff() if likely(0.15) else wanted_tariff()
        width, fares, book = tariff.width, tariff.fares_word, tariff.book_word
        calls = some_calls(width, 22, False)
        if likely(0.5):
            calls = ";".join("e%d" % mark for mark in tariff.facts) + (";" if tariff.facts else "") \
                + "s%s;" % chance.choice("12") + calls
        count = calls.count(";") + 1
        records = count + chance.choice([0, 0, 0, 1, 5])
        what = chance.choice(["good"] * 14 + ["records", "width", "fares", "fares", "other", "book"])
        if what == "records" or what == "width" and likely(0.5):
            records = chance.randrange(count)
        if what == "width":
            width = chance.choice(NO_WIDTHS)
        if what == "fares":
            fares = among(fares, unlawful_fare(width))
        if what == "other":
            width = max(1, width + chance.choice([-1, 1]))
            if likely(0.4):
                fares = among(fares, unlawful_fare(tariff.width))
        if what == "book":
            book = unmakeable_book(min(tariff.width, 8))
        put("list", width, records, calls, fares, book)


def put_sheets():
    put("sheets", 5, 5, "-", "-", "bare 5")
    for widths in ((0, 5), (5, 0), (513, 0), (5, 513), (65535, 5)):
        put("sheets", widths[0], widths[1], "0e0;1e0", "-", "bare 5")
        put("sheets", widths[0], widths[1], "0e0;1e0", "-", "bare 0")
    # alike on sheets with other facts but the same answers, and with the tests in order
    put("sheets", 3, 3, "0l;0e0;1e0;1e1;0s1;0l;1l;1s2;0l;1l;0x0;0l;1l;0s1;0l", "-", "line 3 1/0")
    put("sheets", 3, 4, "0l;1l;0s1;1s1;0l;1l;1a3;0a3", "-", "bare 3")
    put("sheets", 2, 2, "0s1;1s2;0l;0e0;1e1;0s1;1s1;0l;1l;0c;1c", "0//1+1//0", "bare 2")
    put("sheets", 2, 2, "0e0;0e1;1e0;1e1;0s1;1s2;0l;0c;0a0;1a1", "-", "barred 0-1 bare 2")
    for number in range(340):
        if number % 7 == 0:
            tariff = wide_tariff()
        else:
            tariff = wanted_tariff()
        width, other, fares, book = tariff.width, tariff.width, tariff.fares_word, tariff.book_word
        start = []
        if likely(0.6):
            for which in "01":
                other_facts = which == "1" and likely(0.5)
                facts = ascending(width, 2) if other_facts else tariff.facts
                start += [which + "e%d" % mark for mark in facts]
                start += ["%ss%s" % (which, chance.choice("12")), which + "c"]
            start.append("0l")
            sound = tariff.sound() if tariff.width < 10 else []
            for tried in sound[:2]:
                start.append(chance.choice("01") + "t" + set_word(width, tried))
        calls = ";".join(start + [some_calls(width, 16, True)])
        what = chance.choice(["good"] * 14 + ["fares", "fares", "other", "other", "book"])
        if what == "fares":
            fares = among(fares, unlawful_fare(width))
        if what == "other":
            other = max(1, width + chance.choice([-1, 1]))
            if likely(0.5):
                width, other = other, width
            if likely(0.2):
                fares = among(fares, unlawful_fare(tariff.width))
        if what == "book":
            book = unmakeable_book(min(tariff.width, 8))
        put("sheets", width, other, calls, fares, book)


def put_strings():
    """Facts strings into bytes that are enough, just enough, and one too few."""
    for width in EDGES:
        for marks in ([], [width - 1], [0, width - 1], range(width), ascending(width, 12)):
            marks = sorted(set(marks))
            size = len(facts_string(marks))
            for room in (0, size - 1, size, size + 2):
                put("string", room, set_word(width, marks))


def faulty(numbers):
    """The numbers as bytes, in each of which one number fails one of its tests or only just does not.

    A number is a tuple: its value, the lowest and highest value that it may have, and the mark before it, if any."""
    forms = [leb.encode(value) for value, _, _, _ in numbers]
    for index, (_, low, high, before) in enumerate(numbers):
        front, behind = b"".join(forms[:index]), b"".join(forms[index + 1:])
        yield front
        yield front + b"\x80"
        yield front + b"\xff\x80"
        # malformed, also where a later test would fail
        longer = bytes([byte | 128 for byte in forms[index]]) + b"\0"
        for form in (longer, b"\x80\x80\x80\0", b"\x80\x80\x04", b"\x80\x80\x80"):
            yield front + form + behind
        values = {low, high, high + 1, 65535}
        if low:
            values.add(low - 1)
        if before is not None:
            values |= {before, max(before - 1, 0), before + 1}
        for value in sorted(values):
            yield front + leb.encode(value) + behind
    whole = b"".join(forms)
    yield whole
    yield whole + b"\0"
    yield whole + b"\x80"


def list_numbers(marks, most, width):
    """A list as numbers."""
    return [(len(marks), 0, most, None)] + [(mark, 0, width - 1, before)
                                            for mark, before in zip(marks, [None] + marks)]


def put_places():
    """Each number of a file and of a facts string with each of its faults, by the readers and by the host call."""
    width = 300
    numbers = [(width, 1, 512, None), (2, 0, 1024, None), (3, 0, 512, None)]
    for head, conditions, unless in ((299, [0, 128, 130], [5, 200]), (0, [], [299])):
        numbers += [(head, 0, width - 1, None)] + list_numbers(conditions, 8, width) \
            + list_numbers(unless, 8, width)
    for head, conditions in ((200, [128, 129]), (None, [0, 299]), (1, [])):
        numbers += [(2, 1, 2, None)] if head is None else [(1, 1, 2, None), (head, 0, width - 1, None)]
        numbers += list_numbers(conditions, 8, width)
    for data in faulty(numbers):
        put("read", 2, 3, hex_word(data))
        put("host", hex_word(data), chance.choice(["00", "80", "8000"]), chance.choice(["-", "a1b2c3"]))
    for data in faulty(list_numbers([0, 127, 128, 299], 512, width)):
        put("facts", width, hex_word(data))
        put("host", "ac020000", hex_word(data), chance.choice(["-", "a1b2c3"]))


def unlawful_lists(width):
    """Lists of marks that are not lawful for the width, and two that are."""
    top = width - 1
    lists = [[width], [65535], [0, width], [1, 1], [1, 0], [0, 2, 1], [0, 1, 1], [top, 0]]
    if width > 8:
        lists += [range(9), range(255), range(8), range(width - 8, width)]
    return lists


def put_lines():
    """Each way in which a line or bar breaks a law, in every call that takes lines or bars."""
    for width in (5, 12, 512):
        fares = [(width, [], []), (65535, [], []), (width - 1, [], [])]
        terms = [(width, []), (65535, [0]), (width - 1, []), (None, [])]
        for marks in unlawful_lists(width):
            fares += [(0, marks, []), (0, [], marks), (width, marks, marks)]
            terms += [(0, marks), (None, marks)]
        for line in fares:
            word = "0//1+" + fares_word([line])
            put("write", width, 40, word, "-")
            for method in (1, 2):
                put("settle", method, word, "%d:" % width, "bare %d" % width)
            put("sound", word, "%d:" % width, "%d:0" % width, "line %d -" % width)
            put("list", width, 4, "e1;s1;s2;a1", word, "world %d %d:0,1,2" % (width, width))
            put("sheets", width, width, "0s1;0bs1;0a0;0bs2;0c;1bs1;0bt%d:0;0t%d:0;0l" % (width, width),
                "0//&" + word, "barred 0-1 bare %d" % width)
        for line in terms:
            word = "2/1+" + terms_word([line])
            put("write", width, 40, "-", word)
            put("make", "line %d %s" % (width, word))
            put("close", "%d:0" % width, "barred 0-1 line %d %s" % (width, word))
        for bar in ((0, 0), (1, 0), (0, width), (width, width + 1), (0, width - 1), (width - 1, width),
                    (width - 2, width - 1), (width - 1, width - 2), (65535, 65535), (0, 65535)):
            word = bars_word([(1, 2), bar])
            put("make", "barred %s bare %d" % (word, width))
            put("make", "barred %s barred 0-1 line %d 0/1" % (word, width))
            put("make", "barred 0-1 barred %s world %d %d:0" % (word, width, width))
            put("settle", 1, "-", "%d:0" % width, "barred %s bare %d" % (word, width))


def put_counts():
    """As many lines, worlds, bars and bytes as there may be, and one more, wherever they are counted."""
    for often in (32, 33):
        for bars in ("barred 0-1*%d " % often, "barred 0-1*%d barred 2-3 " % often,
                     "barred 2-3 barred 0-1*%d " % often):
            for ground in ("bare 4", "line 4 1/0", "world 4 4:0,2+4:0,1"):
                put("make", bars + ground)
                put("close", "4:0", bars + ground)
                put("settle", chance.choice([1, 2]), "1//2+2//1", "4:0", bars + ground)
    for often in (64, 65):
        for bars in ("", "barred 0-1 ", "barred 2-3 barred - "):
            put("close", "3:0", bars + "world 3 3:0,1*%d" % often if not bars else
                bars + "world 4 4:0,2*%d" % often)
            put("make", bars + "world 4 4:0*%d" % often)
    for often in (512, 513):
        for bars in ("", "barred 0-1 ", "barred 2-3 barred - "):
            put("make", bars + "line 4 1/0*%d" % often)
            put("sound", "-", "4:0", "4:0,1", bars + "line 4 1/0*%d" % often)
    for often in (1024, 1025):
        for book in ("bare 4", "line 4 1/0", "world 4 4:0,1,2", "barred 0-2 bare 4"):
            put("settle", 1, "3//1*%d" % often, "4:0,1,2", book)
            put("settle", 2, "3//1*%d" % often, "4:0,1,2", book)
            put("sound", "3//1*%d" % often, "4:0", "4:0,1", book)
            put("list", 4, 3, "e0;s1;s2", "3//1*%d" % often, book)
            put("sheets", 4, 4, "0e0;0s1;0bs2;0a0;0bt4:0;1bs1", "1//&3//1*%d" % often, book)
    for width in NO_WIDTHS:
        for ground in ("bare %d", "line %d 9/*513", "world %d 4:*65"):
            for bars in ("", "barred 2-1 ", "barred 0-1*33 barred - "):
                put("make", bars + ground % width)
    for width in (511, 512):
        data = leb.encode(width) + b"\1\0" + leb.encode(width - 1) + b"\0\1\0"
        for room in (0, width - 1, width, width + 1):
            put("host", hex_word(data), "00", "aa" * room if room else "-")


def shapes():
    """A book of each ground with no, one and two layers of bars, of width 4, as words."""
    for ground in ("bare", "line", "world"):
        for layers in (0, 1, 2):
            yield ground, layers


def shaped(ground, layers):
    """A random book of the shape, of width 4."""
    book = {"bare": ("bare",), "line": ("line", some_terms(4, 4)),
            "world": ("world", some_worlds(4) + [[0, 1, 2, 3]] * chance.randint(0, 1))}[ground]
    for _ in range(layers):
        book = ("barred", some_bars(4), book)
    return book


SHAPED = {"bare": ["bare 4"],
          "line": ["line 4 1/0+!/1,2", "line 4 2/1+3/0,2+!/1,3"],
          "world": ["world 4 4:0,1,2+4:0,1,3+4:2,3", "world 4 4:0,1,2,3+4:0,3+4:0,2"]}


def put_shapes():
    """Every kind of case with a book, over each ground and number of layers of bars: each answer and refusal."""
    for ground, layers in shapes():
        for below in SHAPED[ground]:
            book = ["", "barred 0-3+1-2 ", "barred 0-3 barred 1-2 "][layers] + below
            for number in range(16):
                put("close", set_word(4, [mark for mark in range(4) if number >> mark & 1]), book)
            for width in (1, 3, 5, 512):
                put("close", "%d:0" % width, book)
                put("settle", 1, "0//1", "%d:0" % width, book)
                put("settle", 2, "4//1", "%d:0" % width, book)
                put("sound", "0//1", "%d:0" % width, "4:0", book)
                put("sound", "0//1", "4:", "%d:0" % width, book)
                put("sound", "4//1", "%d:0" % width, "%d:0" % width, book)
                put("list", width, 6, "e0;e0;x1;a0;s1;s2", "0//1", book)
                put("list", width, 3, "s1;s2;a0", "0/1,1/", book)
            for method in (1, 2):
                put("settle", method, "0//1+0/1,0/", "4:", book)
            put("sound", "0//1+4//", "4:", "4:0", book)
            calls = "e0;e0;e4;x3;x4;a0;a4;s1;a0;a1;a2;a3;e0;x9;x2;a4;a0;s2;a1;x0;a1;a65535;s1;a0"
            count = calls.count(";") + 1
            for width, room in ((4, count), (4, count + 1), (4, count - 1), (0, count), (513, 0)):
                put("list", width, room, calls, "2//1+1//2+3/0/1", book)
            put("list", 4, count, calls, "2//1+1//2+3/0/4", book)
            acts = "0a0;0a4;0c;0l;1l;0e1;0e1;0e4;0x0;0x9;0s1;0c;0a1;0l;1l;1e1;1s2;1c;0l;1l;0bs1;0a2;0bs2;" \
                "0c;0bt4:1;0t4:1;0t3:1;0bt5:1;0t4:1,2;0e1;0x2;0a2;0l;1x1;0l;1c;1s1;0l;0x1;0s2;0l;1a3"
            put("sheets", 4, 4, acts, "2//1+1//2+3/0/1&2//1+1//2+3/3,3/1", book)
            put("sheets", 4, 4, acts, "2//1+1//2+3/0/1&2//1+1//3", book)
            put("sheets", 4, 5, acts, "2//1+1//2+3/0/1&4//", book)
            put("sheets", 3, 4, acts, "2//1+1//2+0/0/1&2//3", book)
        for verdict in (readings.CLEAR, readings.SUSPECT, readings.BROKEN):
            for tariff in searched(ground, layers, verdict, 6):
                put_settles(tariff)
                for tried in tariff.sound()[:2] + [tariff.facts, half(4)]:
                    put_sound(tariff, tried)


def held_back(ground, layers):
    """A tariff over a book of the shape, with a head that is denied beside the fact, and held up by something open."""
    fact, a, b, head = chance.sample(range(4), 4)
    fares = some_fares(4, 1) + [(a, [], [b]), (b, [], [a]), (head, [], [a])]
    terms = some_terms(4, 1)
    worlds = [sorted(world) for world in ([fact], [fact, a], [fact, b], [fact, a, b], [a, b, head])]
    if layers:
        worlds.append([0, 1, 2, 3])
    else:
        terms.append((None, sorted([fact, head])))
    book = {"bare": ("bare",), "line": ("line", terms), "world": ("world", worlds)}[ground]
    for layer in range(layers):
        bar = tuple(sorted((fact, head)))
        book = ("barred", [bar] if layer == 0 else some_bars(4), book)
    return Tariff(4, [fact], fares, book)


def searched(ground, layers, verdict, most):
    """Some tariffs over books of the shape with that verdict; none or fewer where some hundred tries find no more."""
    found = []
    for _ in range(0 if ground == "bare" and not layers and verdict != readings.CLEAR else 200):
        if verdict == readings.SUSPECT:
            tariff = held_back(ground, layers)
        else:
            tariff = Tariff(4, ascending(4, 2), some_fares(4, 5), shaped(ground, layers))
        settled = tariff.settle()
        if settled.verdict == verdict and (settled.rounds > 2 or likely(0.3)):
            found.append(tariff)
        if len(found) == most:
            break
    return found


def put_widths():
    """Every width there is, at its highest mark and one past it."""
    for width in range(1, 513):
        top = width - 1
        put("facts", width, hex_word(facts_string([top + width % 2])))
        head = leb.encode(top + (width + 1) % 2)
        put("read", 1, 0, hex_word(leb.encode(width) + b"\1\0" + head + b"\0\0"))
        fares = fares_word([(0, [], [top]), (top, [], [0])])
        facts = [] if width % 3 else [top]
        book = ["bare %d" % width, "line %d %d/0" % (width, top), "world %d %d:0+%s" % (
            width, width, set_word(width, sorted({0, top}))), "barred - line %d 0/%d" % (width, top)][width % 4]
        put("settle", 1 + width // 4 % 2, fares, set_word(width, facts), book)
        put("list", width, 5, "e%d;e%d;s%d;a%d;a%d" % (top, width, 1 + width % 2, top, width), fares, book)


def put_longest():
    """As many rounds as there may be: width 1 has them; and the longest that some search found for others."""
    for method in (1, 2):
        put("settle", method, "0//0", "1:", "line 1 !/0")
        put("settle", method, "0//0", "1:", "world 1 1:")
        put("settle", method, "0//0", "1:", "barred - line 1 !/0")
        for width in (2, 3, 4, 5, 9, 64, 65, 512):
            last = width - 1
            down = [(index + 1, [], [index]) for index in range(last)]
            for book in (("bare",), ("line", [(None, [last])]), ("line", [(None, [last - 1])]),
                         ("barred", [(0, last)], ("line", [(0, [last])]))):
                tariff = Tariff(width, [], down, book)
                put("settle", method, tariff.fares_word, tariff.facts_word, tariff.book_word)


def put_alike():
    """Two sheets that differ in one mark's answer alone."""
    for width in EDGES:
        for mark in sorted({0, width // 2, width - 1}):
            put("sheets", width, width, "0e%d;0s1;1s2;0l;1l;1e%d;1s1;0l;0x%d;0s2;1l" % (mark, mark, mark), "-",
                "bare %d" % width)
            put("sheets", width, width, "0s1;1bs2;0l;1l;0bs1;1l;1s1;0l", "-&%d//%d" % (mark, mark),
                "line %d -" % width)


def put_founded():
    """Well-founded models: small tariffs by chance, long chains, many lines, and each way to be unlawful."""
    for _ in range(160):
        width = chance.randint(1, 8)
        put("founded", fares_word(some_fares(width, 2 * width)), set_word(width, ascending(width, 2)))
    for _ in range(40):
        tariff = slow_tariff(chance.randint(2, 20))
        put("founded", tariff.fares_word, tariff.facts_word)
    for width in EDGES:
        last = width - 1
        put("founded", "-", "%d:" % width)
        put("founded", "-", set_word(width, range(width)))
        if width < 100:
            # definitions as they stand are slow on longer ones
            put("founded", fares_word([(index + 1, [], [index]) for index in range(last)]), "%d:" % width)
            put("founded", fares_word([(index + 1, [index], []) for index in range(last)][::-1]
                                      + [(0, [last], [])]), "%d:%d" % (width, last))
        for line in ((width, [], []), (0, [width], []), (0, [], [0, width]), (0, [0, 0], []), (last, [], [])):
            put("founded", fares_word([(0, [], []), line]), "%d:" % width)
    for width in (12, 512):
        for marks in unlawful_lists(width):
            put("founded", fares_word([(0, marks, [])]), "%d:" % width)
            put("founded", fares_word([(0, [], marks)]), "%d:1" % width)
        fares = [(chance.randrange(width), ascending(width, 2), ascending(width, 2)) for _ in range(1024)]
        put("founded", fares_word(fares), "%d:" % width)
        put("founded", fares_word(fares + fares[:1]), "%d:" % width)
    for often in (1024, 1025):
        put("founded", "3//1*%d" % often, "512:" + marks_word(range(512)))


def main():
    if len(sys.argv) != 2:
        raise SystemExit("usage: generate.py SEED")
    chance.seed(sys.argv[1])
    for kind in (put_examples, put_numbers, put_facts, put_reads, put_writes, put_hosts, put_books,
                 put_nexts, put_closes, put_small, put_wide, put_chains, put_clashes, put_large,
                 put_refused, put_lists, put_sheets, put_strings, put_places, put_lines, put_counts,
                 put_shapes, put_widths, put_longest, put_alike, put_founded):
        kind()
    # each line once
    print("\n".join(dict.fromkeys(lines)))


if __name__ == "__main__":
    main()
