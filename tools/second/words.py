"""The words of a case line, read into sets, lines and books, and printed again."""

from books import BareBook, BarredBook, LineBook, WorldBook
from marks import MarkSet
from records import DENIES, GIVES, Bar, FareLine, TermLine

UNUSED_HEAD = 65535  # what the head's place of a denial holds; it must not matter


def read_hex(word):
    return bytearray() if word == "-" else bytearray.fromhex(word)


def read_marks(text):
    return [int(mark) for mark in text.split(",")] if text else []


def read_set(word):
    width, marks = word.split(":")
    return MarkSet(int(width), read_marks(marks))


def read_items(word, read_item):
    """Items with + between them, each with * and how often where it stands more than once."""
    if word == "-":
        return []
    items = []
    for text in word.split("+"):
        text, star, often = text.partition("*")
        items += [read_item(text)] * (int(often) if star else 1)
    return items


def read_fare(text):
    head, conditions, unless = text.split("/")
    return FareLine(int(head), read_marks(conditions), read_marks(unless))


def read_term(text):
    head, conditions = text.split("/")
    if head == "!":
        return TermLine(DENIES, UNUSED_HEAD, read_marks(conditions))
    return TermLine(GIVES, int(head), read_marks(conditions))


def read_bar(text):
    first, second = text.split("-")
    return Bar(int(first), int(second))


def read_fares(word):
    return read_items(word, read_fare)


def read_fare_lists(word):
    """The two lists of fare lines of a sheets case; with one list the second has no lines."""
    first, both, second = word.partition("&")
    return read_fares(first), read_fares(second) if both else []


def read_terms(word):
    return read_items(word, read_term)


def read_book(words):
    """Make and fill the book that the words name; the refusal of either is raised."""
    kind = words[0]
    if kind == "barred":
        book = BarredBook(read_book(words[2:]))
        book.fill(read_items(words[1], read_bar))
        return book
    width = int(words[1])
    if kind == "bare":
        return BareBook(width)
    if kind == "line":
        book = LineBook(width)
        book.fill(read_terms(words[2]))
        return book
    if kind == "world":
        book = WorldBook(width)
        book.fill(read_items(words[2], read_set))
        return book
    raise ValueError("no such book: " + kind)


def list_text(marks):
    """Marks inside a line."""
    return ",".join(str(mark) for mark in marks)


def hex_text(data):
    return data.hex() or "-"


def marks_text(marks):
    """Marks as a word of their own."""
    return list_text(sorted(marks)) or "."


def fares_text(fares):
    return "+".join("%d/%s/%s" % (line.head, list_text(line.conditions.used()),
                                  list_text(line.unless.used())) for line in fares) or "-"


def terms_text(terms):
    return "+".join("%s/%s" % ("!" if line.kind == DENIES else line.head,
                               list_text(line.conditions.used())) for line in terms) or "-"
