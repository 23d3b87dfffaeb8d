"""Reads case lines from the input, puts each through the engine and prints one line for each."""

import sys

import leb
import readings
import tariff_file
import words
from host import fare_settle
from marks import MarkSet
from refusal import FileFault, LineFault, NumberFault, Refused
from sheet import Ask, Enter, Settle, Sheet, Strike, perform_list
from wellfounded import well_founded

VERDICTS = {readings.CLEAR: "clear", readings.SUSPECT: "suspect", readings.BROKEN: "broken"}
ANSWERS = {readings.NOT: "not", readings.HOLDS: "holds", readings.OPEN: "open",
           readings.BOTH: "both"}
BEFORE = 0xAA  # what the bytes of an output held


class Unmade(Exception):
    """The book of a case cannot be made or filled."""

    def __init__(self, number):
        super().__init__(number)
        self.number = number


def make_book(parts):
    try:
        return words.read_book(parts)
    except Refused as refusal:
        raise Unmade(refusal.number) from None


def yes_no(truth):
    return "yes" if truth else "no"


def fault_text(fault):
    if isinstance(fault, FileFault):
        fault = fault.fault
    if isinstance(fault, LineFault):
        return "%s %d %d" % (fault_text(fault.fault), fault.section, fault.index)
    return "fault %d %d" % (fault.number, fault.byte)


def case_number(low, high, data):
    reader = leb.Reader(words.read_hex(data))
    value = reader.number(int(low), int(high))
    return "ok %d %d" % (value, reader.place)


def written_text(room, write):
    """What is printed for a call that writes into so many bytes and answers a number."""
    out = bytearray([BEFORE] * int(room))
    try:
        answer = write(out)
    except Refused as refusal:
        return "refused %d %s" % (refusal.number, words.hex_text(out))
    return "ok %d %s" % (answer, words.hex_text(out))


def case_spell(room, place, value):
    return written_text(room, lambda out: leb.write_number(out, int(place), int(value)))


def case_facts(width, data):
    data = words.read_hex(data)
    facts = MarkSet.empty(int(width))
    leb.read_facts(data, facts)
    out = bytearray(len(data))
    length = leb.write_facts(facts, out)
    return "ok %s %d %s" % (words.marks_text(facts.marks), facts.count(),
                            words.hex_text(out[:length]))


def case_string(room, given):
    given = words.read_set(given)
    return written_text(room, lambda out: leb.write_facts(given, out))


def case_read(fare_room, term_room, data):
    data = words.read_hex(data)
    width, fares, terms = tariff_file.read_file(data, int(fare_room), int(term_room))
    out = bytearray(len(data))
    length = tariff_file.write_file(width, fares, terms, out)
    return "ok %d %s %s %s" % (width, words.fares_text(fares), words.terms_text(terms),
                               words.hex_text(out[:length]))


def case_write(width, room, fares, terms):
    fares = words.read_fares(fares)
    terms = words.read_terms(terms)
    return written_text(room, lambda out: tariff_file.write_file(int(width), fares, terms, out))


def case_host(file, facts, out):
    out = words.read_hex(out)
    answer = fare_settle(words.read_hex(file), words.read_hex(facts), out)
    return "%d %s" % (answer, words.hex_text(out))


def case_make(*book):
    make_book(book)
    return "ok"


def case_next(start, given):
    given = words.read_set(given)
    found = given.next(int(start))
    return "%d %s" % (given.count(), "none" if found is None else found)


def case_close(given, *book):
    book = make_book(book)
    given = words.read_set(given)
    clash = book.close(given)
    return "ok %s %s" % (words.marks_text(given.marks), yes_no(clash))


def case_settle(method, fares, facts, *book):
    book = make_book(book)
    settled = readings.settle(words.read_set(facts), words.read_fares(fares), book, int(method))
    return "ok %s %d %s %s" % (VERDICTS[settled.verdict], settled.rounds,
                               words.marks_text(settled.t), words.marks_text(settled.u))


def case_sound(fares, facts, tried, *book):
    book = make_book(book)
    return yes_no(readings.is_sound(words.read_set(facts), words.read_fares(fares), book,
                                    words.read_set(tried)))


def case_founded(fares, facts):
    t, f = well_founded(words.read_set(facts), words.read_fares(fares))
    return "ok %s %s" % (words.marks_text(t), words.marks_text(f))


LISTED = {"e": Enter, "x": Strike, "s": Settle, "a": Ask}


def read_calls(word, read_call):
    return [] if word == "-" else [read_call(text) for text in word.split(";")]


def listed_call(text):
    return LISTED[text[0]](int(text[1:]))


def reply_text(kind, reply):
    """A reply as text; kind is the letter of the call."""
    if isinstance(reply, Refused):
        return "r%d" % reply.number
    if kind in "ex":
        return "done"
    if kind == "s":
        return "%s/%d" % (VERDICTS[reply[0]], reply[1])
    if kind == "a":
        return ANSWERS[reply]
    if kind == "c":
        return "/".join(str(number) for number in reply)
    return yes_no(reply)


def replies_text(replies):
    return "ok " + (";".join(replies) or "-")


def case_list(width, records, calls, fares, *book):
    book = make_book(book)
    kinds = read_calls(calls, lambda text: text[0])
    calls = read_calls(calls, listed_call)
    replies = [None] * int(records)
    perform_list(int(width), words.read_fares(fares), book, calls, replies)
    return replies_text([reply_text(kind, reply) for kind, reply in zip(kinds, replies)])


def call_on_sheet(text, sheets, fare_lists, book):
    """Make one call of a sheets case and give its reply as text."""
    which, call = int(text[0]), text[1:]
    fares, second_fares = fare_lists
    if call[0] == "b":
        fares, call = second_fares, call[1:]
    kind, rest = call[0], call[1:]
    sheet, other = sheets[which], sheets[1 - which]
    try:
        if kind == "c":
            reply = sheet.counts()
        elif kind == "t":
            reply = sheet.try_set(fares, book, words.read_set(rest))
        elif kind == "l":
            reply = sheet.alike(other)
        else:
            reply = listed_call(call).perform(sheet, fares, book)
    except Refused as refusal:
        reply = refusal
    return reply_text(kind, reply)


def case_sheets(width, other_width, calls, fares, *book):
    book = make_book(book)
    sheets = [Sheet(int(width)), Sheet(int(other_width))]
    fare_lists = words.read_fare_lists(fares)
    return replies_text(read_calls(
        calls, lambda text: call_on_sheet(text, sheets, fare_lists, book)))


CASES = {"number": case_number, "spell": case_spell, "facts": case_facts, "string": case_string,
         "read": case_read, "write": case_write, "host": case_host, "make": case_make,
         "next": case_next, "close": case_close, "settle": case_settle, "sound": case_sound,
         "founded": case_founded, "list": case_list, "sheets": case_sheets}


def run_case(line):
    """The line printed for a case."""
    kind, *rest = line.split(" ")
    try:
        return CASES[kind](*rest)
    except Unmade as unmade:
        return "unmade %d" % unmade.number
    except (NumberFault, FileFault) as fault:
        return fault_text(fault)
    except Refused as refusal:
        return "refused %d" % refusal.number


def main():
    for line in sys.stdin:
        line = line.rstrip("\n")
        if line:
            print(run_case(line))


if __name__ == "__main__":
    main()
