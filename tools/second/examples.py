"""The examples of the documents as pairs of a case line and what it must print, and the worked sheets round by round."""

SAMPLE_FARES = "1/3/2+4/3/1"
SAMPLE_BOOK = "line 5 2/0+!/1,2"
SAMPLE_FILE = "050202010103010204010301010102010002020102"


def pairs(text):
    """Lines of the form: case => printed."""
    found = []
    for line in text.strip().splitlines():
        case, printed = line.replace("SAMPLE", SAMPLE_FILE).split(" => ")
        found.append((case.strip(), printed.strip()))
    return found


# CASES.md, the table of examples
CASES = pairs("""
number 0 65535 8001 => ok 128 2
number 0 65535 8000 => fault 2 0
spell 4 1 128 => ok 3 aa8001aa
spell 2 1 128 => refused 13 aaaa
facts 5 020003 => ok 0,3 2 020003
facts 5 00 => ok . 0 00
string 4 5:0,3 => ok 3 020003aa
string 2 5:0,3 => refused 13 aaaa
read 2 2 SAMPLE => ok 5 1/3/2+4/3/1 2/0+!/1,2 SAMPLE
read 1 2 SAMPLE => fault 5 1
read 2 2 0502020109 => fault 3 4 1 0
write 5 23 1/3/2+4/3/1 2/0+!/1,2 => ok 21 SAMPLEaaaa
write 5 3 - !/2,1 => refused 8 aaaaaa
host SAMPLE 020003 aaaaaaaaaaaa => 0 0100010101aa
make world 2 2:*65 => unmade 8
next 1 5:0,3 => 2 3
close 3:1,2 world 3 3:0,1+3:0,2 => ok 0,1,2 yes
settle 1 1/3/2+4/3/1 5:0,3 line 5 2/0+!/1,2 => ok clear 3 0,2,3,4 0,2,3,4
sound 0//1+1//0 2: 2:0 bare 2 => yes
founded 1//0+3/2/+2/3/+4/0/1 5:0 => ok 0,4 1,2,3
list 5 8 e3;s1;a1;e3;x9;e0;s2;a1 1/3/2+4/3/1 line 5 2/0+!/1,2 => ok done;clear/3;holds;r10;r9;done;clear/3;not
list 5 1 e3;s1 - bare 5 => refused 13
sheets 5 5 0e0;0e3;0s1;0c;0t5:0,2,3,4;1s1;0l 1/3/2+4/3/1 line 5 2/0+!/1,2 => ok done;done;clear/3;4/1/0/0;yes;clear/2;no
sheets 3 3 0s1;0bs1;0a0;0t3:0,1;0bt3:0;1s2;1x0;1bs2;0l 1//&3// line 3 0/1 => ok clear/2;r8;holds;yes;r8;clear/2;r11;r8;yes
""")

# FORMAT.md, numbers
NUMBERS = pairs("""
number 0 65535 00 => ok 0 1
number 0 65535 02 => ok 2 1
number 0 65535 7f => ok 127 1
number 0 65535 8001 => ok 128 2
number 0 65535 8101 => ok 129 2
number 0 65535 8201 => ok 130 2
number 0 65535 b964 => ok 12857 2
number 0 65535 ff7f => ok 16383 2
number 0 65535 808001 => ok 16384 3
number 0 65535 ffff03 => ok 65535 3
number 0 65535 808004 => fault 2 0
number 0 65535 e58e26 => fault 2 0
number 0 65535 - => fault 1 0
number 0 65535 80 => fault 1 0
number 0 65535 8080 => fault 1 0
number 0 65535 808080 => fault 2 0
number 0 65535 80808000 => fault 2 0
number 0 65535 8000 => fault 2 0
number 0 65535 808000 => fault 2 0
number 0 65535 7f80 => ok 127 1
""")

# FORMAT.md, facts strings
FACTS = pairs("""
facts 5 00 => ok . 0 00
facts 5 0103 => ok 3 1 0103
facts 5 020003 => ok 0,3 2 020003
facts 5 - => fault 1 0
facts 5 0203 => fault 1 2
facts 5 020380 => fault 1 2
facts 5 018300 => fault 2 1
facts 5 8104 => fault 3 0
facts 5 8004 => fault 1 2
facts 5 0105 => fault 3 1
facts 5 020503 => fault 3 1
facts 5 020303 => fault 4 2
facts 5 020300 => fault 4 2
facts 5 060001020304 => fault 1 6
facts 5 06000102030405 => fault 3 6
facts 5 06000102030404 => fault 4 6
facts 5 010300 => fault 6 2
facts 5 0000 => fault 6 1
facts 200 027f8001 => ok 127,128 2 027f8001
facts 200 0280017f => fault 4 3
facts 200 01c701 => ok 199 1 01c701
facts 200 01c801 => fault 3 1
""")

# FORMAT.md, sets written as facts strings
STRINGS = pairs("""
string 1 5: => ok 1 00
string 0 5: => refused 13 -
string 2 5:3 => ok 2 0103
string 3 5:0,3 => ok 3 020003
string 5 200:127,128 => ok 4 027f8001aa
string 4 200:127,128 => ok 4 027f8001
string 3 200:127,128 => refused 13 aaaaaa
string 3 200:199 => ok 3 01c701
string 0 200:199 => refused 13 -
""")

# FORMAT.md, beginnings of the sample file: where each breaks off
CUTS = pairs("\n".join(
    "read 2 2 %s => fault 1 %d%s" % (
        SAMPLE_FILE[:2 * kept] or "-", kept,
        "" if kept < 3 else " 1 0" if kept < 8 else " 1 1" if kept < 13
        else " 2 0" if kept < 17 else " 2 1")
    for kept in range(21)))

# FORMAT.md, more faults
FILES = pairs("""
read 1024 512 010000 => ok 1 - - 010000
read 1024 512 80040000 => ok 512 - - 80040000
read 1024 512 000000 => fault 3 0
read 1024 512 81040000 => fault 3 0
read 1024 512 8000 => fault 2 0
read 1024 512 05810800 => fault 3 1
read 1024 512 05008104 => fault 3 2
read 0 0 05028104 => fault 3 2
read 0 0 0502 => fault 1 2
read 1 2 SAMPLE => fault 5 1
read 2 1 SAMPLE => fault 5 2
read 1 1 SAMPLE => fault 5 1
read 2 2 0502020109 => fault 3 4 1 0
read 2 2 050202010105 => fault 3 5 1 0
read 2 2 05020201020303 => fault 4 6 1 0
read 2 2 05020201020301 => fault 4 6 1 0
read 2 2 05000100 => fault 3 3 2 0
read 2 2 05000103 => fault 3 3 2 0
read 2 2 0500018100 => fault 2 3 2 0
read 2 2 0500018101 => fault 3 3 2 0
read 2 2 05000180 => fault 1 3 2 0
read 2 2 0500010105 => fault 3 4 2 0
read 2 2 050002020004 => fault 3 5 2 1
read 2 2 0500010200 => ok 5 - !/ 0500010200
read 2 2 SAMPLE00 => fault 6 21
""")

# HOST.md
HOST = pairs("""
host SAMPLE 00 aaaaaaaaaaaaaa => 0 0000000000aaaa
host SAMPLE 0103 aaaaaaaaaaaaaa => 0 0001000100aaaa
host SAMPLE 020003 aaaaaaaaaaaaaa => 0 0100010101aaaa
host SAMPLE 020001 aaaaaaaaaaaaaa => 2 0303030303aaaa
host SAMPLE 0103 aaaaaaaaaa => 0 0001000100
host SAMPLE 02 aaaaaaaaaa => 101 aaaaaaaaaa
host SAMPLE 8000 aaaaaaaaaa => 102 aaaaaaaaaa
host SAMPLE 0105 aaaaaaaaaa => 103 aaaaaaaaaa
host SAMPLE 020303 aaaaaaaaaa => 104 aaaaaaaaaa
host SAMPLE 010300 aaaaaaaaaa => 106 aaaaaaaaaa
host SAMPLE 0103 aaaaaaaa => 113 aaaaaaaa
host 0502020101030102040103010101020100020201 8000 aa => 101 aa
host 030101010001020200 0100 aaaaaaaa => 2 010101aa
""")

# EXAMPLES.md, closings of the two worlds
CLOSINGS = pairs("""
close 3: world 3 3:0,1+3:0,2 => ok 0 no
close 3:0 world 3 3:0,1+3:0,2 => ok 0 no
close 3:1 world 3 3:0,1+3:0,2 => ok 0,1 no
close 3:2 world 3 3:0,1+3:0,2 => ok 0,2 no
close 3:0,1 world 3 3:0,1+3:0,2 => ok 0,1 no
close 3:0,2 world 3 3:0,1+3:0,2 => ok 0,2 no
close 3:1,2 world 3 3:0,1+3:0,2 => ok 0,1,2 yes
close 3:0,1,2 world 3 3:0,1+3:0,2 => ok 0,1,2 yes
""")

# EXAMPLES.md, calls on the clipped trip, then its settle as the plain trip; and the limits of bars
CALLS = pairs("""
list 5 20 e0;e3;s1;e0;x9;x1;a5;a4;x0;a4;a5;s1;a4 1/3/2+4/3/1 line 5 2/0+!/1,2 => ok done;done;clear/3;r10;r9;r11;r9;holds;done;r12;r9;clear/3;not
sheets 5 5 0e0;0e3;0s2;0c;0e0;0x9;0x1;0a5;0a4;0x0;0a4;0a5;0s2;0c 1/3/2+4/3/1 line 5 2/0+!/1,2 => ok done;done;clear/3;4/1/0/0;r10;r9;r11;r9;holds;done;r12;r9;clear/3;2/3/0/0
make bare 512 => ok
make bare 513 => unmade 7
make bare 0 => unmade 7
make line 16 0/0,1,2,3,4,5,6,7 => ok
make line 16 0/0,1,2,3,4,5,6,7,8 => unmade 8
make line 5 0/*512 => ok
make line 5 0/*513 => unmade 8
make world 2 2:*64 => ok
make barred 0-1*32 bare 3 => ok
make barred 0-1*33 bare 3 => unmade 8
make barred 1-2 bare 3 => ok
make barred 2-2 bare 3 => unmade 8
make barred 2-1 bare 3 => unmade 8
settle 1 3//*1024 5: bare 5 => ok clear 2 3 3
settle 1 3//*1025 5: bare 5 => refused 8
settle 1 0/0,1,2,3,4,5,6,7/ 16: bare 16 => ok clear 2 . .
settle 1 0/0,1,2,3,4,5,6,7,8/ 16: bare 16 => refused 8
settle 1 0//0,1,2,3,4,5,6,7 16: bare 16 => ok clear 2 . 0
settle 1 0//0,1,2,3,4,5,6,7,8 16: bare 16 => refused 8
founded 3//*1024 5: => ok 3 0,1,2,4
founded 3//*1025 5: => refused 8
founded 0//0,1,2,3,4,5,6,7 10: => ok . 1,2,3,4,5,6,7,8,9
founded 0//0,1,2,3,4,5,6,7,8 10: => refused 8
founded 5// 5: => refused 8
founded - 5:0,3 => ok 0,3 1,2,4
sheets 2 2 0bs1;0c;0s1;0bt2:0;0t2: 3//*1025&0//*1024 bare 2 => ok clear/2;1/1/0/0;r8;yes;r8
sheets 2 2 0be0;0ba0;0bc;0bx1;0bs2;0ba0;0bc;0bl;1bs1;0bl - bare 2 => ok done;r12;r12;r11;clear/2;holds;1/1/0/0;r12;clear/2;no
""")

# EXAMPLES.md, the worked sheets: facts, fare lines, book, T and U after each round,
# verdict, counts, sound readings
SHEETS = [
    ("no facts", "5:", SAMPLE_FARES, SAMPLE_BOOK,
     [(".", "."), (".", ".")], "clear", "0/5/0/0", ["."]),
    ("plain trip", "5:3", SAMPLE_FARES, SAMPLE_BOOK,
     [("3", "1,3,4"), ("1,3", "1,3"), ("1,3", "1,3")], "clear", "2/3/0/0", ["1,3"]),
    ("clipped trip", "5:0,3", SAMPLE_FARES, SAMPLE_BOOK,
     [("0,2,3", "0,2,3,4"), ("0,2,3,4", "0,2,3,4"), ("0,2,3,4", "0,2,3,4")],
     "clear", "4/1/0/0", ["0,2,3,4"]),
    ("contradicting facts", "5:0,1", SAMPLE_FARES, SAMPLE_BOOK,
     [("0,1,2,3,4", "."), ("0,1,2,3,4", ".")], "broken", "0/0/0/5", []),
    ("mutual exceptions", "2:", "0//1+1//0", "bare 2",
     [(".", "0,1")], "clear", "0/0/2/0", ["0", "1"]),
    ("positive loop", "2:", "0/1/+1/0/", "bare 2",
     [(".", "."), (".", ".")], "clear", "0/2/0/0", ["."]),
    ("odd loop", "1:", "0//0", "bare 1",
     [(".", "0")], "clear", "0/0/1/0", []),
    ("suspect though a sound reading exists", "4:0", "1//2+2//3+3//2", "line 4 !/0,1",
     [("0", "0,2,3"), ("0", "0,2,3")], "suspect", "1/1/2/0", ["0,2"]),
    ("denied by the terms", "2:", "1//1", "line 2 0/+!/0,1",
     [("0", "0"), ("0,1", "0"), ("0,1", "0")], "broken", "1/0/0/1", []),
    ("denied but still open", "6:0", "1//2+2//1+3//4+4//3", "line 6 5/1,3+!/0,5",
     [("0", "0,1,2,3,4,5"), ("0", "0,1,2,3,4,5")], "clear", "1/0/5/0",
     ["0,1,4", "0,2,3", "0,2,4"]),
    ("the book feeds a fare line", "3:0", "2/1/", "line 3 1/0",
     [("0,1,2", "0,1,2"), ("0,1,2", "0,1,2")], "clear", "3/0/0/0", ["0,1,2"]),
    ("a book that contradicts itself", "3:0", "1//2", "line 3 !/",
     [("0,1,2", "0,1,2"), ("0,1,2", "0,1,2")], "broken", "3/0/0/0", []),
    ("two worlds, no facts", "3:", "-", "world 3 3:0,1+3:0,2",
     [("0", "0"), ("0", "0")], "clear", "1/2/0/0", ["0"]),
    ("two worlds, fact 1", "3:1", "-", "world 3 3:0,1+3:0,2",
     [("0,1", "0,1"), ("0,1", "0,1")], "clear", "2/1/0/0", ["0,1"]),
    ("two worlds, facts 1, 2", "3:1,2", "-", "world 3 3:0,1+3:0,2",
     [("0,1,2", "0"), ("0,1,2", "0")], "broken", "1/0/0/2", []),
]


def sheet_pairs():
    """Each worked sheet as cases: settled by both methods, each set tried, its counts,
    and with the bare book the well-founded model."""
    found = []
    for _, facts, fares, book, rounds, verdict, counts, sound in SHEETS:
        width, marks = facts.split(":")
        for method in "12":
            found.append(("settle %s %s %s %s" % (method, fares, facts, book),
                          "ok %s %d %s %s" % ((verdict, len(rounds)) + rounds[-1])))
            calls = ["0e" + mark for mark in marks.split(",") if mark]
            replies = ["done"] * len(calls) + ["%s/%d" % (verdict, len(rounds)), counts]
            calls += ["0s" + method, "0c"]
            found.append(("sheets %s %s %s %s %s" % (width, width, ";".join(calls), fares, book),
                          "ok " + ";".join(replies)))
        if book.startswith("bare"):
            t, u = rounds[-1]
            f = ",".join(mark for mark in "0123456789"[:int(width)] if mark not in u.split(","))
            found.append(("founded %s %s" % (fares, facts), "ok %s %s" % (t, f or ".")))
        for number in range(2 ** int(width)):
            tried = ",".join(str(mark) for mark in range(int(width)) if number >> mark & 1)
            found.append(("sound %s %s %s:%s %s" % (fares, facts, width, tried, book),
                          "yes" if (tried or ".") in sound else "no"))
    return found


ALL = CASES + NUMBERS + FACTS + STRINGS + CUTS + FILES + HOST + CLOSINGS + CALLS + sheet_pairs()
