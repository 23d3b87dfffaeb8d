"""The thirteen refusals and the faults of the readers, as exceptions."""

BYTES_END = 1
MALFORMED = 2
OUTSIDE_LIMIT = 3
NOT_ASCENDING = 4
FEW_RECORDS = 5
BYTES_REMAIN = 6
WIDTH = 7
RECORD = 8
MARK_TOO_HIGH = 9
FACT_STANDS = 10
NO_SUCH_FACT = 11
NOT_SETTLED = 12
OUTPUT_SHORT = 13


class Refused(Exception):
    """A call that is refused, with the number of the refusal."""

    def __init__(self, number):
        super().__init__(number)
        self.number = number


class NumberFault(Refused):
    """A refusal that a reader met, with the byte of the faulty number."""

    def __init__(self, number, byte):
        super().__init__(number)
        self.byte = byte


class LineFault(Refused):
    """A number fault within a line of a file, with section (fare 1, term 2) and index."""

    def __init__(self, fault, section, index):
        super().__init__(fault.number)
        self.fault = fault
        self.section = section
        self.index = index


class FileFault(Refused):
    """The fault of a file: a number fault outside any line, or a line fault."""

    def __init__(self, fault):
        super().__init__(fault.number)
        self.fault = fault
