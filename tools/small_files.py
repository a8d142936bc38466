"""Files of a few bytes from the table of cases, with the images that follow from ITU-T T.81 by hand, and parts of such files."""

import cases


class File:
    """A file, and what a decoder writes of it: the picture, the report's two lines, and the exit status."""

    def __init__(self, name, data, picture, report, status=0):
        self.name, self.data, self.picture, self.report, self.status = name, data, picture, report, status


def report(sound, damaged=0):
    """The report of a file that ends at EOI."""
    return b"intervals %d sound %d damaged %d blank 0\nscan ended at EOI\n" % (sound + damaged, sound, damaged)


def of_row(row):
    """The file of a row of the table that stands for one file."""
    (data,) = row.files()
    lines = "".join(f"{line}\n" for line in row.report)
    return File(row.name, data, cases.picture(row.picture), lines.encode(), row.status)


START = cases.file("S")
END = cases.file("E")
QUANTISERS = cases.file("Q")
AC_TABLE = cases.file("A")
AN_MCU_AN_INTERVAL = cases.file("I")
ROWS = {row.name: row for row in cases.rows()}
# two intervals, of which the second is damaged in the second file; three components; and an Adobe mark
FILES = [of_row(ROWS[name]) for name in ("restart-marker", "no-word", "colours", "adobe-rgb")]
SOUND = FILES[0].data


def dc_table(*sizes):
    """A DC table of three codes of two bits."""
    return cases.file("D:%02X:%02X:%02X" % sizes)


def claims(height, width, intervals):
    """A grey file of one coded MCU whose header claims these dimensions."""
    head = cases.file("S Q F:%04X:%04X D A" % (height, width))
    return head + intervals + cases.file("C 63 E")


def code_tables(counts, number):
    """DHT segments with `number` code tables of class 1 and destination 3, which no scan of these files names."""
    table = bytes([0x13]) + bytes(counts) + bytes(sum(counts))
    a_segment = 65533 // len(table)
    for left in range(number, 0, -a_segment):
        tables = table * min(left, a_segment)
        yield bytes.fromhex("FF C4 %04X" % (2 + len(tables))) + tables


def after_tables(counts, number):
    """A grey picture of 8 by 8 pixels after `number` code tables, counts[i] codes of i + 1 bits in each."""
    return START + b"".join(code_tables(counts, number)) + cases.file("Q F D A C 63 E")
