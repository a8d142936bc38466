"""The table of cases, crates/cases/data/cases.txt, whose first lines explain it: its rows, and the files that they describe."""

import os
import re

TABLE = os.path.join(os.path.dirname(os.path.abspath(__file__)), "..", "crates", "cases", "data", "cases.txt")
PARTS = {
    "S": "FF D8",
    "E": "FF D9",
    "Q": "FF DB 00 43 00 64*10",
    "D": "D:00:03:05",
    "A": "FF C4 00 14 10 01 15*00 00",
    "K": "FF C4 00 1F 00 00 01 05 01 01 01 01 01 01 7*00 00 01 02 03 04 05 06 07 08 09 0A 0B",
    "I": "I:0001",
    "F": "F:0008:0008",
    "F3": "F3:0008:0008:11",
    "C": "FF DA 00 08 01 01 00 00 3F 00",
    "C3": "FF DA 00 0C 03 01 00 02 00 03 00 00 3F 00",
    "J": "FF E0 00 10 4A 46 49 46 00 01 02 00 00 01 00 01 00 00",
    "T": "FF EE 00 0E 41 64 6F 62 65 00 64 00 00 00 00 00",
    "T1": "FF EE 00 0E 41 64 6F 62 65 00 64 00 00 00 00 01",
    "G": "S Q F D A C",
    "GI": "S Q F:0008:0010 D A I C",
    "G1": "S Q F:0001:0001 D A C",
    "GW": "S Q F:0008:0050 D A I C",
}
FORMS = {
    "F": "FF C0 00 0B 08 {} {} 01 01 11 00",
    "F1": "FF C1 00 0B 08 {} {} 01 01 11 00",
    "F3": "FF C0 00 11 08 {} {} 03 01 {} 00 02 11 00 03 11 00",
    "D": "FF C4 00 16 00 00 03 14*00 {} {} {}",
    "A2": "FF C4 00 15 10 01 01 14*00 {} {}",
    "I": "FF DD 00 04 {}",
}
UNITS = bytes.fromhex("64875A6DA7DA6CA6C874875865875A74A5CA4CA5584585584484CA4CA5DA4DA4D8")


def scan(each, left, units):
    """Intervals of data units that differ from those next to them, with restart markers between them."""
    data = b""
    for number in range(-(-left // max(each, 1))):
        if number:
            data += bytes([0xFF, 0xD0 | (number - 1) % 8])
        count = -(-min(each, left) * units * 3 // 2)
        data += bytes(UNITS[(3 * number + k) % len(UNITS)] for k in range(count))
        left -= each
    return data


def file(words):
    """The bytes of a file in the notation."""
    data = b""
    for word in words.split():
        name, *arguments = word.split(":")
        times, _, digits = word.rpartition("*")
        if word in PARTS:
            data += file(PARTS[word])
        elif name == "cut":
            data = data[: int(arguments[0])]
        elif name == "at":
            at = int(arguments[0])
            data = data[:at] + bytes.fromhex(arguments[1]) + data[at + 1 :]
        elif name == "M":
            data += scan(*(int(argument, 16) for argument in arguments))
        elif arguments:
            data += file(FORMS[name].format(*arguments))
        else:
            data += bytes.fromhex(digits) * int(times or 1)
    return data


def picture(words):
    """The Netpbm text of a picture in the notation."""
    size, lines = words.split(" : ")
    magic, width, height = size.split()
    text = f"{magic}\n{width} {height}\n255\n".encode()
    for line in lines.split("/"):
        times, _, runs = line.rpartition("x")
        pixels = b""
        for run in runs.split():
            count, _, pixel = run.partition("*")
            pixels += bytes(int(sample) for sample in pixel.split(",")) * int(count)
        text += pixels * int(times or (1 if "/" in lines else height))
    return text


class Row:
    """A row of the table: a file, and what a decoder gives for it."""

    def __init__(self, line):
        self.name, self.words, options, self.report, status, self.picture, damaged = (f.strip() for f in line.split("|"))
        self.options = dict(word.partition("=")[::2] for word in options.split())
        self.status = int(status)
        self.report = self.report.split(" / ")
        self.damaged = damaged.split(" / ") if damaged else []

    def first(self):
        """The number of intervals that are decoded; None for all."""
        return int(self.options["first"]) if "first" in self.options else None

    def files(self):
        """The files that the row stands for: one, or the file cut to each of some lengths."""
        data = file(self.words)
        if "cut" in self.options:
            least, most = self.options["cut"].split("..")
            return [data[:length] for length in range(int(least), int(most) + 1)]
        return [data]

    def check_lines(self):
        """The lines of a check with a map."""
        if self.damaged or self.status == 2:
            return self.damaged or self.report
        count = self.report[0].split()[1]
        end = "" if self.report[1] == "scan ended at EOI" else f", {self.report[1]}"
        return [f"sound, {count} interval{'s' * (count != '1')}{end}"]


def rows():
    """The rows of the table."""
    with open(TABLE, encoding="utf-8") as table:
        return [Row(line) for line in table if re.match(r"[^#\s]", line)]
