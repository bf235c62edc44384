#!/usr/bin/env python3
"""Makes the images that this repository ships, from documents 01 and 02 alone: python3 images/make.py

    images/station.img         a station's store: files of all four kinds
    crates/play/data/image     the same, for the script that docs/PLAY.md shows
    crates/list/data/passa     document 01's whole case of a listing: ten sectors, one file
"""
import os

SECTOR = 360
UNBLOCKED, BLOCKED, COMPRESSED, RANDOM = 1, 2, 3, 4
MARKED, PROTECTED = 1, 2
BLANK, GO_ON = 0x40, 128


def word(n):
    """A word of 16 bits, high byte first."""
    return bytes([n // 256, n % 256])


def ebcdic(text):
    """Text in EBCDIC."""
    return text.encode("cp037")


def entry(name, kind, length, first, sectors, count, flags):
    """The 20 bytes of a directory entry."""
    return ebcdic(name.ljust(8)) + b"".join(map(word, (kind, length, first, sectors, count, flags)))


def runs(characters):
    """Characters with two or more blanks nowhere among them, in runs of at most 127."""
    return b"".join(bytes([len(c)]) + c for c in (characters[i : i + 127] for i in range(0, len(characters), 127)))


def blank_runs(n):
    """n blanks, in runs of at most 127, 127 first."""
    return bytes([128 + 127]) * (n // 127) + (bytes([128 + n % 127]) if n % 127 else b"")


def encode(record):
    """The code of a compressed record, as the writer makes it."""
    record = record.rstrip(b"\x40")
    code, characters, at = b"", b"", 0
    while at < len(record):
        blanks = len(record) - at - len(record[at:].lstrip(b"\x40"))
        if blanks >= 2:
            code += runs(characters) + blank_runs(blanks)
            characters = b""
            at += blanks
        else:
            characters += record[at : at + 1]
            at += 1
    return code + runs(characters) + b"\x00"


def extent(kind, length, sectors, records):
    """The bytes of a file's extent that holds these records or granules."""
    out = bytearray(SECTOR * sectors)
    place = 0
    for k, record in enumerate(records):
        if kind == BLOCKED or kind == RANDOM and length <= 180:
            per_sector = SECTOR // length
            at = SECTOR * (k // per_sector) + k % per_sector * length
        elif kind == COMPRESSED:
            record = encode(record)
            sector, byte = divmod(place, SECTOR)
            if byte and byte + len(record) > SECTOR:
                out[place : SECTOR * (sector + 1)] = bytes([GO_ON]) * (SECTOR - byte)
                place = SECTOR * (sector + 1)
            at, place = place, place + len(record)
            rest = -place % SECTOR
            out[place : place + rest] = bytes([GO_ON]) * rest
        else:
            at = SECTOR * -(-length // SECTOR) * k
        out[at : at + len(record)] = record
    assert len(out) == SECTOR * sectors, "the records do not fit"
    return bytes(out)


class Image:
    """An image of n sectors, to which files are added one behind another."""

    def __init__(self, n):
        self.bytes = bytearray(SECTOR * n)
        self.used, self.first = 0, 1

    def add(self, name, kind, length, sectors, records=(), flags=0, gap=0):
        """A file of the next entry, behind the last one's extent and a gap."""
        first = self.first + gap
        count = 0 if kind == RANDOM else len(records)
        self.put(20 * self.used, entry(name, kind, length, first, sectors, count, flags))
        self.put(SECTOR * first, extent(kind, length, sectors, records))
        self.used, self.first = self.used + 1, first + sectors
        return self

    def put(self, at, new):
        """These bytes over those from byte at on."""
        assert at + len(new) <= len(self.bytes), "past the image's end"
        self.bytes[at : at + len(new)] = new
        return self


def passa():
    """Document 01's whole case of a listing."""
    records = [ebcdic("PASS 412   AOS 07:14:02   LOS 07:25:11"), ebcdic("660 FRAMES HEARD   3 LOST")]
    return Image(10).add("PASSA", COMPRESSED, 80, 4, records, MARKED)


def clock(seconds):
    """A time of the day."""
    return f"{seconds // 3600 % 24:02d}:{seconds // 60 % 60:02d}:{seconds % 60:02d}"


def pass_line(k):
    """What is logged of pass k: one round of the satellite behind another, each heard for eleven minutes."""
    rises = 26042 + 5681 * k
    times = f"AOS {clock(rises)}   LOS {clock(rises + 669)}"
    return f"PASS {412 + k} ON DAY {105 + rises // 86400}   {times}   {8 + (55 - 17 * k) % 80} DEGREES HIGH   {660 - 7 * k} FRAMES"


def station():
    """What the club's store might hold after a few passes."""
    log = [ebcdic(pass_line(k)) for k in range(12)]
    notes = [
        ebcdic(text)
        for text in (
            "AOS IS WHEN WE BEGIN TO HEAR THE SATELLITE. LOS IS WHEN WE LOSE IT.",
            "BATTERY 2        27 VOLTS        HEATER OFF",
            "TRANSMITTER B IS ON FROM PASS 415. THE BUS VOLTAGE WAS LOW AT AOS.",
            "",
            "ANTENNA          POINT IT STRAIGHT UP BEFORE A STORM.",
        )
    ]
    # a frame: its number, then eleven channels of the bus
    frames = [word(k) + b"".join(word((2048 + 37 * k + 511 * c + k * c * c) % 4096) for c in range(11)) for k in range(100)]
    # an element set in two sectors
    elements = [ebcdic(f"ORBIT ON DAY {103 + k} OF 1971   TILT 97.4 DEGREES   15.21 ROUNDS A DAY").ljust(400, b"\x40") for k in range(3)]
    # a calibration curve of 180 points for each channel
    curves = [b"".join(word(4096 - (p * p * (c + 1)) // 32 % 4096) for p in range(180)) for c in range(8)]
    # a calibration of 30 points for each of a frame's words, its number first, with granules of 60 bytes, six to a sector
    calibrations = [b"".join(word((97 * c + (128 + c) * p) % 4096) for p in range(30)) for c in range(12)]
    image = Image(44)
    image.add("PASSLOG", COMPRESSED, 80, 6, log)
    image.add("NOTES", COMPRESSED, 132, 2, notes, MARKED)
    image.add("FRAMES", BLOCKED, 24, 8, frames, MARKED)
    image.add("ELEMENTS", UNBLOCKED, 400, 8, elements, gap=1)
    image.add("CURVES", RANDOM, 360, 8, curves, PROTECTED)
    image.add("TRACE", BLOCKED, 180, 4)
    image.add("CALIB", RANDOM, 60, 2, calibrations)
    return image


if __name__ == "__main__":
    top = os.path.dirname(os.path.dirname(os.path.abspath(__file__)))
    for path, image in (("images/station.img", station()), ("crates/play/data/image", station()), ("crates/list/data/passa", passa())):
        with open(os.path.join(top, path), "wb") as out:
            out.write(image.bytes)
