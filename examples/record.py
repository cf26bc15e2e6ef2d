#!/usr/bin/env python3
"""Makes a record, the bytes of a FRU, and prints it in hexadecimal digits.

examples/record.py --board-manufacturer ACM --board-product RSR1
    prints the digits of a record with a board area
examples/record.py --at 1 80 --chassis-type 23 --product-name NS-2240
    prints a line of a script: it plugs a record with a chassis area and a
    product area at bus 1, address 80

An area is made where one of its options is given. Its named fields that
are left out are empty texts. The name behind each option is the one under
which bmcreplay prints the field.

A text has 0 or 2 to 63 characters of Latin 1. A text of one character
cannot be written: its type/length byte would be C1h, which ends the fields.
In an area whose language is neither 0 nor 25, the numbers of English, a text
has up to 31 units of 2-byte Unicode. A word before the text asks for another
type:

  hex:00FF        binary: these bytes
  bcd:12-03       BCD plus: digits, spaces and - . : , _
  six:RACK 7      6-bit ASCII: the characters from 20h to 5Fh
  text:bcd:12     the text bcd:12, which begins like another type

BCD plus of an odd length gets a space behind it. So does 6-bit ASCII of 3,
7, 11 .. characters: their bytes have room for one more.

The status is 0 where all was printed, 1 where the record cannot be made or
not be printed, and 2 where the words of the command line are wrong. One line
on standard error says why it is not 0."""

import argparse
import datetime
import sys

ENGLISH = (0, 25)
BCD_PLUS = "0123456789 -.:,_"
# The options for the named fields of an area, each with the name under which the field is printed.
CHASSIS = {"part": "CHASSIS_PART_NUMBER", "serial": "CHASSIS_SERIAL_NUMBER"}
BOARD = {
    "manufacturer": "BOARD_MANUFACTURER",
    "product": "BOARD_PRODUCT_NAME",
    "serial": "BOARD_SERIAL_NUMBER",
    "part": "BOARD_PART_NUMBER",
    "file": "BOARD_FRU_VERSION_ID",
}
PRODUCT = {
    "manufacturer": "PRODUCT_MANUFACTURER",
    "name": "PRODUCT_PRODUCT_NAME",
    "part": "PRODUCT_PART_NUMBER",
    "version": "PRODUCT_VERSION",
    "serial": "PRODUCT_SERIAL_NUMBER",
    "tag": "PRODUCT_ASSET_TAG",
    "file": "PRODUCT_FRU_VERSION_ID",
}
AREAS = {"chassis": CHASSIS, "board": BOARD, "product": PRODUCT}
EPOCH = datetime.datetime(1996, 1, 1)


def with_checksum(data):
    """The bytes, and one more that makes their sum zero modulo 256."""
    return data + bytes([-sum(data) % 256])


def binary(text):
    """The bytes of hexadecimal digits. Spaces may stand between bytes."""
    try:
        return bytes.fromhex(text)
    except ValueError:
        raise ValueError(f"hex: wants two hexadecimal digits for each byte, and {text!r} is not that") from None


def bcd_plus(text):
    """The bytes of BCD plus: two characters a byte, the first of them in the high bits."""
    if not set(text) <= set(BCD_PLUS):
        raise ValueError(f"BCD plus has the characters {BCD_PLUS!r} alone, and {text!r} has others")
    return bytes.fromhex("".join(f"{BCD_PLUS.index(it):x}" for it in text + " " * (len(text) % 2)))


def six_bit(text):
    """The bytes of 6-bit ASCII: 6 bits a character, the first of them lowest."""
    if not all(" " <= it <= "_" for it in text):
        raise ValueError(f"6-bit ASCII has the characters from 20h to 5Fh alone, and {text!r} has others")
    bits = sum(ord(it) - 0x20 << 6 * at for at, it in enumerate(text))
    return bits.to_bytes((6 * len(text) + 7) // 8, "little")


def text_bytes(text, language):
    """The bytes of a text of type 3: Latin 1, or 2-byte Unicode, by the language."""
    if language in ENGLISH and max(text, default="") > "\xff":
        raise ValueError(f"a text has characters of Latin 1 alone, and {text!r} has others")
    try:
        data = text.encode("latin-1" if language in ENGLISH else "utf-16-le")
    except UnicodeEncodeError:
        raise ValueError(f"a text is UTF-8, and {text!r} is not") from None
    if len(data) == 1:
        raise ValueError(f"a text of one byte would end the fields, and {text!r} has one")
    return data


def field(text, language=0):
    """A field: its type/length byte, and its bytes."""
    kinds = {"hex": (0, binary), "bcd": (1, bcd_plus), "six": (2, six_bit)}
    front, colon, rest = text.partition(":")
    if colon and front in kinds:
        kind, to_bytes = kinds[front]
        data = to_bytes(rest)
    else:
        kind, data = 3, text_bytes(rest if colon and front == "text" else text, language)
    if len(data) > 63:
        raise ValueError(f"a field has at most 63 bytes, and {text!r} has {len(data)}")
    return bytes([kind << 6 | len(data)]) + data


def area(front, fields):
    """An area: version, length in multiples of 8, what its fields stand behind, the fields, the end mark C1h,
    zeros up to a multiple of 8, and the checksum."""
    body = front + b"".join(fields) + b"\xc1"
    units = (2 + len(body) + 1 + 7) // 8
    if units > 255:
        raise ValueError(f"an area has at most 2,040 bytes, and this one would have {8 * units}")
    return with_checksum((bytes([1, units]) + body).ljust(8 * units - 1, b"\0"))


def chassis_area(kind, texts):
    """A chassis area of this chassis type."""
    return area(bytes([kind]), map(field, texts))


def board_area(texts, language=0, minutes=0):
    """A board area. The date counts minutes since the beginning of 1996, and 0 is no date."""
    front = bytes([language]) + minutes.to_bytes(3, "little")
    return area(front, (field(it, language) for it in texts))


def product_area(texts, language=0):
    """A product area."""
    return area(bytes([language]), (field(it, language) for it in texts))


def record(chassis=b"", board=b"", product=b""):
    """A record: the header, which says where the areas begin, and the areas that are not empty, in this order."""
    offsets, units = [], 1
    for it in (chassis, board, product):
        offsets.append(units if it else 0)
        units += len(it) // 8
    if units > 512:
        raise ValueError(f"a record has at most 4,096 bytes, and this one would have {8 * units}")
    return with_checksum(bytes([1, 0, *offsets, 0, 0])) + chassis + board + product


def date(text):
    """The minutes from the beginning of 1996 to a date."""
    try:
        found = datetime.datetime.strptime(text, "%Y-%m-%d %H:%M")
    except ValueError:
        raise argparse.ArgumentTypeError(f"{text!r} is no date of the form 2024-10-21 07:30") from None
    minutes = (found - EPOCH) // datetime.timedelta(minutes=1)
    if not 0 < minutes < 1 << 24:
        raise argparse.ArgumentTypeError("dates go from 1996-01-01 00:01 to 2027-11-24 20:15")
    return minutes


def number_to(most):
    """What reads a number from 0 to this one."""

    def read(text):
        if not (text.isascii() and text.isdecimal() and int(text) <= most):
            raise argparse.ArgumentTypeError(f"{text!r} is no number from 0 to {most}")
        return int(text)

    return read


def output(text):
    """Prints a text. Ends with status 1 where it cannot be written."""
    try:
        with open(1, "w", encoding="utf-8", closefd=False) as it:
            it.write(text)
    except OSError as why:
        sys.exit(f"record.py: the output could not be written: {why.strerror}")


class Parser(argparse.ArgumentParser):
    """A parser that says in one line what is wrong, and notices where its help cannot be printed."""

    def error(self, message):
        self.exit(2, f"record.py: {message}\n")

    def print_help(self, file=None):
        output(self.format_help())


class PlaceOf(argparse.Action):
    """Reads a bus and an address, each in its range."""

    def __call__(self, parser, said, words, option=None):
        try:
            setattr(said, self.dest, (number_to(255)(words[0]), number_to(127)(words[1])))
        except argparse.ArgumentTypeError as why:
            raise argparse.ArgumentError(self, str(why)) from None


def words():
    """The words of the command line."""
    form = lambda prog: argparse.RawDescriptionHelpFormatter(prog, max_help_position=32, width=79)
    parser = Parser(description=__doc__, formatter_class=form, usage="%(prog)s [OPTION ..]", allow_abbrev=False)
    byte = number_to(255)
    place = "print a line of a script that plugs the record: bus 0 to 255, address 0 to 127"
    parser.add_argument("--at", nargs=2, action=PlaceOf, metavar=("BUS", "ADDRESS"), help=place)
    parser.add_argument("--chassis-type", type=byte, metavar="N", help="CHASSIS_TYPE, 0 if left out")
    date_help = "BOARD_MANUFACTURE_DATE, as '2024-10-21 07:30'; none if left out"
    parser.add_argument("--board-date", type=date, metavar="DATE", help=date_help)
    for area, names in AREAS.items():
        if area != "chassis":
            parser.add_argument(f"--{area}-language", type=byte, metavar="N", help="0, English, if left out")
        for name, printed in names.items():
            parser.add_argument(f"--{area}-{name}", metavar="TEXT", help=printed)
        further = f"{area.upper()}_INFO_AM1; once more for the next"
        parser.add_argument(f"--{area}-custom", action="append", metavar="TEXT", help=further)
    return vars(parser.parse_args())


def said_record(said):
    """The record that the words of the command line ask for."""
    asked = {it for it in AREAS if any(said[word] is not None for word in said if word.startswith(it))}
    texts = {it: [said[f"{it}_{name}"] or "" for name in AREAS[it]] + (said[f"{it}_custom"] or []) for it in AREAS}
    language = {it: said[f"{it}_language"] or 0 for it in ("board", "product")}
    chassis = chassis_area(said["chassis_type"] or 0, texts["chassis"])
    board = board_area(texts["board"], language["board"], said["board_date"] or 0)
    product = product_area(texts["product"], language["product"])
    made = {"chassis": chassis, "board": board, "product": product}
    return record(**{it: made[it] for it in asked})


def main():
    said = words()
    try:
        digits = said_record(said).hex().upper()
    except ValueError as why:
        sys.exit(f"record.py: {why}")
    output("plug {} {} {}\n".format(*said["at"], digits) if said["at"] else f"{digits}\n")


if __name__ == "__main__":
    main()
