#!/usr/bin/env python3
"""The machine once more, written from docs/FORMATS.md and docs/RECORDS.md alone: model.py [WORD].. < SCRIPT
prints what bmcreplay has to print for these words, and ends with its status. The checks compare the program
with it."""

import datetime
import json
import math
import os
import re
import sys
from collections import namedtuple

sys.path.insert(0, os.path.dirname(os.path.realpath(__file__)))
import patterns
import sample
import zones
from eventlog import DEFAULT_CAP, Log
from words import USAGE, Refused, settings_of

LONGEST = 9000
LONGEST_BLOCK = 262_144
MOST_CONFIGS = 256
MOST_FRUS = 256
MOST_BOARDS = 1024
MOST_TICKS = 36_000
DEEPEST = 127
# The forms of lines, and the digits of a record. A name runs to the last space, or to the end of the line.
CONFIG = re.compile(rb"config ([0-9]{1,9})")
PLUG = re.compile(rb"plug ([0-9]{1,9}) ([0-9]{1,9}) ([^ ]+)")
UNPLUG = re.compile(rb"unplug ([0-9]{1,9}) ([0-9]{1,9})")
READ = re.compile(rb"read (.*) (-?[0-9]{1,18})", re.S)
LOSE = re.compile(rb"lose (.*)", re.S)
TICK = re.compile(rb"tick ([0-9]{1,9})")
SHOW = re.compile(rb"show (frus|inventory|sensors|zones|log|indexes)")
HEX = re.compile(rb"(?:[0-9A-Fa-f]{2})+")
BOARD_NAMES = "MANUFACTURER PRODUCT_NAME SERIAL_NUMBER PART_NUMBER FRU_VERSION_ID".split()
PRODUCT_NAMES = "MANUFACTURER PRODUCT_NAME PART_NUMBER VERSION SERIAL_NUMBER ASSET_TAG FRU_VERSION_ID".split()
# Each area: its name, the byte of the header that says where it begins, the byte at which its fields begin,
# what their names begin with, and how the names that are its own go on.
AREAS = [
    ("Chassis", 2, 3, "CHASSIS", ["PART_NUMBER", "SERIAL_NUMBER"]),
    ("Board", 3, 6, "BOARD", BOARD_NAMES),
    ("Product", 4, 3, "PRODUCT", PRODUCT_NAMES),
]
# The words of a probe, and a string of a JSON text, whose closing quote may be missing.
FOUND = re.compile(r"FOUND\('([^']*)'\)", re.S)
PATTERN = re.compile(r"xyz\.openbmc_project\.FruDevice\(\{(.*)\}\)", re.S)
MOST_WORDS, MOST_MEMBERS, LONGEST_WANT = 33, 16, 256
MOST_EXPOSES, MOST_CHANNELS, LONGEST_TEMPLATE, LONGEST_GIVEN = 256, 16, 128, 64
STRING = re.compile(r'"(?:[^"\\]|\\.)*"?', re.S)
SURROGATE = re.compile("[\ud800-\udfff]")
# A substitution of a template, and an operation in it; the words that are no fields, each with the key that has its
# text; the names of fields; the numbers that a text may be, and a decimal.
OPERATION = re.compile(r" ([-+*/%]) ([0-9]{1,5})")
SUBSTITUTION = re.compile(rf"\$([A-Za-z_][A-Za-z0-9_]*)((?:{OPERATION.pattern})*)")
WORDS = {"bus": "BUS", "BUS": "BUS", "address": "ADDRESS", "ADDRESS": "ADDRESS", "index": "index"}
NAMED = {"CHASSIS_TYPE", "BOARD_MANUFACTURE_DATE"} | {f"{front}_{it}" for *_, front, names in AREAS for it in names}
CUSTOM = re.compile(r"(?:CHASSIS|BOARD|PRODUCT)_INFO_AM([1-9][0-9]{0,3})")
MOST_CUSTOM = 2040
NUMBER = re.compile(r"[0-9]{1,9}|0x[0-9A-Fa-f]{1,4}")
DECIMAL = re.compile(r"(-?)([0-9]{1,10})(?:\.([0-9]+))?")
MILLION, MOST_THRESHOLDS, DIRECTIONS = 1_000_000, 8, ("greater than", "less than")
MOST_NAMES, MOST_ROWS, CLASSES = 16, 20, ("fan", "temp", "margin")
LARGEST_RAW, FAILING_LOSSES = 1_000_000_000, 5
# The items that may be live: the type of their exposes, their word, how many exposes there are at most over all boards,
# and the refusal of one more. The limits are tried in this order. Names are given once in each family, and those of
# controllers in none.
KINDS = [("Sensor", "sensor", 4096, "SensorLimit"), ("Pid.Zone", "zone", 32, "ZoneLimit")]
KINDS += [("Fan", "fan", 128, "FanLimit")]
FAMILIES = [kind for kind, *_ in KINDS]
KINDS += [("Pid", "controller", 128, "PidLimit"), ("Stepwise", "controller", 64, "StepLimit")]
KIND_WORDS = {kind: word for kind, word, *_ in KINDS}
END = 0xC1
ENGLISH = (0, 25)
BCD_PLUS = "0123456789 -.:,_"
# The buses below this one are root buses.
ROOTS = 16
# A configuration: its name; its operands, each with the operator before it; whether it ends with MATCH_ONE; what its
# patterns want, each by key; the buses that it opens, and the templates of its moving channels; and its exposes.
Config = namedtuple("Config", "name words match_one wants opens moves exposes")
# An expose: the template of its name, its type, its channels, and what its further members say.
Expose = namedtuple("Expose", "name kind channels members")
# An item: the board and the position of its expose, which make it the same item, its type, its name, its bus and its
# address, where it has them, and the names of its zone, its inputs and its outputs, which a controller alone has.
Item = namedtuple("Item", "board at kind name bus address zone inputs outputs")


class Broken(Exception):
    """A rule that a record or a configuration breaks, by the name that is printed."""


class Members(list):
    """The members of an object as they were read, each a key and its value. A key may come twice."""


class Machine:
    """What stands: the FRUs that are present by place, the configurations, and whether a FRU was plugged. For each
    configuration the places at which each of its patterns matches, the buses to which its channels lead from a place,
    and the indexes of all boards it ever had, by place. The boards, the live items, what each live sensor and each live
    zone shows, what each live controller keeps, the duty of each live fan, and how many ticks there were. Whether there
    is strict mode, and the log."""

    def __init__(self, strict, log_cap):
        self.present, self.configs, self.plugged = {}, [], False
        self.matched, self.led, self.had = [], [], []
        self.boards, self.live, self.sensors = [], [], {}
        self.zones, self.controllers, self.duties, self.ticks = {}, {}, {}, 0
        self.strict, self.log = strict, Log(log_cap)


class Sensor:
    """What a live sensor shows: its last value in thousandths and the ticks there were by then, if there is one, how
    many losses came in a row, up to those that make it fail, and for each of its thresholds whether the alarm is on."""

    def __init__(self, members):
        self.scale = members.get("ScaleNum", 1), members.get("ScaleDen", 1), members.get("Offset", 0)
        self.thresholds, self.timeout = members.get("Thresholds", []), members.get("Timeout", 0)
        self.value, self.losses, self.alarms = None, 0, [False for _ in self.thresholds]
        self.read_at = 0

    def is_good(self, ticks):
        """Whether the value may be used behind so many ticks."""
        is_stale = self.timeout and ticks - self.read_at > self.timeout
        return self.value is not None and self.losses < FAILING_LOSSES and not is_stale


def demand(rule, holds):
    """Goes on where a rule holds."""
    if not holds:
        raise Broken(rule)


def check_header(record):
    """The rules on the whole record and on its header."""
    demand("FruShort", len(record) >= 8)
    demand("FruTooLong", len(record) <= 4096)
    demand("HeaderVersion", record[0] == 1)
    demand("HeaderChecksum", sum(record[:8]) % 256 == 0)


def area_from(record, start, area):
    """The bytes of the area that begins at this byte."""
    rest = record[start:]
    demand(f"AreaOutside {area}", len(rest) >= 8 and len(rest) >= 8 * rest[1])
    demand(f"AreaVersion {area}", rest[0] == 1)
    demand(f"AreaLength {area}", rest[1])
    found = rest[: 8 * rest[1]]
    demand(f"AreaChecksum {area}", sum(found) % 256 == 0)
    return found


def fields_from(body, area):
    """The fields that these bytes begin with, each as its type and its bytes. Behind them stands the end mark."""
    fields = []
    while True:
        demand(f"NoEnd {area}", body)
        if body[0] == END:
            return fields
        kind, length = divmod(body[0], 64)
        demand(f"FieldOutside {area}", len(body) > length)
        fields.append((kind, body[1 : 1 + length]))
        body = body[1 + length :]


def six_bits(data):
    """The characters of 6-bit ASCII. The bytes are one number, the first of them the lowest."""
    bits = int.from_bytes(data, "little")
    return "".join(chr(0x20 + (bits >> at & 63)) for at in range(0, 8 * len(data) - 5, 6))


def two_bytes(data):
    """The characters of 2-byte Unicode. What is none is U+FFFD."""
    units, text = [int.from_bytes(data[at : at + 2], "little") for at in range(0, len(data) - 1, 2)], ""
    while units:
        high, low = units[0], units[1] if len(units) > 1 else 0
        paired = high >> 10 == 0x36 and low >> 10 == 0x37
        if paired:
            text += chr(0x10000 + ((high & 0x3FF) << 10 | low & 0x3FF))
        else:
            text += "\ufffd" if high >> 11 == 0x1B else chr(high)
        units = units[2 if paired else 1 :]
    return text + "\ufffd" * (len(data) % 2)


def text_of(kind, data, language):
    """The text of a field of this type, in an area of this language."""
    if kind == 0:
        return data.hex()
    if kind == 1:
        return "".join(BCD_PLUS[int(digit, 16)] for digit in data.hex())
    if kind == 2:
        return six_bits(data)
    return data.decode("latin-1") if language in ENGLISH else two_bytes(data)


def first_fields(area, found):
    """The fields that an area has in fixed bytes: the chassis type, or the date of a board."""
    minutes = int.from_bytes(found[3:6], "little")
    if area == "Chassis":
        return [("CHASSIS_TYPE", str(found[2]))]
    if area == "Board" and minutes:
        date = datetime.datetime(1996, 1, 1) + datetime.timedelta(minutes=minutes)
        return [("BOARD_MANUFACTURE_DATE", f"{date:%Y-%m-%d %H:%M}")]
    return []


def fields_of(record):
    """The names and texts of a record. Raises Broken with the first rule that it breaks."""
    check_header(record)
    named = []
    for area, byte, begin, front, names in AREAS:
        if not record[byte]:
            continue
        found = area_from(record, 8 * record[byte], area)
        language = 0 if area == "Chassis" else found[2]
        named += first_fields(area, found)
        for number, (kind, data) in enumerate(fields_from(found[begin:-1], area)):
            name = names[number] if number < len(names) else f"INFO_AM{number - len(names) + 1}"
            named.append((f"{front}_{name}", text_of(kind, data, language)))
    return dict(named)


def quoted(text):
    """A text between quotes."""
    special = lambda it: "\\" + it if it in '"\\' else f"\\x{ord(it):02x}" if it < " " or it == "\x7f" else it
    return '"' + "".join(map(special, text)) + '"'


def row(place, fields):
    """The line of a FRU in the final list."""
    return " ".join([f"fru {place[0]} {place[1]}"] + [f"{name}={quoted(text)}" for name, text in fields.items()])


def place_of(bus, address):
    """A bus and an address in their ranges."""
    bus, address = int(bus), int(address)
    demand("PlaceRange", bus <= 255 and address <= 127)
    return bus, address


def finite(text):
    """A number as a float, which has to be in its range."""
    value = float(text)
    if math.isinf(value):
        raise ValueError("beyond the range of a float")
    return value


def whole(text):
    """A number without a fraction and an exponent: an int where it is one of 64 bits, and else a float."""
    value = finite(text)
    fits = text != "-0" and len(text) <= 20 and -(2**63) <= int(text) < 2**64
    return int(text) if fits else value


def no_constant(word):
    """Python reads NaN and Infinity, which are no JSON."""
    raise ValueError(word)


def depth(text):
    """How deep arrays and objects nest, by the brackets outside of strings."""
    deep = most = 0
    for bracket in re.findall(r"[\[\]{}]", STRING.sub("", text)):
        deep += 1 if bracket in "[{" else -1
        most = max(most, deep)
    return most


def parts(value):
    """A value and all that stands in it, keys too."""
    yield value
    inner = value.items() if isinstance(value, dict) else value if isinstance(value, (list, tuple)) else ()
    for it in inner:
        yield from parts(it)


def last_ones(value):
    """A value in which of the members with one key only the last is left."""
    if isinstance(value, Members):
        return {key: last_ones(it) for key, it in value}
    return [last_ones(it) for it in value] if isinstance(value, list) else value


def document_of(block):
    """The document of these bytes. Raises ValueError where they are no JSON text."""
    text = block.decode("utf-8")
    if depth(text) > DEEPEST:
        raise ValueError("nested too deep")
    hooks = {"parse_float": finite, "parse_int": whole, "parse_constant": no_constant, "object_pairs_hook": Members}
    document = json.loads(text, **hooks)
    if any(isinstance(it, str) and SURROGATE.search(it) for it in parts(document)):
        raise ValueError("a surrogate that is alone")
    return last_ones(document)


def wants_of(inner):
    """What a pattern wants of each key, where this stands between its braces: a text, or a number. Raises ValueError
    where it is no pattern."""
    wants = document_of(("{" + inner.replace("\\", "\\\\").replace("'", '"') + "}").encode())
    if len(wants) > MOST_MEMBERS:
        raise ValueError("too many members")
    for want in wants.values():
        fits = len(want.encode()) <= LONGEST_WANT if isinstance(want, str) else type(want) is int
        if not fits:
            raise ValueError("neither a short text nor a whole number")
    return wants


def operand_of(word, wants):
    """What an operand is: a truth, the name of a configuration, or the number of a pattern, which joins the others."""
    if word in ("TRUE", "FALSE"):
        return word == "TRUE"
    found, pattern = FOUND.fullmatch(word), PATTERN.fullmatch(word)
    if found and 1 <= len(found[1].encode()) <= 64:
        return found[1]
    demand("ProbeSyntax", pattern)
    try:
        wants.append(wants_of(pattern[1]))
    except ValueError:
        raise Broken("ProbeSyntax") from None
    return len(wants) - 1


def probe_of(texts):
    """The operands of a probe, each with the operator before it, whether it ends with MATCH_ONE, and its patterns."""
    texts = [it.strip(" ") for it in texts]
    match_one = len(texts) % 2 == 0 and texts[-1] == "MATCH_ONE"
    texts, wants = texts[: len(texts) - match_one], []
    demand("ProbeSyntax", len(texts) % 2 and all(it in ("AND", "OR") for it in texts[1::2]))
    words = [(operator, operand_of(word, wants)) for operator, word in zip(["OR", *texts[1::2]], texts[::2])]
    return words, match_one, wants


def member(value, key, kind):
    """A member that has to be there, and be of this kind. A truth is no number."""
    demand("MissingKey", key in value)
    demand("WrongKind", isinstance(value[key], kind))
    return value[key]


def text_in(value, key, longest):
    """A text of 1 byte to so many."""
    text = member(value, key, str)
    demand("OutOfRange", 1 <= len(text.encode()) <= longest)
    return text


def is_word(word):
    """Whether the word of a substitution stands for something."""
    custom = CUSTOM.fullmatch(word)
    return word in WORDS or word in NAMED or bool(custom and int(custom[1]) <= MOST_CUSTOM)


def check_template(text):
    """A text has to be a template."""
    for word, operations in ((it[1], it[2]) for it in SUBSTITUTION.finditer(text)):
        divides_by_zero = any(sign in "/%" and int(number) == 0 for sign, number in OPERATION.findall(operations))
        demand("TemplateSyntax", is_word(word) and not divides_by_zero)


def computed(text, operations):
    """The number that operations make of the text of a number, or None."""
    if not re.fullmatch("[0-9]{1,9}", text):
        return None
    value = int(text)
    for sign, number in OPERATION.findall(operations):
        number = int(number)
        if sign in "/%":
            value = value // number if sign == "/" else value % number
        else:
            value = value + number if sign == "+" else value - number if sign == "-" else value * number
        if not 0 <= value < 2**32:
            return None
    return value


def given_by(template, texts):
    """What a template gives where keys have these texts, or None."""
    given, at = "", 0
    for it in SUBSTITUTION.finditer(template):
        text = texts.get(WORDS.get(it[1], it[1]))
        if text is not None and it[2]:
            text = computed(text, it[2])
        if text is None:
            return None
        given += template[at : it.start()] + str(text)
        at = it.end()
    given += template[at:]
    return given if 1 <= len(given.encode()) <= LONGEST_GIVEN else None


def number_by(template, texts, most):
    """The number that a template gives, up to the most, or None. It may be a number already, or missing."""
    if not isinstance(template, str):
        return template
    given = given_by(template, texts)
    number = int(given) if given and re.fullmatch("[0-9]{1,10}", given) else most + 1
    return number if number <= most else None


def number_of(value, most):
    """A number from 0 to the most, or the template of one."""
    demand("WrongKind", isinstance(value, str) or type(value) is int)
    if isinstance(value, str):
        single = SUBSTITUTION.fullmatch(value)
        short = len(value.encode()) <= LONGEST_TEMPLATE
        demand("TemplateSyntax", NUMBER.fullmatch(value) or single and short)
        if single:
            check_template(value)
            return value
        value = int(value, 16 if value.startswith("0x") else 10)
    demand("OutOfRange", 0 <= value <= most)
    return value


def channel_of(value):
    """The bus to which a fixed channel leads, or the template of a moving one, which has no index."""
    channel = number_of(value, 255)
    demand("TemplateSyntax", isinstance(channel, int) or SUBSTITUTION.fullmatch(channel)[1] != "index")
    return channel


def whole_of(value, least, most):
    """A whole number in a range."""
    demand("WrongKind", type(value) is int)
    demand("OutOfRange", least <= value <= most)
    return value


def decimal_of(value, least, most, places=3):
    """The thousandths of a decimal from and to so many units, or with six places its millionths."""
    demand("WrongKind", isinstance(value, str) or type(value) is int)
    if isinstance(value, str):
        found = DECIMAL.fullmatch(value)
        demand("WrongKind", found and len(found[3] or "") <= places)
        size = int(found[2] + (found[3] or "").ljust(places, "0"))
        value = -size if found[1] else size
    else:
        value *= 10**places
    demand("OutOfRange", 10**places * least <= value <= 10**places * most)
    return value


def choice_of(value, choices):
    """One of these texts."""
    demand("WrongKind", isinstance(value, str))
    demand("OutOfRange", value in choices)
    return value


def list_of(value, least, most, read, *bounds):
    """A list of so many elements, each of which is read in its turn."""
    demand("WrongKind", isinstance(value, list))
    demand("OutOfRange", least <= len(value) <= most)
    return [read(it, *bounds) for it in value]


def template_of(value):
    """A name that is rendered: a template of 1 to 128 bytes."""
    demand("WrongKind", isinstance(value, str))
    demand("OutOfRange", 1 <= len(value.encode()) <= LONGEST_TEMPLATE)
    check_template(value)
    return value


def threshold_of(value):
    """A threshold, by the keys of its members."""
    demand("WrongKind", isinstance(value, dict))
    return members_of(value, THRESHOLD)


# The members of a threshold, and of exposes by their type, in the order in which they are looked at: the key, whether
# it has to be there, what reads its value, and the bounds of this.
THRESHOLD = [("Direction", True, choice_of, DIRECTIONS), ("Severity", True, whole_of, 0, 1)]
THRESHOLD += [("Value", True, decimal_of, -MILLION, MILLION), ("Hysteresis", False, decimal_of, 0, MILLION)]
ZONE = [("MinThermalOutput", True, decimal_of, -MILLION, MILLION), ("FailSafePercent", True, decimal_of, 0, 100)]
SENSOR = [("Bus", False, number_of, 255), ("Address", False, number_of, 127)]
SENSOR += [("ScaleNum", False, whole_of, -MILLION, MILLION), ("ScaleDen", False, whole_of, 1, MILLION)]
SENSOR += [("Offset", False, decimal_of, -MILLION, MILLION), ("Timeout", False, whole_of, 0, MILLION)]
SENSOR += [("Thresholds", False, list_of, 0, MOST_THRESHOLDS, threshold_of)]
# Those of a controller of any kind, and of a PID controller: of any class, first and last, and of some.
CONTROL = [("Zones", True, list_of, 1, 1, template_of), ("Inputs", True, list_of, 1, MOST_NAMES, template_of)]
CLASS = [("Class", True, choice_of, CLASSES)]
OUTPUTS = [("Outputs", True, list_of, 1, MOST_NAMES, template_of)]
SET_POINT = [("SetPoint", True, decimal_of, -MILLION, MILLION)]
COEFFICIENTS = ["PCoefficient", "ICoefficient", "DCoefficient", "FFGainCoefficient"]
PID = [(key, False, decimal_of, -MILLION, MILLION, 6) for key in COEFFICIENTS]
PID += [(key, False, decimal_of, -MILLION, MILLION) for key in ("FFOffCoefficient", "ILimitMin", "ILimitMax")]
PID += [(key, True, decimal_of, -MILLION, MILLION) for key in ("OutLimitMin", "OutLimitMax")]
PID += [("SlewNeg", False, decimal_of, -MILLION, 0), ("SlewPos", False, decimal_of, 0, MILLION)]
READINGS = [("Reading", True, list_of, 1, MOST_ROWS, decimal_of, -MILLION, MILLION)]
HYSTERESES = [(key, False, decimal_of, 0, MILLION) for key in ("PositiveHysteresis", "NegativeHysteresis")]


def members_of(value, members):
    """The members of an object that are there, by their keys."""
    found = {}
    for key, wanted, read, *bounds in members:
        demand("MissingKey", key in value or not wanted)
        if key in value:
            found[key] = read(value[key], *bounds)
    return found


def pid_of(expose):
    """The members of a PID controller. No least number is above its greatest one, and fans run at 0 to 100 percent."""
    found = members_of(expose, CLASS)
    is_fan = found["Class"] == "fan"
    found |= members_of(expose, CONTROL + (OUTPUTS if is_fan else SET_POINT) + PID)
    demand("OutOfRange", found.get("ILimitMin", 0) <= found.get("ILimitMax", 0))
    demand("OutOfRange", found["OutLimitMin"] <= found["OutLimitMax"])
    demand("OutOfRange", not is_fan or 0 <= found["OutLimitMin"] and found["OutLimitMax"] <= 100_000)
    return found


def stepwise_of(expose):
    """The members of a stepwise controller, which has as many outputs as readings."""
    found = members_of(expose, CONTROL + READINGS)
    count = len(found["Reading"])
    outputs = [("Output", True, list_of, count, count, decimal_of, -MILLION, MILLION)]
    return found | members_of(expose, outputs + HYSTERESES)


def body_of(expose, kind):
    """The members of an expose of this type. Those of one of any other type are not read."""
    members = {"Sensor": SENSOR, "Pid.Zone": ZONE, "Mux": [("Channels", True, list_of, 1, MOST_CHANNELS, channel_of)]}
    readers = {"Pid": pid_of, "Stepwise": stepwise_of}
    return readers[kind](expose) if kind in readers else members_of(expose, members.get(kind, []))


def expose_of(expose):
    """An expose, of which only a multiplexer has channels."""
    demand("WrongKind", isinstance(expose, dict))
    name = template_of(member(expose, "Name", str))
    kind = text_in(expose, "Type", 64)
    members = body_of(expose, kind)
    return Expose(name, kind, members.get("Channels", []), members)


def texts_of(probe):
    """The texts of a probe, of which there are 1 to 33."""
    texts = probe if isinstance(probe, list) else [probe]
    demand("OutOfRange", 1 <= len(texts) <= MOST_WORDS)
    demand("WrongKind", all(isinstance(it, str) for it in texts))
    return texts


def with_pattern(want):
    """A text as the pattern that it is, and a number as it is."""
    try:
        return patterns.compiled(want) if isinstance(want, str) else want
    except patterns.Bad:
        raise Broken("PatternSyntax") from None


def config_of(block):
    """The configuration of these bytes. Raises Broken with the first rule that it breaks by itself."""
    try:
        document = document_of(block)
    except ValueError:
        raise Broken("NotJson") from None
    demand("Fraction", not any(isinstance(it, float) for it in parts(document)))
    demand("WrongKind", isinstance(document, dict))
    name = text_in(document, "Name", 64)
    words, match_one, wants = probe_of(texts_of(member(document, "Probe", (str, list))))
    exposes = member(document, "Exposes", list) if "Exposes" in document else []
    demand("OutOfRange", len(exposes) <= MOST_EXPOSES)
    exposes = [expose_of(it) for it in exposes]
    channels = [channel for it in exposes for channel in it.channels]
    opens, moves = ({it for it in channels if isinstance(it, kind)} for kind in (int, str))
    demand("MuxMatchOne", not (match_one and moves))
    wants = [{key: with_pattern(want) for key, want in it.items()} for it in wants]
    return Config(name, words, match_one, wants, opens, moves, exposes)


def config(size, block, machine):
    """Adds the configuration of a block that should have this size, and gives what is printed."""
    demand("ConfigTooLong", size <= LONGEST_BLOCK)
    demand("ConfigShort", len(block) == size)
    return add(config_of(block), machine)


def add(found, machine):
    """Adds a configuration, and gives what is printed."""
    demand("ConfigAfterPlug", not machine.plugged)
    demand("DuplicateName", found.name not in [it.name for it in machine.configs])
    demand("ConfigLimit", len(machine.configs) < MOST_CONFIGS)
    of_each = [(machine.configs, found), (machine.matched, [set() for _ in found.wants])]
    of_each += [(machine.led, {}), (machine.had, {})]
    for those, new in of_each:
        those.append(new)
    try:
        return settle(machine)
    except Broken:
        for those, _ in of_each:
            those.pop()
        raise


def is_wanted(want, text):
    """Whether the text of a key, if there is one, is as a pattern wants it."""
    if text is None:
        return False
    return text == str(want) if isinstance(want, int) else bool(want.search(text))


def texts_at(place, fields):
    """The texts of keys at a place."""
    return {**fields, "BUS": str(place[0]), "ADDRESS": str(place[1])}


def match(place, fields, machine):
    """Notes the patterns that match the record at a place, and the buses to which channels lead from there."""
    texts = texts_at(place, fields)
    for config, matched, led in zip(machine.configs, machine.matched, machine.led):
        for wants, places in zip(config.wants, matched):
            if all(is_wanted(want, texts.get(key)) for key, want in wants.items()):
                places.add(place)
        if place[0] < ROOTS and any(place in it for it in matched):
            led[place] = {number_by(it, texts, 255) for it in config.moves} - {None}


def plug(bus, address, digits, machine):
    """A FRU appears: gives what is printed. One that is refused here joins the log."""
    place = place_of(bus, address)
    demand("BadHex", HEX.fullmatch(digits))
    try:
        return put(place, bytes.fromhex(digits.decode()), machine)
    except Broken as rule:
        machine.log.add(machine.ticks, f"refused plug {place[0]} {place[1]} {rule}")
        raise


def put(place, record, machine):
    """Puts the FRU with this record at a place, and gives what is printed. Nothing is left of one that is refused."""
    demand("Occupied", place not in machine.present)
    fields = fields_of(record)
    demand("FruLimit", len(machine.present) < MOST_FRUS)
    machine.present[place] = fields
    match(place, fields, machine)
    try:
        printed = settle(machine)
    except Broken:
        forget(place, machine)
        raise
    machine.plugged = True
    return printed


def unplug(bus, address, machine):
    """Takes the FRU at a place away, and gives what is printed."""
    place = place_of(bus, address)
    demand("NotPresent", place in machine.present)
    forget(place, machine)
    return settle(machine)


def forget(place, machine):
    """Takes away what is known of a place."""
    del machine.present[place]
    for places in (it for matched in machine.matched for it in matched):
        places.discard(place)
    for led in machine.led:
        led.pop(place, None)


def found_on(buses, machine):
    """The names of the configurations that are found over the FRUs on these buses. Each asks for those before it."""
    found = set()
    for config, matched in zip(machine.configs, machine.matched):
        value = False
        for operator, word in config.words:
            if isinstance(word, str):
                truth = word in found
            elif isinstance(word, bool):
                truth = word
            else:
                truth = any(bus in buses for bus, _ in matched[word])
            value = value or truth if operator == "OR" else value and truth
        if value:
            found.add(config.name)
    return found


def boards_of(machine):
    """The boards that stand: each by the number of its configuration and its place, which is None where it has none.
    They are in the order of configurations, and for one of them in that of places."""
    buses, boards = set(range(ROOTS)), []
    on_roots = found_on(buses, machine)
    for config, led in zip(machine.configs, machine.led):
        if config.name in on_roots:
            buses = buses.union(config.opens, *led.values())
    found = found_on(buses, machine)
    for number, (config, matched) in enumerate(zip(machine.configs, machine.matched)):
        if config.name in found:
            places = sorted(it for it in set().union(*matched) if it[0] in buses) or [None]
            boards += [(number, place) for place in (places[:1] if config.match_one else places)]
    return boards


def check_limits(boards, machine):
    """The boards and their exposes are limited."""
    demand("BoardLimit", len(boards) <= MOST_BOARDS)
    kinds = [it.kind for number, _ in boards for it in machine.configs[number].exposes]
    for kind, _, most, rule in KINDS:
        demand(rule, kinds.count(kind) <= most)


def settle(machine):
    """Takes note of the boards that stand now, and of their live items, and gives what is printed. An item that stays
    live keeps what it has."""
    boards, live, stand = machine.boards, machine.live, boards_of(machine)
    check_limits(stand, machine)
    machine.boards = stand
    for number, place in machine.boards:
        # The index of a board is its number among all that its configuration ever had.
        machine.had[number].setdefault(place, len(machine.had[number]) + 1)
    machine.live = live_of(machine)
    machine.sensors = kept(machine.sensors, ["Sensor"], Sensor, machine)
    machine.zones = kept(machine.zones, ["Pid.Zone"], zones.Zone, machine)
    machine.controllers = kept(machine.controllers, ["Pid", "Stepwise"], zones.Controller, machine)
    machine.duties = kept(machine.duties, ["Fan"], lambda _: None, machine)
    return changed(boards, live, machine)


def kept(before, kinds, blank, machine):
    """What each live item of these kinds has: what it had before where it was live, and else what it has at first."""
    live = [it for it in machine.live if it.kind in kinds]
    return {it: before[it] if it in before else blank(expose_at(it, machine).members) for it in live}


def expose_at(item, machine):
    """The expose of an item."""
    return machine.configs[item.board[0]].exposes[item.at]


def texts_of_board(board, machine):
    """The texts of keys at a board."""
    number, place = board
    texts = texts_at(place, machine.present[place]) if place else {}
    return {**texts, "index": str(machine.had[number][place])}


def item_at(board, at, expose, texts):
    """The item of an expose where keys have these texts, or None where one of its names gives nothing."""
    listed = [[expose.name], *(expose.members.get(key, []) for key in ("Zones", "Inputs", "Outputs"))]
    (name,), zone, inputs, outputs = (tuple(given_by(it, texts) for it in those) for those in listed)
    if None in (name, *zone, *inputs, *outputs):
        return None
    bus, address = (number_by(expose.members.get(key), texts, most) for key, most in (("Bus", 255), ("Address", 127)))
    return Item(board, at, expose.kind, name, bus, address, zone[0] if zone else None, inputs, outputs)


def items_at(board, kinds, machine):
    """The items of a board in their order, or of these kinds alone."""
    exposes = [(at, it) for at, it in enumerate(machine.configs[board[0]].exposes) if not kinds or it.kind in kinds]
    texts = texts_of_board(board, machine) if exposes else {}
    items = [item_at(board, at, expose, texts) for at, expose in exposes]
    return [it for it in items if it]


def live_of(machine):
    """The live items in their order: of each family the first with each name, and the controllers in zones that are
    held."""
    items, holders = [it for board in machine.boards for it in items_at(board, KIND_WORDS, machine)], {}
    for item in items:
        holders.setdefault((item.kind, item.name), item)
    holds = lambda item: item.kind in FAMILIES and holders[item.kind, item.name] is item
    return [it for it in items if holds(it) or ("Pid.Zone", it.zone) in holders]


def board_text(board, machine):
    """The name, the index and the place of a board."""
    number, place = board
    where = f" at {place[0]} {place[1]}" if place else ""
    return f"{quoted(machine.configs[number].name)} {machine.had[number][place]}{where}"


def only_in(here, there):
    """What is here and not there."""
    there = set(there)
    return [it for it in here if it not in there]


def changed(boards, live, machine):
    """The lines of the boards that stood before and are gone, and of those that are new; then those of live items."""
    turns = [("gone", boards, machine.boards), ("new", machine.boards, boards)]
    boards = [(change, it) for change, here, there in turns for it in only_in(here, there)]
    turns = [("gone", live, machine.live), ("new", machine.live, live)]
    items = [(change, it) for change, here, there in turns for it in only_in(here, there)]
    texts = [f"{change} board {board_text(it, machine)}" for change, it in boards]
    return at_tick(texts + [f"{change} {KIND_WORDS[it.kind]} {quoted(it.name)}" for change, it in items], machine)


def at_tick(changes, machine):
    """The lines of these changes: before each stands how many ticks there were. They join the log."""
    for it in changes:
        machine.log.add(machine.ticks, it)
    return [f"{machine.ticks} {it}" for it in changes]


def name_of(data):
    """The name in these bytes."""
    demand("BadArguments", 1 <= len(data) <= 64)
    try:
        return data.decode("utf-8")
    except UnicodeDecodeError:
        raise Broken("BadArguments") from None


def sensor_with(name, machine):
    """The live sensor that has this name."""
    found = [sensor for item, sensor in machine.sensors.items() if item.name == name]
    demand("UnknownSensor", found)
    return found[0]


def is_on(threshold, value, was_on):
    """Whether the alarm of a threshold is on behind a good reading."""
    limit, hysteresis = threshold["Value"], threshold.get("Hysteresis", 0)
    if threshold["Direction"] == "greater than":
        return value >= limit or was_on and not value < limit - hysteresis
    return value <= limit or was_on and not value > limit + hysteresis


def alarm_text(name, at, threshold, on):
    """The change of an alarm that went on or off."""
    side = "high" if threshold["Direction"] == "greater than" else "low"
    level = "critical" if threshold["Severity"] else "warning"
    return f"alarm {'on' if on else 'off'} {quoted(name)} {at} {side} {level}"


def read(name, raw, machine):
    """A good reading of a sensor: gives the line of one that works again, and those of alarms."""
    name, raw = name_of(name), int(raw)
    sensor = sensor_with(name, machine)
    demand("ReadingRange", abs(raw) <= LARGEST_RAW)
    multiplier, divisor, offset = sensor.scale
    # (this division rounds down, also below 0)
    sensor.value = raw * multiplier // divisor + offset
    changes = [f"working sensor {quoted(name)}"] if sensor.losses == FAILING_LOSSES else []
    sensor.losses, sensor.read_at = 0, machine.ticks
    for at, threshold in enumerate(sensor.thresholds):
        on = is_on(threshold, sensor.value, sensor.alarms[at])
        changes += [alarm_text(name, at, threshold, on)] if on != sensor.alarms[at] else []
        sensor.alarms[at] = on
    return at_tick(changes, machine)


def lose(name, machine):
    """A loss of a sensor: gives the line of one that fails by it."""
    name = name_of(name)
    sensor = sensor_with(name, machine)
    if sensor.losses == FAILING_LOSSES:
        return []
    sensor.losses += 1
    return at_tick([f"failed sensor {quoted(name)}"] if sensor.losses == FAILING_LOSSES else [], machine)


def one_tick(machine):
    """A tick: gives the lines of zones that change their mode, and those of fans whose duty changes."""
    machine.ticks += 1
    good = {item.name: it.value for item, it in machine.sensors.items() if it.is_good(machine.ticks)}
    modes, fans = zones.tick(good, machine.zones, machine.controllers, machine.duties, machine.strict)
    changes = [f"{mode_of(machine.zones[it])} zone {quoted(it.name)}" for it in modes]
    changes += [f"duty fan {quoted(it.name)} {value_text(machine.duties[it])}" for it in fans]
    return at_tick(changes, machine)


def tick(count, machine):
    """So many ticks: gives the lines of each of them."""
    count = int(count)
    demand("TickLimit", 1 <= count <= MOST_TICKS)
    return [line for _ in range(count) for line in one_tick(machine)]


def value_text(value):
    """A number of thousandths, or that there is none."""
    return "none" if value is None else f"{'-' if value < 0 else ''}{abs(value) // 1000}.{abs(value) % 1000:03}"


def mode_of(zone):
    """The mode of a zone."""
    return "failsafe" if zone.failsafe else "normal"


def item_row(item, machine):
    """The row of an item."""
    numbers = [f" {word} {it}" for word, it in (("bus", item.bus), ("address", item.address)) if it is not None]
    live = " live" if item in machine.live else ""
    return f"  {quoted(item.kind)} {quoted(item.name)}{''.join(numbers)}{live}"


def sensor_row(item, sensor, machine):
    """The row of a live sensor."""
    state = "failed" if sensor.losses == FAILING_LOSSES else "ok"
    age = "-" if sensor.value is None else machine.ticks - sensor.read_at
    alarms = "".join(f" {at}" for at, on in enumerate(sensor.alarms) if on)
    return f"sensor {quoted(item.name)} {value_text(sensor.value)} {state} {age}{alarms}"


def zone_rows(machine):
    """The rows of live zones, and then those of live fans."""
    of_zones = [(item.name, mode_of(it), value_text(it.setpoint)) for item, it in machine.zones.items()]
    rows = [f"zone {quoted(name)} {mode} {setpoint}" for name, mode, setpoint in of_zones]
    return rows + [f"fan {quoted(item.name)} {value_text(duty)}" for item, duty in machine.duties.items()]


def show(topic, machine):
    """The rows of a list."""
    if topic == b"frus":
        return [row(place, machine.present[place]) for place in sorted(machine.present)]
    if topic == b"sensors":
        return [sensor_row(item, sensor, machine) for item, sensor in machine.sensors.items()]
    if topic == b"zones":
        return zone_rows(machine)
    if topic == b"log":
        return machine.log.rows()
    if topic == b"indexes":
        ever = [(number, place) for number, had in enumerate(machine.had) for place in had]
        return [f"index {board_text(it, machine)}" for it in ever]
    lines = []
    for board in machine.boards:
        lines.append(f"board {board_text(board, machine)}")
        lines += [item_row(it, machine) for it in items_at(board, None, machine)]
    return lines


# What stands before the first space, with the form of the line and what it asks for.
COMMANDS = {b"config": (CONFIG, None), b"plug": (PLUG, plug), b"unplug": (UNPLUG, unplug)}
COMMANDS |= {b"read": (READ, read), b"lose": (LOSE, lose), b"tick": (TICK, tick), b"show": (SHOW, show)}


def line_alone(line, machine):
    """Does what a line without a block asks for, and gives what is printed."""
    verb = line.partition(b" ")[0]
    demand("UnknownCommand", verb in COMMANDS)
    form, act = COMMANDS[verb]
    found = form.fullmatch(line)
    demand("BadArguments", found)
    return act(*found.groups(), machine)


def without_return(line):
    """A line without the carriage return at its end."""
    return line[:-1] if line.endswith(b"\r") else line


def answer(line, size, block, machine):
    """What is printed of a line that is accepted, with its block where it takes one. What it asks for is done."""
    demand("LineTooLong", len(line) <= LONGEST)
    line = without_return(line)
    if size is not None:
        return config(size, block, machine)
    return line_alone(line, machine) if line and not line.startswith(b"#") else []


def items_of(script):
    """The lines of a script, each with the size of the block that it takes, or None, and with its block."""
    at = 0
    # Behind the last newline there is no line, unless bytes stand there.
    while at < len(script):
        newline = script.find(b"\n", at)
        end = newline if newline >= 0 else len(script)
        line, at = script[at:end], end + 1
        found = CONFIG.fullmatch(without_return(line))
        size = int(found[1]) if found else None
        block = script[at : at + (size or 0)]
        at += size or 0
        # A newline directly behind a block belongs to it.
        if size is not None and script[at : at + 1] == b"\n":
            at += 1
        yield line, size, block


def config_file(block, machine):
    """Adds the configuration of a file, and gives what is printed."""
    demand("ConfigTooLong", len(block) <= LONGEST_BLOCK)
    return add(config_of(block), machine)


def replay(script, files=(), strict=False, log_cap=DEFAULT_CAP):
    """What is printed for a script behind these configuration files, and the status."""
    printed, status, _ = job(script, files, strict, log_cap)
    return printed, status


def job(script, files, strict, log_cap):
    """The same, and how many lines of the script there are and how many of them were refused."""
    machine, printed, turns = Machine(strict, log_cap), [], []
    turns += [(f"file {at}", config_file, it) for at, it in enumerate(files, 1)]
    lines = [*items_of(script)]
    turns += [(f"line {at}", answer, *it) for at, it in enumerate(lines, 1)]
    refused = 0
    for what, act, *words in turns:
        try:
            printed += act(*words, machine)
        except Broken as rule:
            printed.append(f"{what} refused {rule}")
            refused += 1
    printed += show(b"frus", machine)
    return "".join(it + "\n" for it in printed).encode(), int(refused > 0), (len(lines), refused)


def read_file(name):
    """The bytes of a file, as far as they are looked at."""
    with open(name, "rb") as it:
        return it.read(LONGEST_BLOCK + 1)


def sampled(settings):
    """The line of a sample, and the status."""
    printed, status, counts = job(sample.script(settings.sample), (), settings.strict, settings.log_cap)
    line = "sample %d lines %d refused %d bytes %d\n" % (settings.sample, *counts, len(printed))
    return line.encode(), status


def run(words, script, read=read_file):
    """What is printed for these words and this script, and the status. The first file that cannot be read ends the
    run. Of those before it all is printed here, of which the program may print a front."""
    try:
        settings = settings_of(words)
    except Refused:
        return USAGE, 2
    if settings.sample is not None:
        return sampled(settings)
    files = []
    for name in settings.files:
        try:
            files.append(read(name))
        except OSError:
            return front(files, settings), 4
    return replay(script, files, settings.strict, settings.log_cap)


def front(files, settings):
    """What is printed of these files, where nothing comes behind them."""
    return replay(b"", files, settings.strict, settings.log_cap)[0]


if __name__ == "__main__":
    printed, status = run([os.fsencode(it) for it in sys.argv[1:]], sys.stdin.buffer.read())
    sys.stdout.buffer.write(printed)
    sys.exit(status)
