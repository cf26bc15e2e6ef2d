"""Machines whose zones tick: random ones, and scripts at the bounds of what is said of ticks, controllers and zones."""

import itertools
import random

from record import board_area, record
from scripts import FIELD, PATTERN, configs, exposed, item, moves, mux, pid, stepwise, zone

# Values, in units; timeouts; coefficients, the limits of duties and of other outputs, and slews; the percents of zones;
# and the classes of controllers.
HEATS = [0, 1, -1, 20, 20, 21, 25, 30, 40, 55, 80, 100, -40, 2000, 4000, 1000000]
TIMEOUTS = [0, 1, 2, 3, 10, 11, 20, 1000000]
COEFFICIENTS = [0, 1, "0.01", "-0.3", -2, "12.5", "-0.000001", "0.333333", 1000000, -1000000]
DUTIES = [(0, 100), (20, 100), (37, 37), (0, 50)]
OUTPUTS = [(0, 100), (-100, 100), (0, 4000), (-1000000, 1000000), (2000, 2000)]
SLEWS = [0, 5, "0.001", "0.011", 1000000]
PERCENTS = [0, 15, 75, "99.999", 100]
CLASSES = ["fan", "fan", "temp", "margin", "stepwise"]


def some_curve(chance, zone, inputs):
    """A stepwise controller, whose readings ascend most often."""
    count = chance.choice([1, 2, 3, 5, 20])
    readings, outputs = (chance.choices(HEATS, k=count) for _ in range(2))
    readings = sorted(readings) if chance.random() < 0.7 else readings
    return stepwise(zone, inputs, readings, outputs, *chance.choices([0, 0, 1, "2.5", 30], k=2))


def some_controller(chance, kind, zone, inputs, outputs):
    """A controller of this class with any numbers."""
    if kind == "stepwise":
        return some_curve(chance, zone, inputs)
    keys = [f"{it}Coefficient" for it in ("P", "I", "D", "FFGain")]
    members = {key: chance.choice(COEFFICIENTS) for key in keys if chance.random() < 0.6}
    for key, limits in (("OutLimit", DUTIES if kind == "fan" else OUTPUTS), ("ILimit", [(0, 0), *OUTPUTS])):
        members[f"{key}Min"], members[f"{key}Max"] = chance.choice(limits)
    if chance.random() < 0.4:
        members |= {"SlewNeg": f"-{chance.choice(SLEWS)}", "SlewPos": chance.choice(SLEWS)}
    if chance.random() < 0.2:
        members["FFOffCoefficient"] = chance.choice([1, -40, "0.001", 1000000])
    return pid(kind, zone, inputs, outputs, **members, SetPoint=chance.choice(HEATS))


def some_machine(chance, sensors, zones, fans):
    """Exposes of sensors, zones and fans with these names, of which some are missing now and then, and controllers."""
    exposes, usual = [], lambda names: [it for it in names if chance.random() < 0.8]
    for it in usual(sensors):
        scale = chance.choice([1, 1, 1, 1000, -1000000])
        exposes.append(item("Sensor", it, Timeout=chance.choice(TIMEOUTS), ScaleNum=scale))
    exposes += [zone(it, chance.choice(HEATS), chance.choice(PERCENTS)) for it in usual(zones)]
    exposes += [item("Fan", it) for it in usual(fans)]
    for _ in range(chance.choice([0, 1, 2, 4, 8])):
        names = [chance.sample(it, chance.choice([1, 1, 1, len(it)])) for it in (sensors, fans)]
        exposes.append(some_controller(chance, chance.choice(CLASSES), chance.choice(zones), *names))
    chance.shuffle(exposes)
    return [{**it, "Name": "C $index"} if it["Name"] == "C" and chance.random() < 0.5 else it for it in exposes]


def ticks_at_bounds():
    """Ticks at the bounds of a line, of a machine with a fan that no controller holds."""
    lines = "".join(f"tick {it}\nshow zones\n" for it in (0, 36001, 1, 36000, 0, 999999999, "000000002", "0000000002"))
    yield exposed([item("Fan", "F")]) + lines.encode()


def ages():
    """Sensors with timeouts that are read, lost and refused, each with a zone that it puts into failsafe."""
    timeouts = [None, 0, 1, 2, 3, 10, 35_999, 36_000, 36_001]
    exposes, names, show = [], [f"T{it}" for it in timeouts], "show zones\nshow sensors\n"
    for name, it in zip(names, timeouts):
        exposes.append(item("Sensor", name, **({} if it is None else {"Timeout": it})))
        exposes += [zone(name, 0, 50), stepwise(name, [name], [0], [1])]
    of_each = ["read %s 5\n", "lose %s\n", "read %s -1000000001\n"]
    read, lose, refused = ("".join(it % name for name in names) for it in of_each)
    turns = ["", read, lose, refused, lose * 4, read + lose * 4]
    lines = [turn + f"tick 1\n{show}" * count for turn in turns for count in (0, 1, 2, 3, 12)]
    yield exposed(exposes) + "".join(lines).encode()
    lines = [read, "tick 35998\n", *[f"tick 1\n{show}"] * 4, read, f"tick 9\n{show}"]
    yield exposed(exposes) + "".join(lines).encode()


def many_controllers():
    """Controllers of all classes with any numbers, each with a zone or a fan that shows what it gives. The values of
    one of three sensors may be as large as any, and as small."""
    chance, sensors = random.Random(1), ["T", "U", "V"]
    for _ in range(40):
        exposes = [item("Sensor", it, ScaleNum=1_000_000 if it == "V" else 1) for it in sensors]
        inputs = lambda: chance.sample(sensors, chance.choice([1, 1, 3]))
        for it in (f"Z{at}" for at in range(31)):
            exposes.append(zone(it, chance.choice([-1000000, 0, 20]), 0))
            exposes.append(some_controller(chance, chance.choice(CLASSES[2:]), it, inputs(), "X"))
        for it in (f"F{at}" for at in range(60)):
            exposes.append(item("Fan", it))
            exposes.append(some_controller(chance, "fan", f"Z{chance.randrange(31)}", inputs(), [it]))
        lines = []
        for _ in range(25):
            raws = [1000 * chance.choice(HEATS) + chance.choice([0, 0, 1, -1]) for _ in sensors]
            lines += [f"read {name} {raw}\n" for name, raw in zip(sensors, raws) if chance.random() < 0.7]
            lines += [f"tick {chance.choice([1, 1, 3, 9, 10, 11])}\n", "show zones\n"]
        yield exposed(exposes) + "".join(lines).encode()


def near_rows():
    """Curves at each reading that is near to their rows and to their hystereses, in each order of two."""
    curves = [([20], [7]), ([20, 40], [2000, 4000]), ([20, 40, 30], [1, 2, 3]), ([40, 20], [1, 2])]
    curves.append(([20, 20, 25], [3, 1, 2]))
    for (readings, outputs), (rise, fall) in itertools.product(curves, ((0, 0), (1, 0), (0, 2), (3, 5), (100, 100))):
        near = {1000 * it + more for it in (*readings, 20 - fall, 20 + rise) for more in (-1, 0, 1)} | {90_000, -90_000}
        turns = [it for pair in itertools.product(sorted(near), repeat=2) for it in (*pair, 20_000)]
        lines = "".join(f"read T {it}\ntick 10\nshow zones\n" for it in turns)
        curve = stepwise("Z", ["T"], readings, outputs, rise, fall)
        yield exposed([item("Sensor", "T"), zone("Z", -1_000_000, 0), curve]) + lines.encode()


def bad_inputs():
    """Two zones whose inputs are bad for each reason and good again, with controllers of each class in them, and fans
    that both hold, that one holds, and that none does."""
    exposes = [item("Sensor", "T"), item("Sensor", "U", Timeout=3), item("Sensor", "V", ScaleNum=1000)]
    exposes += [item("Sensor", "W", Timeout=12), zone("Z", -5, 30), zone("Y", 40, 80)]
    exposes += [item("Fan", it) for it in "FGH"]
    controls = [pid("fan", "Z", ["V"], "FG", FFGainCoefficient=1), pid("fan", "Y", ["V", "T"], "GF", PCoefficient=1)]
    controls += [stepwise("Z", ["U"], [0, 50], [10, 60], 5, 5), pid("temp", "Z", ["T", "X"], PCoefficient=-1)]
    controls.append(pid("margin", "Y", ["T", "U"], ICoefficient="0.5", ILimitMax=90))
    controls.append(pid("fan", "Y", ["W"], "X", FFGainCoefficient=1))
    good, fail = "read T 20000\nread U 55000\nread V 3\nread W -1\n", lambda name: f"lose {name}\n" * 5
    turns = ["", good, fail("T"), "read T -70000\n", fail("U")[:-7], "read U 0\n", good + fail("V"), good, "read V 0\n"]
    lines = "".join(turn + f"tick {count}\nshow zones\n" for count in (1, 9, 2, 5) for turn in turns)
    for size in range(1, len(controls) + 1):
        for those in itertools.combinations(controls, size):
            for order in (those, those[::-1]):
                yield exposed([*exposes, *order]) + lines.encode()


def runs():
    """Controllers, zones and fans that stay, that go and come back, and whose zone is taken over by another, with
    readings and ticks behind each line by which FRUs come and go."""
    every, some = PATTERN % "", FIELD % ("PRODUCT_NAME", "RSR1")
    sums = {"ICoefficient": 1, "ILimitMax": 1000, "OutLimitMax": 1000, "SetPoint": 40}
    slews = {"FFGainCoefficient": "0.1", "SlewPos": 5, "SlewNeg": -20}
    named = [item(*it) for it in (("Sensor", "T"), ("Fan", "F"), ("Sensor", "T $index"), ("Fan", "F $index"))]
    of_each = [[*named[:2], zone("Z", 50, 60), pid("temp", "Z", ["T"], **sums)]]
    of_each.append([*named[2:], zone("Z", 20, 70), pid("fan", "Z", ["T 1"], "F", **slews)])
    of_each.append([named[1], zone("Z $index", 0, 9), pid("fan", "Z 1", ["T"], ["F 1", "F 2"], **slews)])
    of_each.append([*named[:2], zone("Z 1", 10, 80), stepwise("Z", ["T"], [5, 30], [100, 300], 2, 2)])
    of_each.append([pid("fan", "Z", ["T"], ["F", "F 2"], **slews, DCoefficient=1)])
    of_each[2].append(pid("margin", "Z", ["T 1", "T"], **sums))
    of_each[4].append(pid("temp", "Z $index", ["T $index"], **sums))
    probes = [every, some, "TRUE", ["TRUE", "OR", some], [every, "MATCH_ONE"]]
    finders = [exposed(exposes, probe, name) for exposes, probe, name in zip(of_each, probes, "ABCDE")]
    records = [record(board=board_area(["ACM", it])) for it in ("RSR1", "RSR2")]
    places = [(1, 81), (2, 80), (1, 80), (16, 80), (20, 80)]
    there = (moves(records, places) + moves(records[:1], places[::-1])).decode().splitlines(True)
    reads = ["read T 30000\nread T 1 5000\ntick 1\n", "tick 3\n", "read T 9000\ntick 10\n"]
    reads.append("lose T 1\n" * 5 + "read T 45000\ntick 2\n")
    lines = [line + reads[at % len(reads)] + "show zones\n" for at, line in enumerate(there)]
    opener = configs([mux("M", some, ["$bus + 15"])])
    for order in itertools.permutations(finders, 3):
        yield b"".join(order) + opener + "".join([*reads, *lines]).encode()


EDGES = [ticks_at_bounds, ages, many_controllers, near_rows, bad_inputs, runs]
