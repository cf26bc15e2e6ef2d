#!/usr/bin/env python3
"""Prints a script of a workload: bench/generate.py WORKLOAD LINES [COUNT]

  plugs     a FRU is plugged and unplugged, again and again
  refused   lines that are refused, each with a printed line
  comments  lines that do nothing
  long      comments of 9,000 bytes, the longest that a line may be
  toolong   lines of 20,000 bytes, which are refused and dropped
  records   records of 2,048 bytes with three full areas are plugged, and
            unplugged again
  present   COUNT FRUs are plugged first; then one after another of them is
            unplugged and plugged again, in an order that jumps about
  boards    256 configurations with plain patterns; then FRUs come and go at
            2,048 places, with COUNT of them present. In turn one configuration
            finds the FRU, eight do, and none
  regex     256 configurations with one regular expression each; then FRUs
            come and go as for boards. One configuration finds each
  mux       a multiplexer opens 16 buses. Behind it COUNT FRUs are present,
            each with a board. They are unplugged and plugged again, and with
            each sixteenth the multiplexer, so that all boards go and come back
  found     a chain of COUNT configurations: the first finds a FRU that is
            plugged and unplugged, and each other one asks for the one before it
  idle      COUNT configurations, none of which finds the FRU that is plugged
            and unplugged
  still     16 configurations, of which 4 find a FRU that is plugged and
            unplugged; COUNT other FRUs are present, which none of them finds
  under     16 configurations, of which 4 find each FRU; else as present
  risers    as present, where each FRU has a board that exposes nothing
  blades    as present, where each FRU has a board with a sensor
  crowded   as present, where each FRU has a board with a sensor and 255
            passive exposes
  trays     as present, where each FRU has a board with four fans
  passive   four configurations with 256 passive exposes each find all of COUNT
            FRUs, so 256 of them have 262,144 items; else as present
  readings  COUNT sensors with two thresholds each are read, one after another
            in an order that jumps about. A twentieth of the lines are losses,
            six in a row for a sensor, and some readings are beyond a threshold
  lists     as readings, and each hundredth line asks for the list of sensors
  ticks     COUNT zones with two fans, three controllers and four sensors each;
            each line lets 100 ticks pass, but for each tenth, which reads a
            sensor. The last zone takes its temperatures from the first
  busy      the zones of ticks; each fourth line lets one tick pass, and the
            others each read a sensor, in an order that jumps about
  rack      eight zones of ticks beside COUNT FRUs, each with a board with a
            sensor; of eight lines one unplugs a FRU or plugs it again, one
            lets one tick pass, and the others each read a sensor of a zone

COUNT is at most 256, and 255 for mux and still, 31 for trays, 32 for ticks and
busy, 4,096 for readings and lists; left out, it is as many. LINES does not
count the configurations and the first FRUs. The same words give the same
script."""

import json
import os
import sys

sys.dont_write_bytecode = True
sys.path.insert(0, os.path.dirname(os.path.realpath(__file__)) + "/../examples")
from record import board_area, chassis_area, product_area, record

# Each workload, and the most that COUNT can be: 256 FRUs may be present, in two of them there is one more, and there may
# be 128 fans, 4,096 sensors and 32 zones.
WORKLOADS = dict.fromkeys(("plugs", "refused", "comments", "long", "toolong", "records"), 256)
WORKLOADS |= dict.fromkeys(("present", "boards", "regex", "found", "idle", "under", "rack"), 256)
WORKLOADS |= dict.fromkeys(("risers", "blades", "crowded"), 256)
WORKLOADS |= dict.fromkeys(("mux", "still"), 255)
WORKLOADS |= {"trays": 31, "passive": 256, "readings": 4096, "lists": 4096, "ticks": 32, "busy": 32}
TEXTS = ["Norrland Systems AB", "Riser, 2 x16", "NSR2404200117", "310-00511-01", "FRU 2.1"]
RECORD = record(board=board_area(TEXTS)).hex().upper()
# A step that shares no factor with a power of 2, so that the places jump about and each gets its turn.
STEP = 12289
# So many places are on the root buses.
ON_ROOTS = 2048


def plugs(lines, count):
    for at in range(lines):
        yield "unplug 1 80\n" if at % 2 else f"plug 1 80 {RECORD}\n"


def refused(lines, count):
    yield from ["unplug 1 80\n"] * lines


def comments(lines, count):
    yield from ["# the riser is warm\n"] * lines


def long(lines, count):
    yield from ["#" * 9000 + "\n"] * lines


def toolong(lines, count):
    yield from ["#" * 20_000 + "\n"] * lines


def records(lines, count):
    full = ["x" * 63] * 10
    big = record(chassis_area(23, full), board_area(full, minutes=1), product_area(full)).ljust(2048, b"\0").hex()
    for at in range(lines):
        yield "unplug 1 80\n" if at % 2 else f"plug 1 80 {big}\n"


def place(number):
    return f"{number // 128 % 256} {number % 128}"


def present(lines, present):
    for number in range(present):
        yield f"plug {place(number)} {RECORD}\n"
    for at in range(lines // 2):
        where = place(at * STEP % present)
        yield f"unplug {where}\n"
        yield f"plug {where} {RECORD}\n"


def config(number, probe, **members):
    """The lines of a configuration with this probe."""
    block = json.dumps({"Name": f"Board {number}", "Probe": probe, **members}, separators=(",", ":"))
    return f"config {len(block)}\n{block}\n"


def looking_for(field, text):
    """A word that looks for a text in a field."""
    return f"xyz.openbmc_project.FruDevice({{'BOARD_{field}': '{text}'}})"


def finders(found):
    """Configurations that look for these fields and texts."""
    for number, (field, text) in enumerate(found):
        yield config(number, looking_for(field, text))


def board_record(number):
    """A record that one configuration of the workload boards finds, or eight, or none."""
    one = ["Norrland", f"Model{number % 248:03}", *TEXTS[2:]]
    texts = (one, ["Nord0, Nord1"] * 4, TEXTS)[number % 3]
    return record(board=board_area(texts)).hex().upper()


def boards(lines, present):
    fields = ["MANUFACTURER", "PRODUCT_NAME", "SERIAL_NUMBER", "PART_NUMBER"]
    found = [("PRODUCT_NAME", f"Model{at:03}") for at in range(248)]
    yield from finders(found + [(fields[at % 4], f"Nord{at // 4}") for at in range(8)])
    yield from turns(lines, present, [board_record(number) for number in range(744)])


def turns(lines, present, records):
    """FRUs with these records come and go, with so many of them present."""
    for at in range(present + lines // 2):
        if at >= present:
            yield f"unplug {place((at - present) * STEP % ON_ROOTS)}\n"
        yield f"plug {place(at * STEP % ON_ROOTS)} {records[at % len(records)]}\n"


def regex(lines, present):
    yield from finders([("PRODUCT_NAME", f"^Riser,? {at} x(8|16)( rev\\.[A-D]+)?$") for at in range(256)])
    products = [f"Riser, {at} x{8 << at % 2} rev.{'ABCD'[at % 4]}" for at in range(256)]
    yield from turns(lines, present, [record(board=board_area([TEXTS[0], it, *TEXTS[2:]])).hex() for it in products])


def mux(lines, present):
    slots = {"Name": "Slots", "Type": "Mux", "Channels": list(range(16, 32))}
    yield config(0, looking_for("PRODUCT_NAME", "^Mux"), Exposes=[slots])
    yield config(1, looking_for("PRODUCT_NAME", "^Riser"))
    opener = f"plug 1 112 {record(board=board_area([TEXTS[0], 'Mux 16'])).hex()}\n"
    yield opener
    for number in range(present):
        yield f"plug {place(ON_ROOTS + number)} {RECORD}\n"
    for at in range(lines // 2):
        where = place(ON_ROOTS + at * STEP % present)
        yield from (["unplug 1 112\n", opener] if at % 16 == 15 else [f"unplug {where}\n", f"plug {where} {RECORD}\n"])


def found(lines, count):
    yield config(0, looking_for("MANUFACTURER", "^Norrland"))
    for number in range(1, count):
        yield config(number, ["TRUE", "AND", f"FOUND('Board {number - 1}')"])
    yield from plugs(lines, count)


def idle(lines, count):
    yield from finders([("SERIAL_NUMBER", f"Nothing{at}") for at in range(count)])
    yield from plugs(lines, count)


def sixteen():
    """Configurations of which 4 find a FRU."""
    found = [("MANUFACTURER", "Norrland"), ("PRODUCT_NAME", "Riser"), ("SERIAL_NUMBER", "NSR"), ("PART_NUMBER", "511")]
    yield from finders(found + [("SERIAL_NUMBER", f"Nothing{at}") for at in range(12)])


def still(lines, frus):
    yield from sixteen()
    other = record(board=board_area(["Volta Power", "VP-1600 supply", "1688231-0419"])).hex()
    for number in range(frus):
        yield f"plug {place(256 + number)} {other}\n"
    yield from plugs(lines, frus)


def under(lines, frus):
    yield from sixteen()
    yield from present(lines, frus)


def risers(lines, frus):
    yield config(0, looking_for("PRODUCT_NAME", "Riser"))
    yield from present(lines, frus)


def blades(lines, frus):
    limits = [{"Direction": "greater than", "Severity": 1, "Value": 95, "Hysteresis": 2}]
    sensor = {"Name": "Temp $index", "Type": "Sensor", "Thresholds": limits}
    yield config(0, looking_for("PRODUCT_NAME", "Riser"), Exposes=[sensor])
    yield from present(lines, frus)


def crowded(lines, frus):
    exposes = [{"Name": f"Part $index.{at}", "Type": "EEPROM"} for at in range(255)]
    exposes.append({"Name": "Temp $index", "Type": "Sensor"})
    yield config(0, looking_for("PRODUCT_NAME", "Riser"), Exposes=exposes)
    yield from present(lines, frus)


def trays(lines, frus):
    fans = [{"Name": f"Fan $index.{at}", "Type": "Fan"} for at in range(4)]
    yield config(0, looking_for("PRODUCT_NAME", "Riser"), Exposes=fans)
    yield from present(lines, frus)


def passive(lines, frus):
    exposes = [{"Name": f"Part $index.{at}", "Type": "EEPROM"} for at in range(256)]
    for number in range(4):
        yield config(number, looking_for("PRODUCT_NAME", "Riser"), Exposes=exposes)
    yield from present(lines, frus)


def sensors(count):
    """Configurations with so many sensors, which are always there."""
    limits = [{"Direction": "greater than", "Severity": 0, "Value": 70, "Hysteresis": 2}]
    limits.append({"Direction": "greater than", "Severity": 1, "Value": "85.5", "Hysteresis": 3})
    exposes = [{"Name": f"Sensor {at} Temp", "Type": "Sensor", "Thresholds": limits} for at in range(count)]
    for at in range(0, count, 256):
        yield config(at // 256, "TRUE", Exposes=exposes[at : at + 256])


def reading(at, count):
    """A line that reads or loses one of so many sensors. In each round all of them have their turn."""
    number = at * STEP % count
    if (at // count // 6 + number) % 20 == 19:
        return f"lose Sensor {number} Temp\n"
    return f"read Sensor {number} Temp {(72_000 if at % 61 == 60 else 40_000) + at * 125 % 20_000}\n"


def readings(lines, count):
    yield from sensors(count)
    for at in range(lines):
        yield reading(at, count)


def lists(lines, count):
    yield from sensors(count)
    for at in range(lines):
        yield "show sensors\n" if at % 100 == 99 else reading(at, count)


def zone(number, temps):
    """A zone with its fans and their tachometers, and its controllers over these temperatures."""
    fans, tachs = ([f"{what} {number}.{at}" for at in range(2)] for what in ("Fan", "Tach"))
    limits = {"OutLimitMin": 1500, "OutLimitMax": 9000, "SlewPos": 400, "SlewNeg": -200}
    pid = {"Type": "Pid", "Zones": [f"Zone {number}"]}
    return [
        {"Name": f"Zone {number}", "Type": "Pid.Zone", "MinThermalOutput": 1500, "FailSafePercent": 80},
        *({"Name": fan, "Type": "Fan"} for fan in fans),
        *({"Name": tach, "Type": "Sensor", "ScaleNum": 1000} for tach in tachs),
        {"Name": f"Curve {number}", "Type": "Stepwise", "Zones": [f"Zone {number}"], "Inputs": temps,
         "Reading": [0, 30, 45, 60, 75], "Output": [2000, 2600, 3600, 5200, 9000],
         "PositiveHysteresis": 1, "NegativeHysteresis": 3},
        {**pid, "Name": f"Thermal {number}", "Class": "temp", "Inputs": temps, "SetPoint": 55,
         "PCoefficient": "-80.5", "ICoefficient": "-2.25", "ILimitMin": -2000, "ILimitMax": 4000, **limits},
        {**pid, "Name": f"Fans {number}", "Class": "fan", "Inputs": tachs, "Outputs": fans,
         "PCoefficient": "0.002", "ICoefficient": "0.001", "FFGainCoefficient": "0.01",
         "ILimitMin": -20, "ILimitMax": 40, "OutLimitMin": 20, "OutLimitMax": 100, "SlewPos": 50, "SlewNeg": -30},
    ]


def regulated(zones, last):
    """Zones with their sensors, each of which is read. There are so many pairs of temperatures."""
    temps = [[f"Temp {number}.{at}" for at in range(2)] for number in range(last)]
    for number, names in enumerate(temps):
        yield config(number, "TRUE", Exposes=[{"Name": name, "Type": "Sensor"} for name in names])
    for number in range(zones):
        yield config(last + number, "TRUE", Exposes=zone(number, temps[number % last]))
    yield from (f"read Tach {number}.{at} {4 + number % 3}\n" for number in range(zones) for at in range(2))
    yield from (f"read {name} {40 + at * 7 % 31}\n" for at, name in enumerate(sum(temps, [])))


def ticks(lines, zones):
    last = max(1, zones - 1)
    yield from regulated(zones, last)
    for at in range(lines):
        yield f"read Temp {at // 10 % last}.0 {40 + at * 7 % 31}\n" if at % 10 == 9 else "tick 100\n"


def zone_reading(at, zones, last):
    """A line that reads a sensor of such zones, in an order that jumps about."""
    sensor = at * STEP % (2 * zones + 2 * last)
    if sensor < 2 * zones:
        return f"read Tach {sensor // 2}.{sensor % 2} {3 + at * 7 % 5}\n"
    return f"read Temp {sensor // 2 - zones}.{sensor % 2} {40 + at * 7 % 31}\n"


def busy(lines, zones):
    last = max(1, zones - 1)
    yield from regulated(zones, last)
    for at in range(lines):
        yield "tick 1\n" if at % 4 == 3 else zone_reading(at, zones, last)


def rack(lines, frus):
    yield from regulated(8, 7)
    yield config(15, looking_for("PRODUCT_NAME", "Riser"), Exposes=[{"Name": "Blade $index Temp", "Type": "Sensor"}])
    for number in range(frus):
        yield f"plug {place(number)} {RECORD}\n"
    for at in range(lines):
        where = place(at // 16 * STEP % frus)
        if at % 8 == 0:
            yield f"plug {where} {RECORD}\n" if at % 16 else f"unplug {where}\n"
        else:
            yield "tick 1\n" if at % 8 == 4 else zone_reading(at, 8, 7)


def script(workload, lines, count=None):
    """The lines of a workload's script."""
    return globals()[workload](lines, count or WORKLOADS[workload])


def main():
    said = sys.argv[1:]
    if said in (["-h"], ["--help"]):
        print(__doc__)
        return
    if len(said) not in (2, 3) or said[0] not in WORKLOADS or not all(it.isdecimal() for it in said[1:]):
        sys.exit(__doc__)
    most = WORKLOADS[said[0]]
    count = int(said[2]) if len(said) == 3 else most
    if not 1 <= count <= most:
        sys.exit(f"generate.py: for {said[0]} COUNT is from 1 to {most:,}")
    sys.stdout.writelines(script(said[0], int(said[1]), count))


if __name__ == "__main__":
    main()
