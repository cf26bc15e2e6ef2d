"""The script of a sample, by its seed."""

import json

LINES = 20_000
RECORD = "01000001000000FE010300000000C341434DC452535231C25331C0C0C10000F5"
RISER = {
    "Name": "Riser",
    "Probe": "xyz.openbmc_project.FruDevice({'BOARD_PRODUCT_NAME': '^RSR1$'})",
    "Exposes": [{"Name": "X", "Type": "Sensor"}],
}
ZONED = {"Zones": ["Z"]}
BOX = {
    "Name": "Box",
    "Probe": "TRUE",
    "Exposes": [
        {"Name": "T", "Type": "Sensor", "Timeout": 20},
        {"Name": "Tach", "Type": "Sensor", "ScaleNum": 1000},
        {"Name": "Fan 1", "Type": "Fan"},
        {"Name": "Z", "Type": "Pid.Zone", "MinThermalOutput": 1000, "FailSafePercent": 80},
        {"Name": "TP", "Type": "Stepwise", **ZONED, "Inputs": ["T"], "Reading": [20, 40], "Output": [2000, 4000]},
        {
            **{"Name": "FP", "Type": "Pid", "Class": "fan", **ZONED, "Inputs": ["Tach"], "Outputs": ["Fan 1"]},
            **{"FFGainCoefficient": "0.01", "OutLimitMin": 0, "OutLimitMax": 100},
        },
    ],
}


def block(document):
    """The line of a configuration, and the block behind it."""
    text = json.dumps(document, separators=(",", ":"))
    return f"config {len(text)}\n{text}\n"


def lines(seed, count):
    """The lines that a seed chooses."""
    number, taken = seed, set()
    for at in range(1, count + 1):
        number = (number * 1_103_515_245 + 12_345) % 2**31
        choice, address = number >> 16, 80 + at % 4
        kind = choice % 16
        if kind == 0:
            yield f"unplug 1 {address}\n" if address in taken else f"plug 1 {address} {RECORD}\n"
            taken ^= {address}
        elif kind == 1:
            yield "lose T\n"
        elif kind <= 8:
            yield f"read T {20_000 + 1000 * (choice % 40)}\n"
        elif kind <= 11:
            yield f"read Tach {1000 + 100 * (choice % 20)}\n"
        else:
            yield "tick 1\n"


def script(seed):
    """The script of this seed."""
    return "".join([block(RISER), block(BOX), *lines(seed, LINES), "show zones\n"]).encode()
