"""Pieces of scripts: lines that plug and unplug, and configurations, with exposes in JSON or as objects."""

import json

# A pattern that wants what stands between its braces, and one that wants a field of a board to have a text.
PATTERN = "xyz.openbmc_project.FruDevice({%s})"
FIELD = PATTERN % "'BOARD_%s': '%s'"


def some_object(members):
    """An object of these keys and values."""
    return "{" + ",".join(f'"{key}":{value}' for key, value in members) + "}"


def configs(documents):
    """A script of these configurations, with a newline behind each."""
    return b"".join(b"config %d\n%s\n" % (len(it), it) for it in documents)


def mux(name, probe, channels):
    """A configuration that opens buses where it is found."""
    expose = some_object([("Name", '"Slots"'), ("Type", '"Mux"'), ("Channels", json.dumps(channels))])
    return some_object([("Name", f'"{name}"'), ("Probe", json.dumps(probe)), ("Exposes", f"[{expose}]")]).encode()


def moves(records, places):
    """A script that plugs these records at these places in turn, each of them twice, the second time in vain, and
    unplugs all but the last, and then all again."""
    lines = []
    for at, (bus, address) in enumerate(places):
        lines.append(f"plug {bus} {address} {records[at % len(records)].hex()}\n" * 2)
    lines += [f"unplug {bus} {address}\n" * 2 for bus, address in places[:-1]]
    return "".join(lines).encode()


def exposed(exposes, probe="TRUE", name="Box"):
    """A script of a configuration with these exposes."""
    return configs([json.dumps({"Name": name, "Probe": probe, "Exposes": exposes}).encode()])


def item(kind, name, **members):
    """An expose of a type, with these further members."""
    return {"Name": name, "Type": kind, **members}


def zone(name, least, percent):
    """A zone."""
    return item("Pid.Zone", name, MinThermalOutput=least, FailSafePercent=percent)


def stepwise(zone, inputs, readings, outputs, rise=0, fall=0):
    """A stepwise controller."""
    names = {"Zones": [zone], "Inputs": inputs, "Reading": readings, "Output": outputs}
    return item("Stepwise", "C", **names, PositiveHysteresis=rise, NegativeHysteresis=fall)


def pid(kind, zone, inputs, outputs=("X",), **members):
    """A PID controller of this class. What is not among the members is 0, but for the greatest output."""
    names = {"Class": kind, "Zones": [zone], "Inputs": inputs, "Outputs": list(outputs)}
    return item("Pid", "C", **names, **{"SetPoint": 0, "OutLimitMin": 0, "OutLimitMax": 100, **members})
