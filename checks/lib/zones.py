"""The zones of the model: what a tick makes of the values of sensors. All numbers are thousandths, and coefficients are
millionths."""

from control import BLANK, pid_step, stepwise_step

# A controller of any class but fan makes a step at its first tick and at each tenth from there. The duty of a fan that
# no controller holds.
TURN, FULL_DUTY = 10, 100_000
# The members of a PID controller, by their keys in a configuration.
KEYS = {"p": "PCoefficient", "i": "ICoefficient", "d": "DCoefficient", "ff_gain": "FFGainCoefficient"}
KEYS |= {"ff_off": "FFOffCoefficient", "i_min": "ILimitMin", "i_max": "ILimitMax"}
KEYS |= {"out_min": "OutLimitMin", "out_max": "OutLimitMax", "slew_neg": "SlewNeg", "slew_pos": "SlewPos"}


class Zone:
    """What a live zone shows: whether it is in failsafe, and its setpoint, where there was a tick."""

    def __init__(self, members):
        self.least, self.failsafe_duty = members["MinThermalOutput"], members["FailSafePercent"]
        self.failsafe, self.setpoint = False, None


class Controller:
    """What a live controller keeps: for how many ticks it has been live, and what it remembers of its steps."""

    def __init__(self, members):
        self.members, self.kind = members, members.get("Class", "stepwise")
        self.pid = {key: members.get(name, 0) for key, name in KEYS.items()} | {"class": self.kind}
        self.ticks, self.state = 0, BLANK

    def step(self, reading, setpoint):
        """A step. A stepwise controller has no setpoint."""
        if self.kind != "stepwise":
            self.state = pid_step(self.pid, self.state, reading, setpoint)
            return
        rows = list(zip(self.members["Reading"], self.members["Output"]))
        rise, fall = (self.members.get(key, 0) for key in ("PositiveHysteresis", "NegativeHysteresis"))
        self.state = stepwise_step(rows, rise, fall, self.state, reading)


def values_of(names, good):
    """The values of those of some sensors that are good."""
    return [good[it] for it in names if it in good]


def set_points(zones, controllers, good):
    """The controllers that say what is asked of their zone make a step where it is their turn, and each zone has a
    setpoint."""
    asked = {item.name: [zone.least] for item, zone in zones.items()}
    for item, it in controllers.items():
        if it.kind == "fan":
            continue
        values = values_of(item.inputs, good)
        if it.ticks % TURN == 0 and values:
            it.step(min(values) if it.kind == "margin" else max(values), it.members.get("SetPoint"))
        it.ticks += 1
        asked[item.zone] += [] if it.state.output is None else [it.state.output]
    for item, zone in zones.items():
        zone.setpoint = max(asked[item.name])


def duty_of(output, zone, strict):
    """The duty that a controller of fans commands by its output."""
    if not zone.failsafe:
        return output
    return zone.failsafe_duty if strict else max(output, zone.failsafe_duty)


def command(zones, controllers, good, strict):
    """Controllers of fans make a step, and each zone is in failsafe or not. Gives the duty of each name of a fan: the
    first controller holds it."""
    named, commanded = {item.name: zone for item, zone in zones.items()}, {}
    for zone in named.values():
        zone.failsafe = False
    for item in controllers:
        named[item.zone].failsafe |= any(it not in good for it in item.inputs)
    for item, it in ((item, it) for item, it in controllers.items() if it.kind == "fan"):
        zone = named[item.zone]
        it.step(min((it for it in values_of(item.inputs, good) if it > 0), default=0), zone.setpoint)
        for name in item.outputs:
            commanded.setdefault(name, duty_of(it.state.output, zone, strict))
    return commanded


def tick(good, zones, controllers, duties, strict):
    """A tick, where the sensors of these names have good values. Gives the zones that change their mode, and the fans
    whose duty changes."""
    modes, before = {item: zone.failsafe for item, zone in zones.items()}, dict(duties)
    set_points(zones, controllers, good)
    commanded = command(zones, controllers, good, strict)
    duties.update({item: commanded.get(item.name, FULL_DUTY) for item in duties})
    return [it for it in zones if zones[it].failsafe != modes[it]], [it for it in duties if duties[it] != before[it]]
