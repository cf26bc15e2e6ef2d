"""The steps of fan controllers, in whole numbers without end: `//` rounds down. All numbers are thousandths, and
coefficients are millionths."""

from collections import namedtuple

# What a controller remembers: before its first step the integral is 0, and there is nothing else.
State = namedtuple("State", "integral error base output")
BLANK = State(0, None, None, None)
MILLION = 1_000_000


def clamp(low, value, high):
    """The number of the range that is nearest to a value."""
    return max(low, min(value, high))


def slewed(pid, before, output, pace):
    """The output where it moves no faster than it may from the one before, if there was one."""
    if before is None:
        return output
    if pid["slew_neg"]:
        output = max(output, before + pid["slew_neg"] // pace)
    if pid["slew_pos"]:
        output = min(output, before + pid["slew_pos"] // pace)
    return output


def pid_step(pid, state, reading, setpoint):
    """The state of a PID controller behind a step."""
    pace = 10 if pid["class"] == "fan" else 1
    error = setpoint - reading
    part = pid["p"] * error // MILLION
    integral = clamp(pid["i_min"], state.integral + pid["i"] * error // (pace * MILLION), pid["i_max"])
    change = 0 if state.error is None else pid["d"] * (error - state.error) * pace // MILLION
    ahead = (setpoint + pid["ff_off"]) * pid["ff_gain"] // MILLION
    output = clamp(pid["out_min"], part + integral + change + ahead, pid["out_max"])
    output = slewed(pid, state.output, output, pace)
    if pid["slew_neg"] or pid["slew_pos"]:
        integral = clamp(pid["i_min"], output - part, pid["i_max"])
    return State(integral, error, None, output)


def row_for(rows, reading):
    """The output of the last row that is reached with all rows before it, or of the first row."""
    reached = 0
    while reached < len(rows) and rows[reached][0] <= reading:
        reached += 1
    return rows[max(reached - 1, 0)][1]


def stepwise_step(rows, rise, fall, state, reading):
    """The state of a stepwise controller behind a step."""
    if state.base is not None and state.base - fall <= reading <= state.base + rise:
        return state
    return State(state.integral, state.error, reading, row_for(rows, reading))
