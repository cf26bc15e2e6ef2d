"""The log of the model: which changes join it, and which entries it keeps."""

from collections import deque

# How many infos are kept, and how many errors where no word says it.
MOST_INFOS, DEFAULT_CAP = 10, 200
# How the changes of each class begin. No other change joins the log.
ERRORS = ("alarm on ", "failed sensor ", "failsafe zone ", "refused plug ")
INFOS = ("gone board ", "new board ", "alarm off ", "working sensor ", "normal zone ")


class Log:
    """The newest entries of each class, each as its id, its class, its tick and its text, and the last id."""

    def __init__(self, cap):
        self.errors, self.infos, self.last = deque(maxlen=cap), deque(maxlen=MOST_INFOS), 0

    def add(self, tick, change):
        """A change joins the log, if it is of a class."""
        is_error = change.startswith(ERRORS)
        if not is_error and not change.startswith(INFOS):
            return
        self.last += 1
        entry = (self.last, "error" if is_error else "info", tick, change)
        (self.errors if is_error else self.infos).append(entry)

    def rows(self):
        """The row of each entry, by id."""
        kept = sorted([*self.errors, *self.infos])
        return [f"log {number} {kind} {tick} {text}" for number, kind, tick, text in kept]
