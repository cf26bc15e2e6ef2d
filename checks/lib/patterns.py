"""Regular expressions as docs/FORMATS.md has them, over Python's: those of a part of the language in which both are
the same. Of the others nothing is said."""

import re

# What is written plainly, also between brackets, and what has a meaning of its own.
LETTERS = "0-9A-Za-z _"
LITERAL = re.compile(r"[^\\.+*?()|\[{^$\n]")
CLASS = re.compile(rf"\[\^?(?:[{LETTERS}]-[{LETTERS}]|[{LETTERS}.,:#/])+\]")
RANGE = re.compile(r"(.)-(.)")
# A backslash and what stands behind it: a character that it takes the meaning from, or a class of digits or of words.
ESCAPED = re.compile(r"\\[\\.+*?()|\[\]{}^$dw-]")
REPEATED = re.compile(r"[*+?]|\{(?:[1-9]|1[0-6])(?:,(?:[1-9]|1[0-6])?)?\}")
COUNTS = re.compile(r"\{(\d+),(\d+)\}")
DEEPEST = 20


class Bad(Exception):
    """The text is no pattern."""


class Unknown(Exception):
    """The text is beyond the part of the language in which both are the same."""


class Reader:
    """Reads a text from its start to its end, and gives the same pattern as Python has it."""

    def __init__(self, text):
        self.text, self.at, self.deep = text, 0, 0

    def taken(self, form):
        """What the form takes of the rest, or None."""
        found = form.match(self.text, self.at)
        self.at = found.end() if found else self.at
        return found[0] if found else None

    def next(self, mark):
        """Whether a mark comes next, which is taken."""
        found = self.text.startswith(mark, self.at)
        self.at += len(mark) if found else 0
        return found

    def group(self):
        """What stands between parentheses."""
        self.deep += 1
        if self.deep > DEEPEST:
            raise Unknown
        inner = "(?:" + self.choice() + ")"
        if not self.next(")"):
            raise Bad
        self.deep -= 1
        return inner

    def brackets(self):
        """A class of characters."""
        found = self.taken(CLASS)
        if not found:
            raise Bad if "]" not in self.text[self.at :] else Unknown
        for first, last in RANGE.findall(found):
            if first > last:
                raise Bad
        return found

    def atom(self):
        """What a repetition may stand behind, or None at the end of a sequence."""
        if self.at == len(self.text) or self.text[self.at] in "|)":
            return None
        if self.next("(?:") or self.next("("):
            if self.text.startswith("?", self.at):
                raise Unknown
            return self.group()
        if self.text.startswith("[", self.at):
            return self.brackets()
        if self.text[self.at :] == "\\" or self.text[self.at] in "*+?":
            raise Bad
        if self.next("."):
            return "[^\n]"
        found = self.taken(ESCAPED)
        if found:
            return found
        found = self.taken(LITERAL)
        if not found:
            raise Unknown
        return re.escape(found)

    def repeated(self, atom):
        """An atom with the repetition behind it, if there is one. Those of repetitions are left out."""
        found = self.taken(REPEATED)
        if not found:
            return atom
        if any(int(least) > int(most) for least, most in COUNTS.findall(found)):
            raise Bad
        if found != "?" and atom.startswith("(") and re.search(r"[*+{]", atom):
            raise Unknown
        found += "?" if self.next("?") else ""
        if self.at < len(self.text) and self.text[self.at] in "*+?{":
            raise Unknown
        return atom + found

    def sequence(self):
        """Atoms in turn, with the marks of a start and an end between them."""
        made = ""
        while True:
            if self.next("^") or self.next("$"):
                made += "^" if self.text[self.at - 1] == "^" else r"\Z"
                if self.at < len(self.text) and self.text[self.at] in "*+?{":
                    raise Unknown
                continue
            atom = self.atom()
            if atom is None:
                return made
            made += self.repeated(atom)

    def choice(self):
        """Sequences with bars between them."""
        made = [self.sequence()]
        while self.next("|"):
            made.append(self.sequence())
        return "|".join(made)

    def whole(self):
        flags = re.IGNORECASE if self.next("(?i)") else 0
        made = self.choice()
        if self.at < len(self.text):
            raise Bad
        return re.compile(made, flags)


def compiled(text):
    """The pattern of a text, with which Python can search. Raises Bad where it is none, or Unknown."""
    return Reader(text).whole()
