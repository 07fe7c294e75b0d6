"""The rules of a bundle, as one reads them on the page: what of some bytes is wrong first, and where, or what the bundle has.

A program of its own beside the reader that is proved: it shares nothing with it, and is as slow as it likes.
"""
import re

LIMITS = {"bytes": 4194304, "users": 32, "lines": 10000, "glyphs": 1000, "turns": 100000, "readings": 10000, "files": 100}
GLYPHS = {chr(code) for code in range(32, 127)} | set("⍴⍳∊↑↓⍋⍒⌽⊖⍉⌈⌊×÷≤≥≠∧∨⍲⍱←→⎕¯∇∆∘⍝⊥⊤⌿⍀⍕⍎")
assert len(GLYPHS) == 130
NUMBER = "(?:0|[1-9][0-9]*)"
HEADINGS = [
    ("user", re.compile("user (1[0-9]{3})")),
    ("order", re.compile(f"order((?: {NUMBER})+)")),
    ("file", re.compile("file ([A-Za-z0-9_-][A-Za-z0-9_.-]{0,31})")),
    ("clock", re.compile(f"clock((?: {NUMBER})+)")),
    ("end", re.compile("end")),
]


class Broken(Exception):
    """A rule that a line breaks first, and the byte where it does."""

    def __init__(self, place, rule):
        super().__init__(place, rule)
        self.place, self.rule = place, rule


def glyphs_of(line, place):
    """The glyphs of the bytes of a line that begins at a place."""
    try:
        text = line.decode()
        if GLYPHS.issuperset(text):
            return text
    except UnicodeDecodeError:
        pass
    at = 0
    while at < len(line):
        for length in (1, 2, 3):
            try:
                found = line[at:at + length].decode()
            except UnicodeDecodeError:
                continue
            if len(found) == 1 and found in GLYPHS:
                at += length
                break
        else:
            raise Broken(place + at, "glyph")
    raise AssertionError("a line without fault was read as one with a fault")


def heading_of(text, place):
    """What a heading is, and what stands in it."""
    for kind, form in HEADINGS:
        found = form.fullmatch(text)
        if not found:
            continue
        if kind == "user" and int(found[1]) > 1000:
            return kind, int(found[1])
        if kind in ("order", "clock"):
            numbers = [int(number[:20]) for number in found[1].split()]
            if kind == "order" or max(numbers) <= 2**63 - 1:
                return kind, numbers
        if kind == "file":
            return kind, found[1]
        if kind == "end":
            return kind, None
    raise Broken(place, "form")


class Bundle:
    """What a bundle has so far. Its parts come in the order of RANKS."""

    RANKS = {"user": 1, "order": 2, "file": 3, "clock": 4, "end": 5}

    def __init__(self):
        self.users, self.order, self.files, self.clock, self.rank, self.open = {}, [], {}, [], 0, None

    def may_stand(self, kind, what):
        """Whether a heading may stand behind what there is."""
        rank = self.RANKS[kind]
        if self.rank == 5 or rank < self.rank:
            return False
        if kind == "user":
            return not self.users or what > max(self.users)
        return kind != "file" or not self.files or what > max(self.files)

    def passes_limit(self, kind, what):
        """Whether a heading is one too many."""
        if kind == "user":
            return len(self.users) == LIMITS["users"]
        if kind == "file":
            return len(self.files) == LIMITS["files"]
        if kind == "order":
            return len(self.order) + len(what) > LIMITS["turns"]
        return kind == "clock" and len(self.clock) + len(what) > LIMITS["readings"]

    def content(self, text, place):
        if self.open is None:
            raise Broken(place, "place")
        if len(text) > LIMITS["glyphs"] or self.rank == 1 and len(self.open) == LIMITS["lines"]:
            raise Broken(place, "limit")
        self.open.append(text)

    def heading(self, text, place):
        kind, what = heading_of(text, place)
        if not self.may_stand(kind, what):
            raise Broken(place, "place")
        if kind == "order" and any(number not in (10, 20) and number not in self.users for number in what):
            raise Broken(place, "party")
        if self.passes_limit(kind, what):
            raise Broken(place, "limit")
        self.rank, self.open = self.RANKS[kind], None
        if kind in ("user", "file"):
            self.open = (self.users if kind == "user" else self.files).setdefault(what, [])
        elif kind in ("order", "clock"):
            getattr(self, kind).extend(what)


def read(given):
    """The bundle of some bytes. Raises Broken where they are of none."""
    bundle, place = Bundle(), 0
    pieces = given.split(b"\n")
    for at, piece in enumerate(pieces):
        is_last = at == len(pieces) - 1
        if is_last and not piece:
            break
        text = glyphs_of(piece, place)
        if is_last and text != "end":
            raise Broken(place, "newline")
        if text.startswith("|"):
            bundle.content(text[1:], place)
        else:
            bundle.heading(text, place)
        place += len(piece) + (not is_last)
    if bundle.rank != 5:
        raise Broken(len(given), "end")
    return bundle


def ending(given):
    """The status that is wanted for some bytes, and the first line on standard error."""
    if len(given) > LIMITS["bytes"]:
        return 5, "aplsv: input too long"
    try:
        read(given)
    except Broken as broken:
        return 2, f"aplsv: malformed at {broken.place}: {broken.rule}"
    return 0, ""
