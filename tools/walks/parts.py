"""What a shell is described by: its parameters, and the calls that it makes, in order."""

from dataclasses import dataclass, field

import antt

# data that every shell knows: its row, its MIR type, its values
KNOWN = {"N": ("usize", "tyInt w64", "ℕ"), "G": ("R", "S′.mir", "Segment")}

# a slice's elements: their MIR type behind a reference and in a local, their values
ELEMENTS = {"u64": ("tyInt w64", "tyInt w64", "ℕ"), "u8": ("tyInt w8", "tyInt w8", "ℕ"), "R": ("elem", "S′.mir", "Segment")}


@dataclass(frozen=True)
class Value:
    """Plain data by value: `data` is one of the shell's unknown types, or N (a `usize`) or G (a segment record); `term` says the value, and `fact` shows that it is one of its type."""

    data: str
    term: str
    fact: str = ""
    is_slice = False

    def known(self):
        return KNOWN.get(self.data, (f"row {self.data}", f"{self.data} .τ", f"{self.data} .R .Denot"))

    def row(self):
        return self.known()[0]

    def mir(self):
        return self.known()[1]

    def type(self):
        return self.known()[2]

    def is_(self):
        return self.fact or f"is-{self.term}"

    def said(self):
        return antt.argument(self.term)

    def machine(self):
        return f"{self.data} .val {self.said()}"

    def typed(self):
        return f"{self.data} .typed {self.said()} {antt.argument(self.is_())}"

    def slot(self, _lifetime=None):
        return f"plain (λ _. {self.row()})"

    def passed(self):
        return self.term

    def owned(self):
        return f"({self.data} .R) (Is ({self.data} .R)) ({self.data} .makes) {self.said()} _ {antt.argument(self.is_())}"


@dataclass(frozen=True)
class Slice:
    """A slice that the caller lends. A `lent` one is lent again, for a call at a time; any other is passed on to one call for good."""

    name: str
    element: str
    now: str  # its value at entry
    last: str = ""  # and at exit, of a `&mut`
    lent: bool = False
    lifetime: int = field(default=-1, compare=False)
    is_slice = True

    def mut(self):
        return bool(self.last)

    def own(self, name):
        """A name with the index of its lifetime."""
        return antt.indexed(name, self.lifetime)

    def held(self):
        return ELEMENTS[self.element][1]

    def type(self):
        return f"List {ELEMENTS[self.element][2]}"

    def reference(self, lifetime, kind):
        return f"tyRef {lifetime} {kind} {antt.argument(ELEMENTS[self.element][0])}"

    def mir(self):
        return f"sliceTy ({self.reference(f'(named {self.lifetime})', 'mut' if self.mut() else 'imm')})"

    def slot(self, lifetime=None):
        index = self.lifetime if lifetime is None else lifetime
        return f"{'mut' if self.mut() else 'shr'}SliceOf ({index} ∷ []) tt (plain (λ _. {self.element}))"

    def row(self):
        return f"{self.kind()} (named {self.lifetime}) {self.own('κ')} {self.element}"

    def kind(self):
        return "MutSlice" if self.mut() else "ShrSlice"

    def said(self):
        return self.now

    def at(self, value):
        return f"at {self.element} {self.own('b')} {self.own('o')} {self.own('γ')} {value}"

    def passed(self):
        return self.at(self.now)

    def machine(self):
        return self.own("v")

    def fits(self):
        return f"{self.own('room')} .0"

    def typed(self):
        return f"tt, (tt, (record {{ fits = {self.fits()} }}, tt))"

    def token(self):
        return f"the token of {self.name}"

    def final(self):
        return f"{self.name} at exit"


@dataclass(frozen=True)
class Ask:
    """`result = f(of)`, for a function from plain data to plain data that is proved to be `function`."""

    name: str
    function: str
    of: str
    data: str
    result: str


@dataclass(frozen=True)
class ReadLast:
    """`g = last_segment(segments, at)`"""

    at: str
    name = "last"


@dataclass(frozen=True)
class Work:
    """The work by value: a call with the parameters' names in their order, LENT for the number of records lent and LAST for the record read."""

    arguments: tuple
    data: str
    result: str
    name = "work"


@dataclass(frozen=True)
class Put:
    """`f(segments, at, record)`, which leaves `law segments at record`."""

    name: str
    law: str
    at: str
    record: str


LENT, LAST = "the number lent", "the record read"


def words(*names):
    """`&mut [u64]` parameters that are passed on for good to the work."""
    return [Slice(name, "u64", name, name + "′") for name in names]
