"""A shell: its description, with the lifetimes and the MIR locals numbered as the compiler numbers them."""

from dataclasses import dataclass, replace

import antt
import terms
from parts import LAST, LENT, Ask, Put, ReadLast, Value, Work


@dataclass
class Shell:
    file: str
    function: str
    argument: str  # what the function does, for the head of the file
    data: str  # the unknown types, in the order in which they are handed in
    params: list
    steps: list
    few: bool = False  # whether `leaves` is told that the list's length fits a word

    def __post_init__(self):
        slices = [param for param in self.params if param.is_slice]
        self.params = [replace(p, lifetime=slices.index(p)) if p.is_slice else p for p in self.params]
        self.number_locals()

    # ---- parameters
    def slices(self):
        return [param for param in self.params if param.is_slice]

    def muts(self):
        return [param for param in self.slices() if param.mut()]

    def records(self):
        return next(param for param in self.slices() if param.element == "R")

    def param(self, name):
        return next(p for p in self.params if name == (p.name if p.is_slice else p.term))

    # ---- the work
    def work(self):
        return next(step for step in self.steps if isinstance(step, Work))

    def work_arguments(self):
        records = self.records()
        besides = {LENT: Value("N", f"length {records.now}", f"(refl, {records.fits()})"), LAST: Value("G", terms.answers(self)[LAST], "is-g")}
        return [besides[name] if name in besides else self.param(name) for name in self.work().arguments]

    def work_slices(self):
        return [argument for argument in self.work_arguments() if argument.is_slice]

    def work_muts(self):
        return [argument for argument in self.work_slices() if argument.mut()]

    def work_exits(self):
        """The last value of each slice of words, read off the work's last values."""
        return {a.name: antt.argument(antt.part("ends", i)) for i, a in enumerate(self.work_arguments()) if a in self.work_muts()}

    # ---- values by name
    def result(self):
        return self.steps[-1].data

    def data_of(self, name):
        """The type of a plain value: a parameter's, or an answer's."""
        step = next((s for s in self.steps if isinstance(s, (Ask, Work)) and s.result == name), None)
        return step.data if step else self.param(name).data

    # ---- locals: the result, the parameters, what `let` binds, then what the compiler adds, in the order of the code
    def number_locals(self):
        self.locals = [Value(self.result(), "").mir()] + [param.mir() for param in self.params]
        self.local = {(p.name if p.is_slice else p.term): 1 + i for i, p in enumerate(self.params)}
        self.temporary = {}
        for step in self.steps[:-1]:
            self.number_let(step)
        self.local[self.steps[-1].result] = 0
        for step in self.steps:
            self.number_temporaries(step)

    def number_let(self, step):
        if isinstance(step, ReadLast):
            self.local[LAST] = self.fresh(Value("G", "").mir())
        elif isinstance(step, (Ask, Work)):
            self.local[step.result] = self.fresh(Value(step.data, "").mir())

    def number_temporaries(self, step):
        if isinstance(step, ReadLast) and self.records().lent:
            self.number_loan(step, self.records(), "imm")
        if isinstance(step, Work):
            for name in step.arguments:
                if name == LENT:
                    self.local[LENT] = self.fresh("tyInt w64")
                elif name != LAST and self.param(name) in self.work_muts():
                    self.number_loan(step, self.param(name), "mut")
        if isinstance(step, Put):
            if "unit" not in self.local:
                self.local["unit"] = self.fresh("tyUnit")
            self.number_loan(step, self.records(), "mut")

    def number_loan(self, step, slice_, kind):
        """A slice is lent by a reference and the slice made of it."""
        reference = slice_.reference("erased", kind)
        self.temporary[step.name, slice_.name] = (self.fresh(reference), self.fresh(f"sliceTy ({reference})"))

    def operand(self, step, name):
        """The local that a call is handed: of a slice that is lent for the call, the temporary."""
        return self.temporary.get((step.name, name), (0, self.local[name]))[1]

    def fresh(self, mir):
        self.locals.append(mir)
        return len(self.locals) - 1
