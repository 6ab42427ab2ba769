"""The walk of a shell's MIR: the context at entry is taken apart, and each statement is one step or a few, up to the return."""

import antt
import terms
from context import Context, chain
from parts import LAST, LENT, Ask, Put, ReadLast, Value

END = "the tokens' end"
HERE = "from ! (stop !)"
FIELD = "from ! (fld ! refl (stop !))"


def all_tokens(slices):
    return chain("⊛", [slice_.token() for slice_ in slices], END)


def at_exit(shell):
    """What is held once the locals are freed."""
    records = shell.records()
    if not records.lent:
        return [records.token(), END]
    return [records.name, records.token(), *(slice_.final() for slice_ in shell.work_muts()), all_tokens(shell.work_slices())]


class Walk:
    def __init__(self, shell):
        self.shell = shell
        owned = chain("fsep", [self.owned(param) for param in shell.params], "the parameters' end")
        self.context = Context([all_tokens(shell.slices()), owned])
        self.told = ""  # what the last comment said is held

    def owned(self, param):
        return param.name if param.is_slice else f"own {param.term}"

    def script(self):
        self.enter()
        self.take_apart()
        walks = {Ask: self.ask, ReadLast: self.read_last, Put: self.put}
        for step in self.shell.steps:
            self.note(f"the call of `{step.name}`")
            walks.get(type(step), self.work)(step)
        self.note("the return")
        self.leave()
        return self.context.script

    def note(self, text):
        """A comment before a step, with what is held where that is new."""
        held = self.context.others()
        self.context.note(text if held == self.told else f"{text}, from [{held}; the locals]")
        self.told = held

    # ---- entry
    def enter(self):
        shell, context = self.shell, self.context
        machine = antt.listed(param.machine() for param in shell.params)
        context.step(f"enter ! C Λ function ({machine}) _")
        context.new_line()
        for local in range(len(shell.locals)):
            context.alloc(local)
        context.step("alloc0 !")
        context.step("params1 !")
        context.new_line()
        for local, param in enumerate(shell.params, 1):
            context.step(f"pass1 ! ({context.write(local, param.typed())})")
        context.step("pass0 !")
        context.new_line()

    def take_apart(self):
        """What the parameters own, and the tokens, as resources of their own."""
        context, slices, records = self.context, self.shell.slices(), self.shell.records()
        owned, tokens = [slice_.name for slice_ in slices], [slice_.token() for slice_ in slices]
        self.split("fsep", context.resources[-1], [self.owned(param) for param in self.shell.params], owned)
        context.move(context.resources[1])
        context.drop()
        self.split("⊛", all_tokens(slices), tokens, tokens)
        others = [slice_ for slice_ in slices if slice_ is not records]
        context.move(records.name, records.token(), *(s.name for s in others), *(s.token() for s in others), END)

    def split(self, kind, whole, names, wanted):
        """Takes apart `whole`, which is the names under the connective, up to the last that is wanted. The rest then stands behind that one."""
        context = self.context
        context.move(whole)
        for name in names:
            context.split(kind)
            if name == wanted[-1]:
                break
            if name in wanted:
                context.move(context.resources[1])
            else:
                context.drop()

    # ---- reading and writing locals. Under a call's operands the cells stand `shift` further back
    def load(self, local, shift=0):
        return f"load ! ({HERE}) ({self.context.look(local, shift)})"

    def operands(self, bound, locals_, shift):
        """A call's operands, under what it binds, in pieces."""
        first, *rest = [f"and-then ! ({self.load(local, shift)}) (" for local in locals_]
        return [f"(λ {bound}. {first}", *rest, "no-more !" + ")" * (1 + len(locals_))]

    def land(self, local, typed):
        self.context.step(f"land ! ({HERE}) ({self.context.write(local, typed)})")

    def assign(self, value, local, typed):
        self.context.step(f"assigns ! ({value})", f"({HERE}) ({self.context.write(local, typed)})")
        self.context.new_line()

    def length(self, slice_):
        return f"load ! ({FIELD}) ({self.context.look_in(self.shell.local[slice_.name], 1)})"

    def lend(self, step, slice_):
        """`r = &*i.0; s = (r, i.1);`"""
        reference, whole = self.shell.temporary[step.name, slice_.name]
        pointer = self.context.look_in(self.shell.local[slice_.name], 0)
        self.assign(f"addr ! (from ! (fld ! refl (hop ! ({pointer}) (stop !))))", reference, "tt, tt")
        pair = f"and-then ! ({self.load(reference)}) (and-then ! ({self.length(slice_)}) (no-more !))"
        self.assign(f"agg ! ({pair})", whole, slice_.typed())

    def handed(self, step, *names):
        return [self.shell.operand(step, name) for name in names]

    # ---- calls
    def ask(self, step):
        of, term = self.shell.data_of(step.of), terms.answers(self.shell)[step.result]
        load = self.load(self.shell.local[step.of], 1)
        call = f"calls-one {of} {step.data} ! fm {step.function} known-{step.name} {step.of} is-{step.of}"
        self.context.binds(call, f"(λ i. {load}) (λ is-{step.result}.")
        self.land(self.shell.local[step.result], Value(step.data, term, f"is-{step.result}").typed())

    def read_last(self, step):
        records, known = self.shell.records(), terms.answers(self.shell)
        held = f"{records.own('b')} {records.own('o')} {records.own('γ')} {records.now}"
        place = f"({known[step.at]}) (is-{step.at} .1)"
        if records.lent:
            self.lend(step, records)
            operands = self.operands("i j", self.handed(step, records.name, step.at), 0)
            self.context.binds(f"reads-last ! fm known-last {held} {records.own('room')} {place}", *operands, "(λ is-g.")
        else:
            operands = self.operands("i", self.handed(step, records.name, step.at), -1)
            self.context.binds(f"passes-last ! fm known-last {held} {place}", *operands, "(λ is-g.")
            self.context.resources.pop(0)
        self.land(self.shell.local[LAST], Value("G", known[LAST], "is-g").typed())

    def put(self, step):
        shell, records, known = self.shell, self.shell.records(), terms.answers(self.shell)
        self.lend(step, records)
        now, length = (antt.argument(text) for text in terms.list_before(shell, step))
        held = f"{records.own('b')} {records.own('o')} {records.own('γ')} {records.now} {now} {length} {records.own('room')}"
        written = f"({known[step.at]}) (is-{step.at} .1) ({known[step.record]}) is-{step.record}"
        operands = self.operands("i j", self.handed(step, records.name, step.at, step.record), 0)
        self.context.step(f"puts-at ! fm {step.law} known-{step.name}", held, written, *operands)
        self.land(shell.local["unit"], "tt, tt")

    # ---- the work
    def work(self, step):
        for name in step.arguments:
            if name == LENT:
                fits = f"tt, record {{ fits = {self.shell.records().fits()} }}"
                self.assign(f"of-opd ! ({self.length(self.shell.records())})", self.shell.local[LENT], fits)
            elif (step.name, name) in self.shell.temporary:
                self.lend(step, self.shell.param(name))
        if self.shell.work_slices():
            self.call_lending(step)
        else:
            self.call_plain(step)
        self.land(self.shell.local[step.result], Value(step.data, step.result).typed())

    def given(self, arguments):
        slices = [argument for argument in arguments if argument.is_slice]
        values = antt.nested(f"{argument.machine()} ∷ []" for argument in arguments)
        return terms.ghost(slices, antt.nested(argument.passed() for argument in arguments), values)

    def call_plain(self, step):
        arguments, result = self.shell.work_arguments(), step.result
        makes = antt.nested(f"{argument.data} .makes" for argument in arguments)
        facts = antt.nested(argument.is_() for argument in arguments)
        relation = f"(λ {result}. {terms.worked(self.shell, result, [])}) (λ {result} _. id⊢ 𝓤 _)"
        self.context.binds(
            "calls-plain ! fm work-ended (Works worked) known-work\n",
            self.given(arguments) + "\n",
            f"(id⊢ 𝓤 _) (id⊢ 𝓤 _) {makes} {facts}\n",
            f"{relation} ({step.data} .val) ({step.data} .tells)\n",
            *self.operands("i", self.handed(step, *step.arguments), 1),
            f"(λ {result} e is-{result}.\n",
        )

    def call_lending(self, step):
        arguments, result = self.shell.work_arguments(), step.result
        self.gather(arguments)
        exits = self.shell.work_exits().values()
        relation = f"(λ {result} ends. {terms.worked(self.shell, result, exits)}) (λ {result} ends. id⊢ 𝓤 _)"
        self.context.binds(
            "calls-said ! fm work-ended (Works worked) known-work\n",
            self.given(arguments) + "\n",
            f"(id⊢ 𝓤 _) {relation} ({step.data} .val) ({step.data} .tells)\n",
            *self.operands("i", self.handed(step, *step.arguments), -1),
            f"(λ {result} ends e is-{result}.\n",
        )
        self.take_lasts(arguments)

    def gather(self, arguments):
        """What the arguments own, and the tokens of the slices among them, at the head."""
        context = self.context
        context.nothing("the arguments' end")
        for argument in reversed(arguments):
            if argument.is_slice:
                context.move(argument.name, context.resources[0])
            else:
                context.owned(argument.owned(), f"own {argument.term}")
            context.join("fsep")
        context.join_all([slice_.token() for slice_ in self.shell.work_slices()], END)
        context.new_line()

    def take_lasts(self, arguments):
        """What the call says of its arguments at exit: of each slice of words its last value, and that it is as long as it was."""
        context, muts = self.context, self.shell.work_muts()
        names = [argument.final() if argument in muts else f"{argument.said()} at exit" for argument in arguments]
        context.resources[1] = chain("fsep", names, "the arguments' end")
        context.move(context.resources[1])
        while muts:
            context.split("fsep")
            if context.resources[0] == muts[0].final():
                self.take_last(muts[0])
                muts = muts[1:]
            else:
                context.drop()
        context.drop()
        context.move(*at_exit(self.shell))
        context.new_line()

    def take_last(self, slice_):
        context, length = self.context, f"the length of {slice_.name}"
        context.resources[0] = ("fsep", slice_.final(), length)
        context.split("fsep")
        context.move(length)
        context.learn(f"same-{slice_.name}")
        context.move(context.resources[1])

    # ---- the return
    def leave(self):
        context, count = self.context, len(self.shell.locals)
        context.step(f"returns ! ({context.look(0)})")
        for local in reversed(range(count)):
            context.forget(local)
        context.new_line()
        for local in range(count):
            context.free(local)
        context.step("free0 !")
        context.new_line()
        assert context.resources == at_exit(self.shell), context.resources
        *facts, last = self.exits()
        context.ends("by ! (exits", *facts, last + ")")

    def exits(self):
        """The arguments of `exits`: the result, the last values, the relation, the facts."""
        shell, known, ends = self.shell, terms.answers(self.shell), self.shell.work_exits()
        last, work = shell.steps[-1].result, shell.work().result
        records, length = (antt.argument(text) for text in terms.list_before(shell))
        finals = [records if slice_.lent else ends[slice_.name] for slice_ in shell.muts()]
        lengths = [length if slice_.lent else f"same-{slice_.name}" for slice_ in shell.muts()]
        few = [f"({shell.records().fits()})"] if shell.few else []
        relation = ["leaves", *(param.said() for param in shell.params), work, *ends.values(), *few, "e"]
        return [antt.argument(known.get(last, last)), *finals, f"({' '.join(relation)})", f"is-{last}", *lengths]
