"""The MIR of a shell, over the names of its callees. Each statement is the text before the rest of the code, which it encloses."""

import antt
from parts import LAST, LENT, Ask, Put, ReadLast


def local_at(number):
    return f"(local-at {number})"


def call(name, arguments, into):
    operands = antt.listed(f"copy {local_at(a)}" for a in arguments)
    return f"seq (call f-{name} ({operands}) {local_at(into)})"


def loan(shell, step, slice_):
    """A slice is lent for a call: `reborrow` encloses the rest."""
    reference, whole = shell.temporary[step.name, slice_.name]
    return f"reborrow {shell.local[slice_.name]} {reference} {whole} {antt.argument(slice_.held())}"


def length(shell):
    lent = shell.local[shell.records().name]
    return f"seq (assign {local_at(shell.local[LENT])} (rvOpd (copy (place {lent} (field 1 ∷ [])))))"


def statements(shell, step):
    records = shell.records().name
    if isinstance(step, Ask):
        return [call(step.name, [shell.local[step.of]], shell.local[step.result])]
    if isinstance(step, ReadLast):
        before = [loan(shell, step, shell.records())] if shell.records().lent else []
        return [*before, call(step.name, [shell.operand(step, records), shell.local[step.at]], shell.local[LAST])]
    if isinstance(step, Put):
        handed = [shell.operand(step, records), shell.local[step.at], shell.local[step.record]]
        return [loan(shell, step, shell.records()), call(step.name, handed, shell.local["unit"])]
    return work(shell, step)


def work(shell, step):
    muts = {slice_.name: slice_ for slice_ in shell.work_muts()}
    before = [length(shell) if name == LENT else loan(shell, step, muts[name]) for name in step.arguments if name == LENT or name in muts]
    return [*before, call(step.name, [shell.operand(step, name) for name in step.arguments], shell.local[step.result])]


def body(shell):
    code = [text for step in shell.steps for text in statements(shell, step)]
    pieces = [f"{text} (\n" for text in code[:-1]] + [f"{code[-1]} return" + ")" * (len(code) - 1) + ";"]
    return "      body =\n" + antt.wrapped(pieces, 10)


def function(shell):
    locals_ = antt.lines([f"local {antt.argument(mir)} valueLocal" for mir in shell.locals], 10)
    return f"""    abbrev pub function : Fn
    function = record {{
      lifetimes = {len(shell.slices())};
      outlives = [];
      params = {len(shell.params)};
      locals =
{locals_};
{body(shell)}
    }}"""
