"""What a shell says in terms of its callees: each answer as the function that it is proved to be, the list as it is left, the two relations."""

import antt
from parts import LAST, Ask, Put, ReadLast

LENGTHS = {"relast": "length-relast", "set": "length-set"}


def answers(shell):
    """Each answer's name, and the term that it is proved to be."""
    terms = {}
    for step in shell.steps:
        if isinstance(step, Ask):
            terms[step.result] = f"{step.function} {step.of}"
        elif isinstance(step, ReadLast):
            terms[LAST] = f"lastSegment {shell.records().now} ({terms[step.at]})"
    return terms


def list_before(shell, last=None):
    """The segment list before a step, or as it is left, and the proof that it is as long as at entry."""
    terms, records, shown = answers(shell), shell.records().now, "refl"
    for step in shell.steps:
        if step is last:
            break
        if isinstance(step, Put):
            put = f"{antt.argument(records)} ({terms[step.at]}) ({terms[step.record]})"
            length = f"{LENGTHS[step.law]} {put}"
            records, shown = f"{step.law} {put}", length if shown == "refl" else f"{length} ∙ {shown}"
    return records, shown


def worked(shell, result, exits):
    """The work's relation, at its result and the last values of its slices."""
    return " ".join(["worked", *(argument.said() for argument in shell.work_arguments()), result, *exits])


def left(shell, result, finals):
    """The shell's relation, likewise."""
    return " ".join(["left", *(param.said() for param in shell.params), result, *finals])


def ghost(slices, arguments, values):
    """What a triple binds outside: lifetimes, shares, arguments, machine values."""
    lifetimes, shares = (antt.nested(slice_.own(name) for slice_ in slices) for name in "κq")
    return f"(({lifetimes}, {shares}, tt, {arguments}, {values}), tt)"
