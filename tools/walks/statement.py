"""What a shell states: its signature and its work's, what is had of its parameters at exit, and the two contracts as relations."""

import antt
from parts import Ask, Put, ReadLast, Value, Work


def signature(name, slots, lifetimes, result):
    params = antt.lines(slots, 10)
    kept = antt.nested("yes" for _ in slots)
    return f"""  abbrev pub {name} : Ended
  {name} = record {{
    signature = record {{
      lifetimes = {lifetimes};
      outlives = [];
      params =
{params};
      result = plain (λ _. row {result});
    }};
    kept = {kept};
  }}"""


def numbered_slots(arguments):
    """The slots of a call's parameters: each slice has the next lifetime."""
    lifetime, slots = 0, []
    for argument in arguments:
        slots.append(argument.slot(lifetime))
        lifetime += argument.is_slice
    return slots


def stay(param):
    if not param.is_slice or not param.mut():
        return f"stay-dropped ({param.slot()}) yes"
    return f"{'stay' if param.lent else 'gave'}-slice ({param.lifetime} ∷ []) tt (plain (λ _. {param.element}))"


def goes(param, lifetimes):
    given = f"𝓤 H A W {lifetimes}"
    if not param.is_slice or not param.mut():
        return f"goes-dropped {given} ({param.slot()}) yes (λ κs x f. refl)"
    return f"goes-{'' if param.lent else 'gave-'}slice {given} {param.lifetime} tt (plain (λ _. {param.element}))"


def signatures(shell):
    lifetimes = len(shell.slices())
    stays = antt.nested_lines([stay(param) for param in shell.params], 2)
    goings = antt.nested_lines([goes(param, lifetimes) for param in shell.params], 2)
    return [
        signature("work-ended", numbered_slots(shell.work_arguments()), len(shell.work_slices()), shell.work().data),
        signature("ended", [param.slot() for param in shell.params], lifetimes, shell.result()),
        f"  abbrev pub stayed : Stays (ended .signature .params) (ended .kept)\n  stayed = {stays}",
        f"  pub goes : AllGo 𝓤 H A W {lifetimes} (ended .signature .params) (ended .kept) stayed\n  goes = {goings}",
    ]


def relation(arguments, muts, result):
    """What a call leaves: of its arguments, its result, and the last value of each `&mut`."""
    return antt.arrows([*(a.type() for a in arguments), f"{result} .R .Denot", *(m.type() for m in muts), "Type 0"])


def at_call(arguments, muts):
    """The relation's arguments, read off a call's arguments `a`, its result `r` and what its parameters are at exit, `e`."""
    entry = [f"(now ({antt.part('a', i)}))" if a.is_slice else f"({antt.part('a', i)})" for i, a in enumerate(arguments)]
    exit_ = [f"(now ({antt.part('e', i)}))" for i, a in enumerate(arguments) if a in muts]
    return " ".join([*entry, "r", *exit_])


def contract(name, relation_name, ended, arguments, muts):
    return f"""  abbrev pub {name} : {relation_name} → Clauses 𝓤 {ended}
  {name} φ κs a = record {{
    ghost = Unit {{0}};
    requires = λ g. emp 𝓤;
    ensures = λ g r e. fact 𝓤 (φ {at_call(arguments, muts)});
  }}"""


def contracts(shell):
    arguments, work_muts = shell.work_arguments(), shell.work_muts()
    return [
        f"  abbrev Worked : Type 1\n  Worked = {relation(arguments, work_muts, shell.work().data)}",
        f"  abbrev Left : Type 1\n  Left = {relation(shell.params, shell.muts(), shell.result())}",
        contract("Works", "Worked", "work-ended", arguments, work_muts),
        contract("Says", "Left", "ended", shell.params, shell.muts()),
    ]


# ---- what a walk is handed in
def answered(step, shell):
    """The function that an answer is proved to be, with its type."""
    if isinstance(step, Ask):
        of = Value(shell.data_of(step.of), step.of)
        return [f"({step.function} : {of.type()} → {Value(step.data, '').type()})"]
    return ["(worked : Worked)"] if isinstance(step, Work) else []


def known(step, shell):
    """The callee's contract, which the proof of the whole function hands in."""
    if isinstance(step, Ask):
        data = f"{shell.data_of(step.of)} {step.data}"
        says = f"(one {data}) (gives {data} {step.function})"
    elif isinstance(step, ReadLast):
        says = "last-segment.ended (Last 𝓤)"
    elif isinstance(step, Put):
        says = f"append.ended (put.Says 𝓤 {step.law})"
    else:
        says = "work-ended (Works worked)"
    return f"(known-{step.name} : Knows H A C f-{step.name} {says})"
