"""A shell's file: its head, the names that it uses, the statement, the MIR, the walk."""

import antt
import exits
import mir
import statement
import terms
from uses import uses
from walk import Walk


def head(shell):
    return f"""-- The shell of `{shell.function}`, for any types and any work: {shell.argument}
--     function     its MIR, over the names of its callees
--     Works, Says  the contracts of the work and of the shell: what each leaves, as a relation
--     walks        the MIR walks to the contract
-- `tools/walks/generate.py` writes this file: the positions in the walk follow from the parameters and the callees that `tools/walks/shells.py` lists.
-- Assumes `Given`."""


def opening(shell):
    return f"""abbrev R : RattleType
R = S.the-row

abbrev elem : Ty
elem = pointee (R .written)

abbrev local-at : ℕ → Place
local-at i = place i []

module _ {{M : Type 1}} (𝓤 : URA M) (H : Heap 𝓤) (A : Atoms 𝓤) (W : Given 𝓤 H A) ({shell.data} : Data 𝓤 H A) where
  -- a number, a segment record
  abbrev N : Data 𝓤 H A
  N = number 𝓤 H A W

  abbrev G : Data 𝓤 H A
  G = declared 𝓤 H A W S.the-type S′.the-laws S′.the-plain"""


def leaves(shell):
    """What the proof of the whole function shows of the two relations."""
    work, muts, known = shell.work(), shell.work_muts(), terms.answers(shell)
    values = [f"({param.said()} : {param.type()})" for param in shell.params]
    bound = [*values, f"({work.result} : {work.data} .R .Denot)", *(f"({m.last} : {m.type()})" for m in muts)]
    few = [f"length {shell.records().now} < 2 ^ 64"] if shell.few else []
    records, last = antt.argument(terms.list_before(shell)[0]), shell.steps[-1].result
    relation = terms.worked(shell, work.result, [m.last for m in muts])
    finals = [records if m.lent else m.last for m in shell.muts()]
    told = [*few, relation, terms.left(shell, antt.argument(known.get(last, last)), finals)]
    return "\n".join([f"        (leaves : {' '.join(bound)}", *(f"        → {text}" for text in told)]) + ")"


def callees(shell):
    names = " ".join(f"f-{step.name}" for step in shell.steps)
    return f"  module _ ({names} : Name) where"


def handed(shell):
    """The module of what a walk is handed in: the table of calls, the functions that the answers are, the callees' contracts."""
    answers = [text for step in shell.steps for text in statement.answered(step, shell)]
    first = "    module _ (C : Calls 𝓤 H) (Λ : Loops 𝓤 H) (fm : FmC 𝓤 H (W .laws) C)"
    functions = antt.wrapped([*answers, "(left : Left)"], 8)
    known = [" " * 8 + statement.known(step, shell) for step in shell.steps]
    return "\n".join([first, functions, *known, leaves(shell) + " where"])


def bound(shell):
    """The module of what one call binds."""
    slices = shell.slices()
    lifetimes = " ".join(s.own("κ") for s in slices)
    shares = " ".join(s.own("q") for s in slices)
    values, facts = [], []
    for param in shell.params:
        if param.is_slice:
            values.append(f"({param.own('b')} {param.own('o')} : ℕ) ({param.own('γ')} : GName) ({param.now} : {param.type()})")
            facts.append(f"({param.own('room')} : Room {param.element} (length {param.now}))")
        else:
            values.append(f"({param.term} : {param.type()})")
            facts.append(f"({param.is_()} : Is ({param.data} .R) {param.term} ({param.machine()} ∷ []))")
    return f"      module _ ({lifetimes} : Lft) ({shares} : Share)\n{antt.wrapped(values, 10)}\n{antt.wrapped(facts, 10)} where"


def passed(shell):
    """The arguments, their machine values, and the postcondition."""
    parts = [abbrev(s.own("v"), "Val", f"val {s.element} {s.own('b')} {s.own('o')} {s.now}") for s in shell.slices()]
    types = [f"RefT ({p.type()})" if p.is_slice else p.type() for p in shell.params]
    return [
        *parts,
        abbrev("a", antt.product(types), antt.nested(p.passed() for p in shell.params)),
        abbrev("vals", antt.product("List Val" for _ in shell.params), antt.nested(f"{p.machine()} ∷ []" for p in shell.params)),
        abbrev("Post", "Val → SProp 𝓤", f"walkOf 𝓤 H A ended stayed (Says left) .post {exits.ghost(shell)}"),
    ]


def abbrev(name, type_, value):
    return f"        abbrev {name} : {type_}\n        {name} = {value}"


def walk(shell):
    slices = shell.slices()
    lifetimes, shares = (antt.nested(s.own(name) for s in slices) for name in "κq")
    machine = antt.listed(p.machine() for p in shell.params)
    entry = f"ent 𝓤 (onEntry 𝓤 H A (ended .signature) {lifetimes} {shares} a vals)"
    tokens = " ⊛ ".join([f"‵ (flft {s.own('κ')} {s.own('q')})" for s in slices] + ["‵ ftrue"])
    rows = antt.listed(p.row() for p in shell.params)
    pieces = [f"qed W (({tokens}) ∷ ‵ (owns ({rows}) a vals) ∷ []) ∵\n", *Walk(shell).script()]
    return f"        walk : {entry} (WpFn 𝓤 H C Λ function ({machine}) Post)\n        walk =\n{antt.wrapped(pieces, 12)}"


def closing(shell):
    """`walks`: the walk at any call."""
    spells = antt.nested("slice-vals" if p.is_slice else f"(λ y. {p.data} .val y ∷ [])" for p in shell.params)
    tells = antt.nested(tell(p) for p in shell.params)
    slices = range(len(shell.slices()))
    arguments = [f"({antt.part(name, i)})" for name in ("κs", "qs") for i in slices]
    for i, p in enumerate(shell.params):
        fields = [" .ptr .0", " .ptr .1", " .name", " .now"] if p.is_slice else [""]
        arguments += [f"({antt.part('a', i)}{field})" for field in fields]
    facts = [f"({antt.part('are', i)}{' .0 .1' if p.is_slice else ''})" for i, p in enumerate(shell.params)]
    return f"""      pub walks : Walks 𝓤 H A ended stayed (WpFn 𝓤 H C Λ function) (Says left)
      walks = walked 𝓤 H A ended stayed (Says left) (WpFn 𝓤 H C Λ function)
          (λ κs. {spells})
          (λ κs. {tells})
          (λ κs qs bounds a _ are. via 𝓤 _ (fst∗ 𝓤 _ (emp 𝓤))
          (walk
{antt.wrapped(arguments, 10)}
{antt.wrapped(facts, 10)}))"""


def tell(param):
    if not param.is_slice:
        return f"{param.data} .tells"
    return f"{'mut' if param.mut() else 'shr'}-slice-tells (named {param.lifetime}) ({antt.part('κs', param.lifetime)}) {param.element}"


def body(shell):
    inner = [*passed(shell), exits.statement(shell) + "\n" + exits.proof(shell), walk(shell)]
    return "\n\n".join(
        [
            opening(shell),
            *statement.signatures(shell),
            *statement.contracts(shell),
            callees(shell) + "\n" + mir.function(shell),
            handed(shell) + "\n" + bound(shell) + "\n" + inner[0],
            *inner[1:],
            closing(shell),
        ]
    )


def document(shell):
    text = body(shell)
    return "\n".join([head(shell), *uses(text), "", text, ""])
