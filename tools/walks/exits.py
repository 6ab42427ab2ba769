"""How a walk ends: what is left at the return, put together as the contract asks. The tokens come first, then what is had of each parameter, then the result."""

import antt
import terms
from context import Context
from walk import END, at_exit


def item(shell, name):
    """A resource at exit as the prover writes it."""
    records = shell.records()
    if isinstance(name, tuple):
        return f"{item(shell, name[1])} ⊛ {item(shell, name[2])}"
    if name == END:
        return "‵ ftrue"
    if name == records.name:
        return f"‵ (MutSlice (named 0) {records.own('κ')} R .own ({records.at(records.last)}) ({records.machine()} ∷ []))"
    for slice_ in shell.slices():
        if name == slice_.token():
            return f"‵ (flft {slice_.own('κ')} {slice_.own('q')})"
        if name == slice_.final():
            return f"‵ (finally {slice_.element} {slice_.own('γ')} {slice_.last})"
    raise KeyError(name)


def script(shell):
    context = Context(at_exit(shell))
    rebuild_tokens(shell, context)
    context.step("frame !")
    context.resources.pop(0)
    context.new_line()
    context.nothing("the parameters' end")
    for param in reversed(shell.params):
        if param.is_slice and param.mut():
            context.move(param.name if param.lent else param.final(), context.resources[0])
        else:
            context.nothing("nothing is had")
        context.join("fsep")
    context.new_line()
    assert len(context.resources) == 1
    result = f"({shell.result()} .R)"
    context.step("frame !")
    context.step(f"owned ! {result} (Is {result}) ({shell.result()} .makes) r _ is")
    context.ends("done !")
    return context.script


def rebuild_tokens(shell, context):
    """The tokens in the order of the lifetimes: those that the work was handed are taken apart first."""
    if isinstance(context.resources[-1], tuple):
        context.move(context.resources[-1])
        context.split("⊛")
        while END not in context.resources:
            context.move(context.resources[1])
            context.split("⊛")
    context.join_all([slice_.token() for slice_ in shell.slices()], END)


def lasts(shell, of):
    """Of each parameter what is said of its last value: `of` a `&mut`, and nothing of any other."""
    return antt.nested(of(param) if param.is_slice and param.mut() else "tt" for param in shell.params)


def ghost(shell):
    return terms.ghost(shell.slices(), "a", "vals")


def held(shell):
    """The context at exit."""
    return antt.listed(antt.item_text(item(shell, name)) for name in at_exit(shell))


def statement(shell):
    muts, result = shell.muts(), shell.result()
    values = [f"(r : {result} .R .Denot)", *(f"({slice_.last} : {slice_.type()})" for slice_ in muts)]
    relation = terms.left(shell, "r", [slice_.last for slice_ in muts])
    lengths = [f"length {slice_.last} ≡ length {slice_.now}" for slice_ in muts]
    facts = [f"→ {fact}" for fact in (relation, f"Is ({result} .R) r ({result} .val r ∷ [])", *lengths)]
    ent = f"→ ent 𝓤 (⋆ 𝓤 H A ({held(shell)})) (Post ({result} .val r))"
    return "        " + antt.wrapped(["exits :", *values, *facts[:-1], facts[-1] + "\n", ent], 12).lstrip()


def proof(shell):
    muts = shell.muts()
    names = ["exits r", *(slice_.last for slice_ in muts), "e is", *(f"same-{slice_.name}" for slice_ in muts)]
    values, fits = lasts(shell, lambda p: p.last), lasts(shell, lambda p: f"same-{p.name}")
    pieces = [
        f"qed W ({held(shell)}) ∵\n",
        f"suffices ! _ (ends-at 𝓤 H A ended stayed (Says left) W {ghost(shell)} ({shell.result()} .val r) r {values} {fits}) $ says ! e $\n",
        *script(shell),
    ]
    return f"        {' '.join(names)} =\n{antt.wrapped(pieces, 12)}"
