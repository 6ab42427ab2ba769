"""The context of a walk: the resources that the proof holds, in the prover's order, and the script of steps so far.

Each method is one step of `types.Kit` or `types.Run`: it does to the list what the step does to the prover's context, and writes the step with the positions read off the list. A resource is a name, or
a pair (kind, first, rest), where the kind is the connective: "⊛" between items, "fsep" between formulas. A local i is two resources: its cell, `cell(i)`, and the right to free it, `dies(i)`."""

import antt


def cell(local):
    return f"_{local}"


def dies(local):
    return f"what frees _{local}"


def chain(kind, names, end):
    """names[0] kind (names[1] kind (.. end))"""
    return (kind, names[0], chain(kind, names[1:], end)) if names else end


class Context:
    def __init__(self, resources):
        self.resources = list(resources)
        self.filled = set()  # the locals that hold a value
        self.script = []
        self.open = 0  # the parentheses that steps have opened

    # ---- the script
    def step(self, *texts):
        """A step, in pieces between which a line may end."""
        self.script += [*texts[:-1], texts[-1] + " $"]

    def binds(self, *texts):
        """A step that binds names: its text ends in the λ under which the script goes on."""
        self.script += texts
        self.open += 1

    def new_line(self):
        self.script[-1] = self.script[-1].rstrip("\n") + "\n"

    def note(self, text):
        self.new_line()
        self.script.append(f"-- {text}\n")

    def ends(self, *texts):
        self.script += [*texts[:-1], texts[-1] + ")" * self.open]

    # ---- positions
    def at(self, resource):
        assert self.resources.count(resource) == 1, f"{resource} in {self.resources}"
        return self.resources.index(resource)

    def look(self, local, shift=0):
        """Reads a local's cell; `shift` is by how much the cells stand further back than now."""
        assert local in self.filled, f"_{local} is read before it is written"
        return f"look ! {self.at(cell(local)) + shift} refl"

    def look_in(self, local, field):
        assert local in self.filled, f"_{local} is read before it is written"
        return f"look-in ! {self.at(cell(local))} (sub ! {field} refl (whole !))"

    def write(self, local, typed):
        rule = "store" if local in self.filled else "init"
        self.filled.add(local)
        return f"{rule} ! {self.at(cell(local))} refl ({typed})"

    # ---- steps on the list
    def move(self, *resources):
        places = [self.at(resource) for resource in resources]
        if places != list(range(len(places))):
            self.step(f"move ! ({antt.listed(map(str, places))})")
        self.resources = [*resources, *(r for r in self.resources if r not in resources)]

    def drop(self):
        self.step("drop !")
        self.resources.pop(0)

    def nothing(self, name):
        self.step("nothing !")
        self.resources.insert(0, name)

    def owned(self, text, name):
        self.step(f"owned ! {text}")
        self.resources.insert(0, name)

    def split(self, kind):
        assert isinstance(self.resources[0], tuple) and self.resources[0][0] == kind, self.resources[0]
        self.step("split !" if kind == "⊛" else "fsplit !")
        self.resources[0:1] = self.resources[0][1:]

    def join(self, kind):
        self.step("join !" if kind == "⊛" else "fjoin !")
        self.resources[0:2] = [(kind, *self.resources[0:2])]

    def join_all(self, names, end):
        """Joins the names, nested to the right, with `end` at the end."""
        for name in reversed(names):
            self.move(name, end)
            self.join("⊛")
            end = self.resources[0]

    def learn(self, name):
        """The equation at the head is learned under the name."""
        self.binds(f"feqL ! (λ {name}.")
        self.resources.pop(0)

    # ---- a function's locals
    def alloc(self, local):
        self.binds(f"alloc1 ! (λ {antt.indexed('l', local)}.")
        self.resources[0:0] = [cell(local), dies(local)]

    def forget(self, local):
        if local in self.filled:
            self.step(f"forget ! {self.at(cell(local))} refl")

    def free(self, local):
        self.move(cell(local), dies(local))
        self.step("free1 !")
        del self.resources[0:2]

    def others(self):
        """What is held besides locals, for a comment."""
        return "; ".join(told(resource) for resource in self.resources if not told(resource).startswith(("_", "what frees")))


def told(resource):
    return resource if isinstance(resource, str) else f"{told(resource[1])} and {told(resource[2])}"
