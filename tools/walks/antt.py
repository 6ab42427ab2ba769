"""Pieces of antt text: lists, nested tuples, projections, names with an index, and lines of bounded width."""

WIDTH = 150
DIGITS = str.maketrans("0123456789", "₀₁₂₃₄₅₆₇₈₉")


def indexed(name, number):
    """A name with its index: `indexed("κ", 0)` is κ₀."""
    return name + str(number).translate(DIGITS)


def listed(items):
    return " ∷ ".join([*items, "[]"])


def nested(items):
    """A tuple nested to the right, with `tt` at its end."""
    items = list(items)
    return f"({items[0]}, {nested(items[1:])})" if items else "tt"


def lines(items, indent):
    """A list with an item to a line."""
    return "\n".join(" " * indent + item + " ∷" for item in items) + " []"


def nested_lines(items, indent):
    """A nested tuple with an item to a line, in the formatter's layout; the first line stands where the text before it ends."""
    first, *rest = items
    if not rest:
        return f"({first}, tt)"
    inner = " " * (indent + 2)
    return f"(\n{inner}{first},\n{inner}{nested_lines(rest, indent + 2)},\n{' ' * indent})"


def product(types):
    """The type of such a tuple."""
    *front, end = [*types, "Unit {0}"]
    for type_ in reversed(front):
        end = f"{type_} × {end if end == 'Unit {0}' else f'({end})'}"
    return end


def part(name, number):
    """A tuple's component: `part("a", 1)` is a .1 .0."""
    return " ".join([name, *[".1"] * number, ".0"])


def arrows(types):
    return " → ".join(types)


def wrapped(pieces, indent):
    """The pieces in order, on lines of about WIDTH columns; a piece that ends in a line break ends its line."""
    done, line = [], ""
    for piece in pieces:
        text = piece.rstrip("\n")
        if line and len(line) + len(text) > WIDTH:
            done.append(line)
            line = ""
        line += text if not line or line.endswith("(") else " " + text
        if piece.endswith("\n"):
            done.append(line)
            line = ""
    done += [line] if line else []
    return "\n".join(" " * indent + text for text in done)


def argument(text):
    """The text as an argument of an application."""
    return f"({text})" if " " in text and not text.startswith("(") else text


def item_text(text):
    """A context's entry in a list: a compound one is in parentheses."""
    return f"({text})" if " ⊛ " in text else text
