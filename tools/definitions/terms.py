"""Terms of the language of definitions."""


def listed(items):
    return "(" + " ∷ ".join([*map(str, items), "[]"]) + ")"


def numbers(text):
    """A list of numbers from `1,2,3`."""
    return listed(text.split(",") if text else [])


def refused(answer):
    """From `refused KIND NUMBER OFFSET`."""
    _, kind, number, offset = answer.split(" ")
    return f"turned_back {kind.lower()} {number} {offset}"
