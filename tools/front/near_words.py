"""Words as they are shown in a sentence, and which of some words are near another one."""


def quoted(text):
    """A token or a byte as it can be shown on one line."""
    return "`" + "".join(it if it.isprintable() else "?" for it in text[:60]) + ("..`" if len(text) > 60 else "`")


def alike(word, others):
    """Those of the others that are but a slip away from the word."""
    return [it for it in others if it != word and len(it) > 1 and is_slip(word.lower(), it.lower())]


def is_slip(one, other):
    """Whether a letter is more, less or another, or two changed places."""
    while one and other and one[0] == other[0]:
        one, other = one[1:], other[1:]
    while one and other and one[-1] == other[-1]:
        one, other = one[:-1], other[:-1]
    swapped = len(one) == 2 and one == other[::-1]
    return swapped or (len(one) < 2 and len(other) < 2)


def near(word, others):
    """The end of a sentence that names at most three of those, or nothing."""
    found = alike(word, others)
    return f"; near is {', '.join(f'`{it}`' for it in found[:3])}" if found else ""


# How a text of each kind begins, in lower-case words.
BEGINNINGS = {"policy": "a policy", "levels": "a policy", "cores": "a trace", "history": "a history", "round": "a history"}
BEGINNINGS["certificates"] = "a file of certificates"


def mistaken(text, wanted):
    """A sentence where the text begins as one of another kind does, as when files stand in the wrong order; or nothing."""
    lines = (line.split() for line in text[:65536].decode("latin-1").splitlines())
    first = next((words[0] for words in lines if words and not words[0].startswith("#")), "")
    kind = BEGINNINGS.get(first)
    if kind in (None, wanted):
        return None
    return f"this begins as {kind} does, and here {wanted} is wanted; `ipanema help` has the order of the files"
