"""What most likely was meant where a token of a policy can't stand."""
import policy_text as policies
from near_words import alike, quoted
from policy_places import HERE

# The parts of a policy, in their order.
PARTS = ["load", "core", "thread", "place", "elect", "on", "filter", "choose", "steal"]
LEVEL_PARTS = ["level" if it == "filter" else it for it in PARTS]
# Signs of these are no sign of a new part: an owner is called `core` too.
NO_PARTS = {"core", "thread"}
EXAMPLES = {"core": "core node in 0..3 start 0", "thread": "thread left in 0..3 start 3"}


def hint(found, before, signs, place):
    """The end of a sentence on that token, behind those before it, where just these signs may stand; or nothing."""
    for way in (of_dash, of_sign, of_name, of_other_words, of_range, of_bare_name, of_parts):
        said = way(found, before, signs, place)
        if said:
            return f". {said}"
    close = alike(found.text, [it for it in signs if it.isalpha() and it.islower()]) if found.kind == "word" else []
    return f". Near is `{close[0]}`" if close else ""


def of_dash(found, before, signs, place):
    last = before[-1] if before else None
    is_dash = found.text == "-" and last and last.kind == "word" and last.at + len(last.text) == found.at
    return "A name has letters, digits and `_`, and no `-`" if is_dash or is_joined(before[-3:]) else None


def is_joined(tokens):
    """Whether these are two words with a `-` between them, and no blank."""
    texts = [it.text for it in tokens]
    is_close = len(tokens) == 3 and tokens[2].at == tokens[0].at + len(texts[0]) + 1
    return is_close and texts[1] == "-" and tokens[0].kind == tokens[2].kind == "word"


def of_sign(found, before, signs, place):
    if found.text == "=" and "==" in signs:
        return "Write `==` to compare"
    if found.text in policies.COMPARISONS and "and" in signs:
        return "Write two comparisons with `and` between them"
    if found.text == "(" and "NUMBER" in signs:
        return "A sum has no parentheses; multiply it out"
    return None


def of_name(found, before, signs, place):
    if "NAME" in signs and found.text in found.reserved:
        return f"{quoted(found.text)} has a meaning of its own, so it can't be a name"
    return None


def of_other_words(found, before, signs, place):
    """Words of other languages, and of the other kind of policies."""
    if found.text in ("else", "if", "elif") and "when" in signs:
        return f"There is no `{found.text}`: each case has a `when`, and for each thread just one of them must hold"
    by_levels = policies.is_by_levels(before)
    if found.text in policies.LEVEL_WORDS and not by_levels:
        return "A text with levels begins with the word `levels` in place of `policy`"
    if found.text == "filter" and by_levels and "level" in signs:
        return "In a level text each `level` has a filter of its own, as in `level within always filter self.nr == 0`"
    return None


def of_range(found, before, signs, place):
    """A range that isn't there, or not whole."""
    texts = [it.text for it in before]
    if texts[-2:] == ["load", "weight"] and "NUMBER" in signs:
        return "A range of weights stands here, as in `load weight 1..8`"
    owner = next((it for it in reversed(texts) if it in EXAMPLES), None)
    if owner and signs and set(signs) <= {"in", "start", "..", "NUMBER", "-"} and owner in texts[-7:]:
        return f"A range and a start stand behind the name of an attribute, as in `{EXAMPLES[owner]}`"
    return "A range has two ends, as in `1..8`" if signs == [".."] else None


def of_bare_name(found, before, signs, place):
    """A name that wants its owner before it."""
    seen = {owner: names for owner, names in place.sees().items() if owner in signs}
    owners = [owner for owner, names in seen.items() if found.text in names and found.text not in signs]
    if not owners and found.text in ("nr", "load", "weight", "fresh") and "NUMBER" in signs and place.part:
        return f"Of {quoted(found.text)} nothing is seen here: {HERE[place.part]}"
    return f"Say whose it is: {' or '.join(f'`{it}.{found.text}`' for it in owners)}" if owners else None


def of_parts(found, before, signs, place):
    """A part that stands where others must come first, or where it stood before."""
    by_levels = policies.is_by_levels(before)
    parts = LEVEL_PARTS if by_levels else PARTS
    if found.text not in parts or not set(signs) & set(parts) - NO_PARTS:
        return None
    named = ", ".join(f"`{it}`" for it in parts)
    return f"The parts stand in this order: {named}"
