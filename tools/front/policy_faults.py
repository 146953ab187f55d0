"""A sentence for each fault of a policy. Each function has the text, the byte of the fault, and the tokens of the text."""
import re

import policy_text as policies
from near_words import mistaken, near, quoted
from policy_hints import hint
from policy_places import HERE, PUTS, Place

BYTES = {"&": "write `and`", "|": "write `or`", "!": "write `not`, or `!=`", "%": "there is no remainder"}
BYTES.update({"/": "there is no division; multiply the other side instead", ";": "nothing ends a rule", "[": "a range is written `1..8`"})
# The words of a sentence for the signs that stand for many tokens.
NAMED = {"NAME": "a name", "WORD": "a word", "NUMBER": "a number"}


def listed(signs):
    signs = [it for it in signs if it not in policies.COMPARISONS[1:]]
    return ", ".join("a comparison such as `==`" if it == "==" else NAMED.get(it, f"`{it}`") for it in signs)


def of_bad_byte(text, at, tokens):
    byte = chr(text[at])
    shown = quoted(byte) if byte.isprintable() else f"the byte {text[at]}"
    if text[at : at + 2] in (b"//", b"/*"):
        return f"{shown} begins nothing that a policy has: a comment begins with `#`, and ends with its line"
    return f"{shown} begins nothing that a policy has" + (f": {BYTES[byte]}" if byte in BYTES else "")


def of_long_name(text, at, tokens):
    length = len(re.match(rb"[A-Za-z0-9_]+", text[at:]).group())
    return f"this word has {length} bytes, and the most is 32"


def of_unexpected(text, at, tokens):
    table = policies.Table()
    state = table.start()
    before = [it for it in tokens if it.at < at]
    for token in before:
        state = table.after(state, token)
    place = Place(before)
    signs = place.narrowed(table.signs(state))
    if not signs:
        return "the policy is over before this"
    found = next((it for it in tokens if it.at == at), None)
    if found is None:
        return f"the text stops too soon; what may follow: {listed(signs)}"
    if not before and (said := mistaken(text, "a policy")):
        return said
    names = place.behind_dot(before[-2].text) if signs == ["WORD"] and len(before) > 1 else []
    may = ", ".join(f"`{it}`" for it in names) or listed(signs)
    return f"{quoted(found.text)} can't stand here; what may: {may}{hint(found, before, signs, place)}"


def last_of(tokens, words):
    """The last of these words that stands there, but behind a dot."""
    found = [it.text for it, before in zip(tokens, [None, *tokens]) if it.text in words and (before is None or before.text != ".")]
    return found[-1] if found else None


def of_many(text, at, tokens):
    word = next(it.text for it in tokens if it.at == at)
    before = [it for it in tokens if it.at < at] if policies.is_by_levels(tokens) else []
    keys = "2 keys of `choose` in a level text" if last_of(before, ("elect", "choose", "steal")) == "choose" else "4 keys of one order"
    is_filter = last_of(before, ("when", "filter", "prefer", "while")) == "filter"
    comparisons = "3 comparisons of a level's filter" if is_filter else "16 comparisons of one condition"
    most = {"core": "8 attributes of cores", "thread": "8 attributes of threads", "when": "8 cases of one handler"}
    most.update({"t": "8 assignments of one case", "level": "3 levels"})
    most.update(dict.fromkeys(["min", "max", "prefer"], keys))
    most.update(dict.fromkeys(policies.COMPARISONS, comparisons))
    return f"{quoted(word)} is one too many: there may be {most.get(word, '32 operators of one expression')}"


def of_deep(text, at, tokens):
    return "this stands within 32 others, the most parentheses, `not`s and signs that may be open"


def of_unknown(text, at, tokens):
    n = next(n for n, it in enumerate(tokens) if it.at == at)
    kind = "thread" if tokens[n - 2].text == "t" else "core"
    known = Place(tokens[:n]).behind_dot(tokens[n - 2].text)
    has = f"what it has: {', '.join(f'`{it}`' for it in known)}" if known else f"no attribute of {kind}s is declared"
    dash = tokens[n + 1 : n + 2]
    joined = dash and dash[0].text == "-" and dash[0].at == at + len(tokens[n].text)
    extra = ". A name has no `-`; this one is read as a difference" if joined else ""
    return f"a {kind} has no {quoted(tokens[n].text)} here; {has}{near(tokens[n].text, known)}{extra}"


def of_twice(text, at, tokens):
    n = next(n for n, it in enumerate(tokens) if it.at == at)
    first = next(it for k, it in enumerate(tokens) if it.text == tokens[n].text and k and tokens[k - 1].text == tokens[n - 1].text)
    return f"{quoted(tokens[n].text)} was given before, in line {place_of(text, first.at)[0]}"


def of_not_here(text, at, tokens):
    n = next(n for n, it in enumerate(tokens) if it.at == at)
    place, word = Place(tokens[:n]), tokens[n].text
    if place.part == "on" and tokens[n - 1].text != ".":
        puts = " or ".join(f"`{it}`" for it in PUTS.get(place.event, [])) or "another word"
        return f"on `{place.event}` a thread is put by {puts}, and not by {quoted(word)}"
    return f"{quoted(word)} is known, but not here: {HERE.get(place.part, 'another place has it')}"


def of_bad_range(text, at, tokens):
    n = next(n for n, it in enumerate(tokens) if it.at == at)
    if tokens[n - 1].text == "weight":
        return "a range of weights lies within 1..1048575, the lesser end first"
    if tokens[n - 1].text == "limit":
        return "one steal moves 1 to 8 threads"
    return "a range of an attribute lies within -1048575..1048575, the lesser end first, and its start lies in it"


def of_nothing_more(sentence):
    return lambda text, at, tokens: sentence


POLICY = {
    "not-ascii": of_nothing_more("this byte isn't ASCII, which all of a policy is, comments too"),
    "bad-byte": of_bad_byte,
    "long-name": of_long_name,
    "wide-number": of_nothing_more("this number is too large: the greatest is 18446744073709551615"),
    "unexpected": of_unexpected,
    "many": of_many,
    "deep": of_deep,
    "unknown": of_unknown,
    "twice": of_twice,
    "not-here": of_not_here,
    "bad-range": of_bad_range,
    "not-linear": of_nothing_more("one side of a `*` must be a constant, with no `self`, `victim`, `core` or `t` in it"),
    "big": of_nothing_more("a number here, or one that this comes to, lies beyond 1099511627776 or its negative"),
}


def place_of(text, at):
    """Line and column of a byte, both from 1."""
    start = text.rfind(b"\n", 0, at) + 1
    return text.count(b"\n", 0, at) + 1, at - start + 1


def of_policy(file, text, at, word):
    line, column = place_of(text, at)
    return f"{file}:{line}:{column}: {POLICY[word](text, at, policies.tokens_of(text))}"
