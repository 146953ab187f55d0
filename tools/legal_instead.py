"""Which entry might stand in the place of one that isn't legal: others of the same core, with the same looks, are given to the judge."""

from ask_ipanema import NOT_WHOLE, WHOLE, ask
from common import passing

# How many entries are tried at most.
MOST = 60


def others(line, walk):
    """The words of other entries of the same core, before their reads."""
    values = line.values
    core = values.get("core")
    if core is None or core >= len(walk.stand):
        return
    own = walk.stand[core]
    if line.kind in ("work", "nothing"):
        yield f"work {core} -"
        for thread in [own.running] if own.running is not None else own.queue:
            yield from (f"work {core} {thread} {outcome}" for outcome in ("keep", "queue", "block", "end"))
    elif line.kind in ("enter", "wake"):
        yield from (f"{line.kind} {values['thread']} {core} {target}" for target in range(len(walk.stand)))
    elif line.kind != "round":
        yield f"pass {core}"
        for victim, other in enumerate(walk.stand):
            if victim != core:
                yield f"fail {core} {victim}"
                yield from (f"steal {core} {victim} {thread}" for thread in other.queue)


def is_legal(policy, trace, before, entry):
    """Whether the judge finds the entry legal behind the lines before it."""
    with passing("".join(f"{text}\n" for text in [*before, entry]).encode("ascii")) as history:
        said = ask((WHOLE, NOT_WHOLE), "replay", policy, trace, history).decode("ascii").split()
    count = len(before) - bool(before and before[0].startswith("history "))
    return said != ["illegal", str(count)]


def instead_of(policy, trace, before, line, walk):
    """The first of these entries that is legal behind the lines before it, or None."""
    colon = line.text.find(" :")
    looks = line.text[colon:] if colon >= 0 else ""
    tried = [text + looks for text in others(line, walk)]
    return next((text for text in tried[:MOST] if text != line.text and is_legal(policy, trace, before, text)), None)
