"""Makes policies for tools/try_prove_c: with weights, attributes, preferences, batches, handlers and wide numbers. Most are accepted."""

SPANS = [(0, 1), (-5, 5), (1, 20), (0, 1000), (-1048575, 1048575), (7, 7)]
FACTORS = [1, 1, 1, 2, -1, -3, 1000, 1000003, -67108865, 1099511627776 // 2]
COMPARISONS = ["==", "!=", "<", "<=", ">", ">="]
EVENTS = {"enqueue": ["queue"], "tick": ["queue", "keep"], "yield": ["queue", "keep"], "block": ["block"]}


class Made:
    """A made policy. The filter is one that keeps what policies owe, whatever else stands there."""

    def __init__(self, chance, name):
        self.chance, self.name = chance, name
        self.greatest = chance.choice([None, 1, 8, 100, 1048575])
        self.cores = [(f"c{at}", *chance.choice(SPANS)) for at in range(chance.randint(0, 3))]
        self.threads = [(f"t{at}", *chance.choice(SPANS)) for at in range(chance.randint(0, 4))]

    def text(self):
        chance = self.chance
        load = f"load weight 1..{self.greatest}" if self.greatest else "load count"
        lines = [f"policy {self.name}", load]
        for kind, attributes in (("core", self.cores), ("thread", self.threads)):
            lines += [f"{kind} {name} in {least}..{most} start {chance.randint(least, most)}" for name, least, most in attributes]
        core, thread = self.references("core", self.cores, ["nr", "load"]), self.references("t", self.threads, ["weight"])
        both = [*self.references("self", self.cores, ["nr", "load"]), *self.references("victim", self.cores, ["nr", "load"])]
        lines += [f"place min {self.expression(core)}"] if chance.random() < 0.5 else []
        lines += [f"elect {self.order(thread)}"] if chance.random() < 0.7 else []
        for event, puts in EVENTS.items():
            lines += self.handler(event, puts) if chance.random() < 0.5 else []
        lines += [f"filter {self.filter()}", f"choose {self.order(both)}", f"steal {self.order(thread)}{self.batch(both + thread)}"]
        return "\n".join([*lines, ""])

    @staticmethod
    def references(owner, attributes, fixed):
        return [f"{owner}.{name}" for name in [*fixed, *(name for name, _, _ in attributes)]]

    def expression(self, references):
        """A sum of a few products, and of a number."""
        chance, terms = self.chance, []
        for _ in range(chance.randint(1, 3)):
            factor = chance.choice(FACTORS)
            terms.append(f"{'' if factor == 1 else f'{factor} * '}{chance.choice(references)}")
        if chance.random() < 0.4:
            terms.append(str(chance.choice([0, 1, 7, 4096, 3000000000])))
        return chance.choice([" + ", " - "]).join(terms)

    def condition(self, references, comparisons=3):
        chance = self.chance
        if comparisons == 1 or chance.random() < 0.4:
            return f"{self.expression(references)} {chance.choice(COMPARISONS)} {self.expression(references)}"
        if chance.random() < 0.3:
            return f"not ({self.condition(references, comparisons - 1)})"
        return f"({self.condition(references, comparisons - 1)} {chance.choice(['and', 'or'])} {self.condition(references, 1)})"

    def order(self, references):
        keys = []
        for _ in range(self.chance.randint(0, 4)):
            how = self.chance.choice(["min", "max", "prefer"])
            keys.append(f"{how} {self.condition(references, 2) if how == 'prefer' else self.expression(references)}")
        return ", ".join(keys) or "first"

    def gap(self, weight):
        """That the loads differ by more than this weight, times some number on both sides."""
        factor = self.chance.choice([1, 1, 1, 3, 1000003])
        times = "" if factor == 1 else f"{factor} * "
        return f"{times}victim.load - {times}self.load > {times}{weight}"

    def filter(self):
        idle = "self.nr == 0 and victim.nr >= 2"
        both = [*self.references("self", self.cores, []), *self.references("victim", self.cores, [])]
        wide = self.gap(self.greatest) if self.greatest else "victim.nr - self.nr >= 2"
        if both and self.chance.random() < 0.5:
            wide = f"{wide} and {self.condition(both, 2)}"
        return f"{idle} or {wide}"

    def batch(self, references):
        if self.chance.random() < 0.5:
            return ""
        more = f" and {self.condition(references, 2)}" if self.chance.random() < 0.5 else ""
        return f" while {self.gap('t.weight')}{more} limit {self.chance.randint(1, 8)}"

    def handler(self, event, puts):
        """One case that always holds, or two of which one holds."""
        chance = self.chance
        references = self.references("t", self.threads, ["weight"]) + self.references("self", self.cores, [])
        references += ["t.fresh"] if event == "enqueue" else []
        guard = f"({self.condition(references, 2)})" if chance.random() < 0.6 else None
        guards = [guard, f"not {guard}"] if guard else ["always"]
        cases = []
        for guard in guards:
            set_ones = chance.choices(self.threads, k=chance.randint(0, 3)) if self.threads else []
            sets = [f"t.{name} = {self.expression(references)}" for name, _, _ in set_ones]
            cases.append(f"  when {guard} : {', '.join([*sets, chance.choice(puts)])}")
        return [f"on {event} {{", *cases, "}"]
