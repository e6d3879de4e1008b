"""Makes sources in MACRO-10 by chance: labels, assignments, literals, macros with arguments, defaults and created names, conditions,
repetitions and rounds of IRP that STOPI ends, one inside another. The same chance makes the same source."""

SYMBOLS = ("A", "B", "C")
DUMMIES = ("X", "Y", "Z")
CREATED = "%L"
"""A dummy that a macro has last, if it has one that stands for a new name."""
CONDITIONS = ("IFE", "IFN", "IFG", "IFL", "IFGE", "IFLE")
TESTS = ("IFDEF", "IFNDEF")
OPERATIONS = ("MOVE", "MOVEM", "ADDI", "CAIE", "JRST", "SKIPN", "HRLZI", "TRNE", "ASH", "SETZM")
DEEPEST = 3
"""So many bodies are one inside another at most."""


class Maker:
    """Makes one source. `macros` has the dummies of each macro that is defined by now, and `labels` the labels."""

    def __init__(self, chance):
        self.chance, self.macros, self.labels, self.names = chance, {}, [], 0

    def one(self, *choices):
        """Gives one of these, some of which are calls that make a text."""
        chosen = self.chance.choice(choices)
        return chosen() if callable(chosen) else chosen

    def number(self):
        return self.one("0", "1", "2", "3", "7", "10", "17", "777", "^D19", "^B101", "4.")

    def value(self, dummies=()):
        """Gives an expression, often one with a dummy where there is any."""
        if dummies and self.chance.random() < 0.5:
            return self.chance.choice(dummies)
        symbol = self.chance.choice(SYMBOLS)
        signs = (f"{symbol}{self.chance.choice('+-*&!')}{self.number()}", f"<{self.number()}+{symbol}>")
        return self.one(self.number, self.number, symbol, *signs, *self.labels[-2:], '"K"')

    def literal(self, dummies):
        content = self.one(self.number(), f"EXP {self.value(dummies)}", f"{self.number()},,{self.number()}", "ASCIZ/OK/", "SIXBIT/GO/")
        return f"[{content}]"

    def instruction(self, dummies):
        address = self.one(self.value(dummies), self.literal(dummies), f"@{self.value(dummies)}", f"{self.number()}(1)")
        return f"\t{self.chance.choice(OPERATIONS)}\t{self.chance.randint(0, 7)},{address}"

    def data(self, dummies):
        value = self.value(dummies)
        return self.one(f"\tEXP {value},{self.number()}", f"\tXWD {value},{self.number()}", f"\t{value}", "\tOCT 1,-2", "\tDEC 9,10", "\tASCIZ /A B/", "\tBLOCK 2")

    def assignment(self, dummies):
        return f"{self.chance.choice(SYMBOLS)}{self.one('=', '==')}{self.value(dummies)}"

    def condition(self, depth, dummies):
        body, value = self.body(depth + 1, dummies), self.value(dummies)
        known = self.one(*SYMBOLS, "MOVE", "NOWHERE", *self.labels[-1:])
        head = self.one(
            f"{self.chance.choice(CONDITIONS)} {value},",
            f"{self.chance.choice(TESTS)} {known},",
            f"{self.one('IFIDN', 'IFDIF')} <{value}>,<{self.value(dummies)}>,",
            f"{self.one('IFB', 'IFNB')} <{self.one('', value)}>,",
            f"{self.one('IF1', 'IF2')},",
        )
        return f"{head}<{body}>"

    def repetition(self, depth, dummies):
        return f"REPEAT {self.one('0', '1', '2', '3', *dummies)},<{self.body(depth + 1, dummies)}>"

    def rounds(self, depth, dummies):
        """Gives an IRP or an IRPC, where there is a dummy; in some of them STOPI ends the rounds."""
        if not dummies:
            return self.data(dummies)
        kind, over = self.one("IRP", "IRPC"), self.chance.choice(dummies)
        stop = self.one("", "", "\n\tSTOPI\n", f"\nIFIDN <{over}>,<{self.number()}>,<STOPI>\n", f"\nIFE {self.value(dummies)},<\tSTOPI\n>")
        before, behind = (stop, "") if self.chance.random() < 0.3 else ("", stop)
        name = self.one(over, over, f"({over})")
        return f"{kind} {name},<{before}{self.body(depth + 1, dummies)}{behind}>"

    def call(self, dummies):
        if not self.macros:
            return self.data(dummies)
        name, own = self.chance.choice(sorted(self.macros.items()))
        arguments = ",".join(self.argument(dummies) for it in own if it != CREATED)
        if CREATED in own and self.chance.random() < 0.1:
            self.names += 1
            arguments += f",N{self.names}"
        return f"\t{name} {self.one(arguments, f'({arguments})')}" if own else f"\t{name}"

    def argument(self, dummies):
        numbers = [self.number() for _ in range(self.chance.randint(2, 4))]
        return self.one(self.value(dummies), f"<{','.join(numbers)}>", f"<{', '.join(numbers)}>", f"<<{numbers[0]}>,{numbers[1]}>", f"\\{numbers[0]}", "<>", "", "")

    def statement(self, depth, dummies):
        kinds = [self.data, self.data, self.instruction, self.instruction, self.assignment, self.call]
        nested = [self.condition, self.condition, self.repetition, self.rounds] if depth < DEEPEST else []
        kind = self.chance.choice([*kinds, *nested])
        line = kind(depth, dummies) if kind in nested else kind(dummies)
        return line + self.one("", "", "", " ;WORDS")

    def body(self, depth, dummies):
        lines = "\n".join(self.statement(depth, dummies) for _ in range(self.chance.randint(1, 2)))
        return self.one(lines, f"\n{lines}\n")

    def definition(self):
        name, dummies = f"M{len(self.macros)}", DUMMIES[: self.chance.randint(0, 3)]
        written = [it + self.one("", "", f"<{self.number()}>", f" <{self.number()},{self.number()}>") for it in dummies]
        if self.chance.random() < 0.3:
            dummies, written = (*dummies, CREATED), [*written, CREATED]
        body = self.body(1, dummies)
        label = f"\n{CREATED}:" if CREATED in dummies else ""
        self.macros[name] = dummies
        return f"DEFINE {name}{self.one('', ' ')}({','.join(written)})<{label}{body}>"

    def label(self):
        self.labels.append(f"L{len(self.labels)}")
        return f"{self.labels[-1]}:{self.data(())}"

    def source(self):
        lines = [f"{it}={self.number()}" for it in SYMBOLS]
        for _ in range(self.chance.randint(4, 14)):
            lines.append(self.one(self.definition, self.label, lambda: self.statement(0, ()), lambda: self.statement(0, ())))
        return "\n".join([*lines, f"\tEND{self.one('', *(f' {it}' for it in self.labels[:1]))}", ""])
