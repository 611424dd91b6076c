"""Random sources of benches that break no rule of elaboration, for comparing what they print.

`source(seed)` is always the same for one seed. Numbers stay small, so that none leaves 128 bits. Faults of a run
come, but rarely, so that most runs go on for some time.
"""
import random


class Variable:
    """A name that expressions read: its kind, and where it is a number or a list of numbers its ends.

    The kinds are `truth`, `integer`, `item` and `bits` of signals, `words` and `flags` of lists of signals, `table`,
    `held` and `made` of locals without and with ends, `flag` of locals that are truth values, and `fixed` of constants
    with ends. An `@always_comb` reads what has a lower rank than what it drives.
    """

    def __init__(self, name, kind, low=0, high=1, wraps=False, length=0, rank=0):
        self.name, self.kind, self.low, self.high, self.wraps = name, kind, low, high, wraps
        self.length, self.rank = length, rank

    @property
    def width(self):
        if self.low >= 0:
            return max(1, self.high.bit_length())
        return max((-self.low - 1).bit_length(), max(self.high, 0).bit_length()) + 1

    @property
    def is_full(self):
        """Each pattern of its bits is one of its values."""
        return self.high - self.low + 1 == 1 << self.width

    def like(self):
        return self.kind, self.low, self.high, self.wraps

    def made(self, chance):
        """A bounded number with these ends."""
        name = "modbv" if self.wraps else "intbv"
        first = chance.randrange(self.low, self.high + 1)
        if self.low == 0 and self.is_full and chance.random() < 0.7:
            return f"{name}({first})[{self.width}:]"
        return f"{name}({first}, min={self.low}, max={self.high + 1})"

    def first(self, chance):
        """The argument of `Signal` for a signal, or an element of a list, of this kind."""
        if self.kind in ("truth", "flags"):
            return f"bool({chance.randrange(2)})"
        if self.kind == "integer":
            return str(chance.randrange(100))
        if self.kind == "item":
            return f"State.{chance.choice('ABC')}"
        return self.made(chance)


def bounded(chance, name, kind, length=0, rank=0):
    wraps = chance.random() < 0.4
    width = chance.randrange(1, 9)
    low = chance.randrange(-20, 20)
    low, high = chance.choice([
        (0, (1 << width) - 1), (0, (1 << width) - 1), (-(1 << width - 1), (1 << width - 1) - 1), (low, low + chance.randrange(1, 60)),
    ])
    return Variable(name, kind, low, high, wraps, length, rank)


def literal(chance, most):
    number = chance.randrange(most)
    return chance.choice([str(number), str(number), str(number), hex(number), bin(number)])


class Function:
    """Writes a function of integers, which elaboration calls. `others` has the names that it may call, each with the
    least and the greatest number of arguments."""

    def __init__(self, chance, others):
        self.chance, self.others, self.lines, self.names, self.count = chance, others, [], [], 0

    def integer(self, depth):
        c = self.chance
        if depth <= 0 or c.random() < 0.2:
            return c.choice(self.names) if self.names and c.random() < 0.7 else literal(c, 30)
        a, b = self.integer(depth - 1), self.integer(depth - 1)
        way = c.randrange(10)
        if way < 3:
            return f"({a} {c.choice('+-*')} {b})"
        if way == 3:
            return f"({a} {c.choice(['//', '%'])} {c.randrange(1, 9)})"
        if way == 4:
            return f"({a} {c.choice('&|^')} {b})"
        if way == 5:
            return f"({a} {c.choice(['<<', '>>'])} {c.randrange(4)})"
        if way == 6 and self.others:
            name, least, most = c.choice(self.others)
            return f"{name}({', '.join(self.integer(0) for _ in range(c.randrange(least, most + 1)))})"
        if way == 7:
            return f"int({self.truth(depth - 1)})"
        if way == 8:
            return f"int({c.choice(['intbv', 'modbv'])}({a})[8:]{c.choice(['', '[5:2]', '[7:]', '[3]'])})"
        return f"(-{a})"

    def truth(self, depth):
        c = self.chance
        if depth <= 0 or c.random() < 0.5:
            return f"({self.integer(1)} {c.choice(['==', '!=', '<', '<=', '>', '>='])} {self.integer(1)})"
        if c.random() < 0.3:
            return f"(not {self.truth(depth - 1)})"
        return f"({self.truth(depth - 1)} {c.choice(['and', 'or'])} {self.truth(depth - 1)})"

    def add(self, indent, text):
        self.lines.append("    " * indent + text)

    def suite(self, indent, depth, in_loop, *also):
        """Statements that may read these names too."""
        self.names += also
        for _ in range(self.chance.randrange(1, 4)):
            self.statement(indent, depth, in_loop)
        for name in also:
            self.names.remove(name)

    def assignment(self, indent):
        c = self.chance
        names = [name for name in self.names if name.startswith("a")]
        way = c.random()
        if way < 0.6:
            self.add(indent, f"{c.choice(names)} {c.choice(['=', '+=', '-=', '^='])} ({self.integer(2)}) % {c.randrange(2, 90)}")
        elif way < 0.75:
            self.add(indent, f"a0, {names[-1]} = {self.integer(1)}, {self.integer(1)}")
        elif way < 0.85:
            self.add(indent, f"items[({self.integer(1)}) % len(items)] {c.choice(['=', '+='])} ({self.integer(1)}) % 50")
        elif way < 0.95:
            self.add(indent, f"items.append({self.integer(1)})")
        else:
            self.add(indent, f"same = items[({self.integer(0)}) % len(items)]")

    def statement(self, indent, depth, in_loop):
        c = self.chance
        way = c.random()
        if way < 0.4 or depth <= 0:
            self.assignment(indent)
        elif way < 0.65:
            self.add(indent, f"if {self.truth(1)}:")
            self.suite(indent + 1, depth - 1, in_loop)
            if c.random() < 0.4:
                self.add(indent, f"elif {self.truth(1)}:")
                self.suite(indent + 1, depth - 1, in_loop)
            if c.random() < 0.5:
                self.add(indent, "else:")
                self.suite(indent + 1, depth - 1, in_loop)
        elif way < 0.8:
            name = f"i{self.count}"
            self.count += 1
            over = c.choice([
                f"range({c.randrange(5)})", f"range({c.randrange(4)}, {c.randrange(9)}, 2)", f"range(5, {c.randrange(4)}, -1)",
                f"downrange({c.randrange(5)})", f"downrange(7, {c.randrange(3)}, 2)",
                f"({self.integer(1)}, {self.integer(1)}, {self.integer(0)})", f"[{self.integer(1)}, {self.integer(0)}]",
            ])
            self.add(indent, f"for {name} in {over}:")
            self.suite(indent + 1, depth - 1, True, name)
        elif way < 0.88:
            name = f"k{self.count}"
            self.count += 1
            self.add(indent, f"{name} = {c.randrange(5)}")
            self.add(indent, f"while {name} > 0:")
            self.add(indent + 1, f"{name} -= 1")
            self.suite(indent + 1, depth - 1, True, name)
        elif way < 0.93 and in_loop:
            self.add(indent, f"if {self.truth(1)}:")
            self.add(indent + 1, c.choice(["break", "continue"]))
        elif way < 0.96:
            self.add(indent, f"if {self.truth(1)}:")
            self.add(indent + 1, f"return {self.integer(1)}")
        else:
            self.add(indent, "pass")

    def write(self, name):
        c = self.chance
        count, defaults = c.randrange(1, 4), c.randrange(2)
        self.names = [f"a{k}" for k in range(count)]
        heads = self.names[:count - defaults] + [f"{x}={c.randrange(20)}" for x in self.names[count - defaults:]]
        self.add(0, f"def {name}({', '.join(heads)}):")
        self.add(1, f"items = [{self.integer(1)}, {self.integer(0)}]")
        self.suite(1, 2, False)
        self.add(1, f"return ({self.integer(1)} + items[0] - items[1]) % 1000")
        self.lines += ["", ""]
        return name, count - defaults, count


class Body:
    """Writes the body of a generator that reads these names and drives these targets. `waits` has what makes a wait,
    where it may have some."""

    def __init__(self, chance, names, targets, indent, waits=()):
        self.chance, self.names, self.targets, self.waits = chance, names, targets, waits
        self.indent, self.lines, self.locals, self.count = indent, [], [], 0

    def add(self, text):
        self.lines.append("    " * self.indent + text)

    def pick(self, *kinds):
        found = [v for v in self.names + self.locals if v.kind in kinds]
        return self.chance.choice(found) if found else None

    def base(self):
        """What has a width, with the variable whose ends it has, or None."""
        v = self.pick("bits", "words", "made", "fixed")
        if v is None:
            return None
        return (f"{v.name}[{self.place(v.length)}]" if v.kind == "words" else v.name), v

    def place(self, length):
        """A number below a length."""
        if self.chance.random() < 0.3:
            return literal(self.chance, length)
        return f"({self.integer(1)}) % {length}"

    def bit(self, v):
        """The number of a bit, rarely of one that may not be there."""
        known = self.pick("bits", "truth")
        if known is not None and self.chance.random() < 0.03:
            return f"(int({known.name}) + {self.integer(1)}) & {2 * v.width - 1}"
        return self.place(v.width)

    def ends(self, v):
        low = self.chance.randrange(v.width)
        return low, self.chance.randrange(low + 1, v.width + 1)

    def number(self, depth):
        return self.chance.choice([self.integer, self.integer, self.truth, self.bits])(depth)

    def integer(self, depth):
        c = self.chance
        if depth <= 0:
            v = self.pick("bits", "truth", "integer", "made", "held", "flag", "fixed")
            if v is None or c.random() < 0.3:
                return literal(c, 40)
            return v.name if v.kind in ("integer", "held") else f"int({v.name})"
        a, way = self.number(depth - 1), c.randrange(13)
        if way < 4:
            return f"({a} {c.choice('+-+-*')} {self.number(depth - 1)})"
        if way == 4:
            return f"({self.integer(depth - 1)} {c.choice('&|^')} {a})"
        if way == 5:
            return f"({a} {c.choice('&|^')} {self.integer(depth - 1)})"
        if way == 6:
            risky = self.pick("bits", "truth")
            divisor = f"({self.integer(depth - 1)} & 7) + 1" if risky is None or c.random() < 0.97 else f"{risky.name} & 3"
            return f"({a} {c.choice(['//', '%'])} ({divisor}))"
        if way == 7:
            return f"({a} {c.choice(['<<', '>>'])} ({self.number(depth - 1)} & 3))"
        if way == 8:
            return f"({c.choice('-+')}({self.integer(depth - 1)}))"
        base, table = self.base(), self.pick("table")
        if way == 9 and base is not None:
            # the width of an element of a list is known without its index, which Python would evaluate
            known = ["3"] if base[1].kind == "words" else [f"len({base[0]})", f"{base[0]}.min"]
            return c.choice([f"{base[0]}.signed()"] + known)
        if way == 10 and table is not None:
            return f"{table.name}[{self.place(table.length)}]"
        if way == 11:
            return "now()"
        return f"int({a})"

    def bits(self, depth):
        c = self.chance
        base = self.base()
        if base is None:
            return self.truth(depth)
        text, v = base
        way = c.randrange(4)
        if way == 0 and v.low >= 0:
            return f"(~{text})"
        if way == 1:
            low, high = self.ends(v)
            if c.random() < 0.2:
                return f"{text}[({self.integer(0)}) % {v.width - low} + {low + 1}:{low}]"
            return f"{text}[{high}:{low}]" if low or c.random() < 0.5 else f"{text}[{high}:]"
        if way == 2 and depth > 0:
            parts = [self.base()[0] if c.random() < 0.7 else self.truth(depth - 1) for _ in range(c.randrange(2, 4))]
            return f"concat({', '.join(part if 'and' not in part and 'or' not in part else f'bool({part})' for part in parts)})"
        return text

    def truth(self, depth):
        c = self.chance
        if depth <= 0:
            v = self.pick("truth", "flag")
            return v.name if v is not None else c.choice(["True", "False"])
        way = c.randrange(9)
        if way < 2:
            return f"({self.number(depth - 1)} {c.choice(['==', '!=', '<', '<=', '>', '>='])} {self.number(depth - 1)})"
        if way == 2:
            return f"(not {self.number(depth - 1)})"
        if way == 3:
            return f"({self.truth(depth - 1)} {c.choice(['and', 'or'])} {self.truth(depth - 1)})"
        if way == 4:
            return f"({self.truth(depth - 1)} {c.choice('&|^')} {self.truth(depth - 1)})"
        item, flags, base = self.pick("item"), self.pick("flags"), self.base()
        if way == 5 and item is not None:
            return f"({item.name} {c.choice(['==', '!='])} State.{c.choice('ABC')})"
        if way == 6 and flags is not None:
            return f"{flags.name}[{self.place(flags.length)}]"
        if way == 7 and base is not None:
            return f"{base[0]}[{self.bit(base[1])}]"
        return f"bool({self.number(depth - 1)})"

    def fitting(self, v):
        """A number for a variable, rarely one that may lie outside of its ends."""
        if v.wraps or self.chance.random() < 0.02:
            return self.number(2)
        number = f"({self.integer(2)}) % {v.high - v.low + 1}"
        return number if v.low == 0 else f"{number} {'-' if v.low < 0 else '+'} {abs(v.low)}"

    def part(self, text, v):
        """The assignment of a part."""
        if self.chance.random() < 0.5:
            return self.add(f"{text}[{self.bit(v)}] = {self.truth(1)}")
        low, high = self.ends(v)
        mask = (1 << high - low) - (self.chance.random() < 0.98)
        return self.add(f"{text}[{high}:{low}] = ({self.integer(1)}) & {mask}")

    def assignment(self):
        c = self.chance
        if not self.targets or self.locals and c.random() < 0.25:
            return self.local_assignment()
        v = c.choice(self.targets)
        text = f"{v.name}[{self.place(v.length)}].next" if v.length else f"{v.name}.next"
        if v.kind in ("truth", "flags"):
            return self.add(f"{text} = {self.truth(2) if c.random() < 0.8 else f'({self.integer(1)}) & 1'}")
        if v.kind == "integer":
            return self.add(f"{text} = ({self.integer(2)}) % 1000")
        if v.kind == "item":
            return self.add(f"{text} = State.{c.choice('ABC')}")
        if c.random() < 0.3 and (v.is_full and v.low == 0 or c.random() < 0.2):
            return self.part(text, v)
        return self.add(f"{text} = {self.fitting(v)}")

    def local_assignment(self):
        c = self.chance
        v = self.chance.choice([v for v in self.locals if v.rank == 0] or [None])
        way = c.randrange(4)
        if v is None:
            return self.add("pass")
        if v.kind == "held":
            return self.add(f"{v.name} = ({self.integer(2)}) % 97" if way else f"{v.name} {c.choice(['^', '+'])}= ({self.integer(1)}) % 7")
        if v.kind == "flag":
            return self.add(f"{v.name} = bool({self.truth(2)})")
        if way == 0 and v.wraps:
            return self.add(f"{v.name} {c.choice('+-*|^&')}= {self.number(1)}")
        if way == 1 and v.wraps:
            return self.part(v.name, v)
        return self.add(f"{v.name} = {v.made(c)}" if way == 2 else f"{v.name}[:] = {self.fitting(v)}")

    def suite(self, depth, size, also=None):
        self.indent += 1
        for _ in range(size):
            self.statement(depth)
        if also is not None:
            self.add(also)
        self.indent -= 1

    def loop(self, head, name, depth):
        """A loop with a variable that nothing else assigns."""
        c = self.chance
        self.add(head)
        self.locals.append(Variable(name, "held", rank=1))
        if head.startswith("while"):
            self.lines.append("    " * (self.indent + 1) + f"{name} = {name} - 1")
        self.suite(depth - 1, 2, f"if {self.truth(1)}: {c.choice(['break', 'continue'])}" if c.random() < 0.3 else None)
        self.locals.pop()

    def statement(self, depth):
        c = self.chance
        way = c.random()
        if depth <= 0 or way < 0.5:
            self.assignment()
        elif way < 0.75:
            self.add(f"if {self.number(2)}:")
            self.suite(depth - 1, c.randrange(1, 3))
            for _ in range(c.choice([0, 0, 1, 2])):
                self.add(f"elif {self.number(1)}:")
                self.suite(depth - 1, c.randrange(1, 3))
            if c.random() < 0.5:
                self.add("else:")
                self.suite(depth - 1, c.randrange(1, 3))
        elif way < 0.9:
            self.count += 1
            name = f"i{self.count}"
            turns = [
                f"range({c.randrange(4)})", f"range({c.randrange(3)}, {c.randrange(3, 6)})", f"range({c.randrange(3, 6)}, 0, -2)",
                f"downrange({c.randrange(1, 4)})", f"downrange(5, {c.randrange(4)})", f"range(({self.integer(1)}) & 3)",
            ]
            if c.random() < 0.7:
                self.loop(f"for {name} in {c.choice(turns)}:", name, depth)
            else:
                self.add(f"{name} = {c.randrange(4)}")
                self.loop(f"while {name} > 0:", name, depth)
        elif way < 0.95:
            self.add(f"print('p{c.randrange(100)}', {self.integer(2)}, now())")
        elif way < 0.953:
            self.add(f"assert {self.truth(2)}, 'no'")
        elif way < 0.99 and self.waits:
            self.add(f"yield {self.wait()}")
        else:
            self.assignment()

    def wait(self):
        c = self.chance
        return ", ".join(c.choice(self.waits)() for _ in range(c.choice([1, 1, 1, 2, 3])))

    def begin(self):
        """Locals, each assigned before all else."""
        c = self.chance
        for k in range(c.choice([0, 0, 1, 2, 3])):
            v = bounded(c, f"v{k}", "made")
            kind = c.choice(["made", "made", "held", "flag"])
            if kind == "made":
                self.add(f"{v.name} = {v.made(c)}")
            else:
                v = Variable(v.name, kind)
                self.add(f"{v.name} = {c.randrange(9) if kind == 'held' else c.choice(['True', 'False'])}")
            self.locals.append(v)

    def instance(self):
        c = self.chance
        way = c.random()
        if way < 0.9:
            self.add("while True:" if way < 0.6 else f"for t in range({c.randrange(1, 6)}):")
            # a `continue` stands in loops within this one alone, so that each of its turns has a wait
            self.suite(3, c.randrange(1, 4), f"yield {self.wait()}")
            self.suite(2, c.randrange(2))
        else:
            self.statement(3)
            self.add(f"yield {self.wait()}")
            self.add(c.choice(["pass", "pass", "raise StopSimulation()"]))


def generator(chance, name, kind, names, signals, indent):
    """The lines of a generator of a block with these signals."""
    c = chance
    writable = [v for v in signals if not v.name.startswith(("clk", "rst"))]
    targets = c.sample(writable, min(len(writable), c.randrange(1, 4)))
    truths = [v.name for v in signals if v.kind == "truth"] + [f"{v.name}[0]" for v in signals if v.kind == "flags"]
    changing = [f"{v.name}[{v.length - 1}]" if v.length else v.name for v in signals]

    def edge():
        return f"{c.choice(truths)}.{c.choice(['posedge', 'negedge'])}"

    waits = [edge, edge, lambda: c.choice(changing), lambda: f"delay({c.randrange(1, 9)})"]
    if kind == "comb":
        least = min(v.rank for v in targets)
        names = [v for v in names if (v.rank < least if c.random() < 0.97 else v not in targets) or v.kind in ("table", "fixed")]
        names = [v for v in names if v not in targets]
        head = "@always_comb"
    elif kind == "always":
        head = f"@always({', '.join(c.choice(waits)() for _ in range(c.choice([1, 1, 2])))})"
    elif kind == "seq":
        resets = [v.name for v in signals if v.name.startswith("rst")] + ["None"]
        head = f"@always_seq({edge()}, reset={c.choice(resets)})"
    else:
        head = "@instance"
    body = Body(c, names, targets, indent + 1, waits if kind == "instance" else ())
    body.begin()
    if kind == "instance":
        body.instance()
    else:
        for _ in range(c.randrange(1, 5)):
            body.statement(3)
    pad = "    " * indent
    return [f"{pad}{head}", f"{pad}def {name}():"] + body.lines + [""]


def constants(chance):
    """The lines before the blocks, and the names that they bind."""
    c = chance
    lines = ["from myhdl import *", "", "State = enum('A', 'B', 'C')", ""]
    functions, names = [], []
    for k in range(c.randrange(3)):
        function = Function(c, list(functions))
        functions.append(function.write(f"f{k}"))
        lines += function.lines
    call = Function(c, functions)
    for k in range(c.randrange(4)):
        lines.append(f"C{k} = ({call.integer(3)}) % 100")
        names.append(Variable(f"C{k}", "integer"))
    for k in range(c.randrange(3)):
        v = bounded(c, f"K{k}", "fixed")
        lines.append(f"{v.name} = {v.made(c)}")
        names.append(v)
    table = Variable("TABLE", "table", length=c.randrange(2, 9))
    if c.random() < 0.5:
        lines.append(f"TABLE = ({', '.join(str(c.randrange(-9, 99)) for _ in range(table.length))})")
    else:
        lines.append(f"rows = [({call.integer(2)}) % 77 - i for i in range({table.length - 1})]")
        lines.append("rows.append(3)")
        lines.append(f"TABLE = ({', '.join(f'rows[{k}]' for k in range(table.length))})")
    return lines + ["", ""], names + [table]


def cell(chance, number, names):
    """The lines of a block that others use, and its parameters."""
    c = chance
    parameters = [Variable("clk", "truth"), Variable("p0", "truth", rank=1)]
    parameters += [bounded(c, f"p{k}", "bits", rank=k + 1) for k in range(1, c.randrange(2, 5))]
    seen = parameters + names + [Variable("gain", "integer")]
    lines = ["@block", f"def cell{number}({', '.join(v.name for v in parameters)}, gain={c.randrange(9)}, mode='slow'):"]
    lines += generator(c, "first", c.choice(["comb", "always", "seq", "instance"]), seen, parameters, 1)
    if c.random() < 0.5:
        lines.append(f"    if {c.choice(['mode == ' + repr('fast'), 'gain > 4', 'gain % 2 == 1'])}:")
        lines += generator(c, "second", c.choice(["comb", "always"]), seen, parameters, 2)
        lines.append("        return first, second")
    lines.append(f"    return {c.choice(['first', '[first]', 'instances()'])}")
    return lines + ["", ""], parameters


class Bench:
    """Writes the block at the top."""

    def __init__(self, chance, names):
        self.chance, self.names, self.lines, self.signals, self.parts = chance, names, [], [], []
        self.clocks, self.resets = [], []

    def declare(self, v, text=None):
        first = text or f"Signal({v.first(self.chance)})"
        self.lines.append(f"    {v.name} = [{first} for _ in range({v.length})]" if v.length else f"    {v.name} = {first}")
        self.signals.append(v)
        return v

    def declare_all(self):
        c = self.chance
        for k in range(c.randrange(1, 3)):
            self.clocks.append(self.declare(Variable(f"clk{k}", "truth")))
        for k in range(c.randrange(3)):
            text = f"ResetSignal({c.randrange(2)}, active={c.randrange(2)}, isasync={c.choice(['True', 'False'])})"
            self.resets.append(self.declare(Variable(f"rst{k}", "truth"), text))
        for k in range(1, c.randrange(4, 10)):
            kind = c.choice(["truth", "bits", "bits", "bits", "integer", "item", "words", "flags"])
            length = c.randrange(1, 6) if kind in ("words", "flags") else 0
            self.declare(bounded(c, f"s{k}", kind, length, k) if kind in ("bits", "words") else Variable(f"s{k}", kind, length=length, rank=k))

    def use(self, name, number, parameters):
        """An instance of a block, some of its arguments by name."""
        c = self.chance
        given, used, by_name = [c.choice(self.clocks).name], [], False
        for v in parameters[1:]:
            fits = [s for s in self.signals if s.like() == v.like() and s.rank and s not in used]
            if fits and c.random() < 0.7:
                s = c.choice(fits)
            else:
                s = self.declare(Variable(f"x_{name}_{v.name}", v.kind, v.low, v.high, v.wraps, rank=90))
            used.append(s)
            by_name = by_name or c.random() < 0.2
            given.append(f"{v.name}={s.name}" if by_name else s.name)
        given += c.choice([[], [f"gain={c.randrange(9)}"], ["mode='fast'"], ["mode='fast'", f"gain={c.randrange(9)}"]])
        self.lines.append(f"    {name} = cell{number}({', '.join(given)})")
        self.parts.append(name)

    def drive(self):
        """Clocks and resets."""
        c = self.chance
        for v in self.clocks:
            self.lines += [f"    @always(delay({c.randrange(1, 5)}))", f"    def {v.name}_ticks():", f"        {v.name}.next = not {v.name}", ""]
            self.parts.append(f"{v.name}_ticks")
        for v in self.resets:
            self.lines += ["    @instance", f"    def {v.name}_falls():"]
            for _ in range(c.randrange(1, 4)):
                self.lines += [f"        yield delay({c.randrange(1, 12)})", f"        {v.name}.next = {c.randrange(2)}"]
            self.lines.append("")
            self.parts.append(f"{v.name}_falls")

    def watch(self):
        """Prints all values at each time."""
        shown = []
        for v in self.signals:
            if v.kind == "item":
                shown += [f"int({v.name} == State.{item})" for item in "AB"]
            else:
                shown += [f"int({v.name}[{k}])" for k in range(v.length)] if v.length else [f"int({v.name})"]
        self.lines += ["    @instance", "    def watch():", "        while True:", f"            print(now(), {', '.join(shown)})"]
        self.lines += ["            yield delay(1)", ""]
        self.parts.append("watch")

    def write(self, cells):
        c = self.chance
        self.declare_all()
        own = list(self.signals)
        for number, parameters in enumerate(cells):
            for turn in range(c.randrange(1, 3)):
                self.use(f"u{number}{turn}", number, parameters)
        self.drive()
        for k in range(c.randrange(1, 6)):
            kind = c.choice(["comb", "comb", "always", "seq", "instance", "instance"])
            self.lines += generator(c, f"g{k}", kind, own + self.names, own, 1)
            self.parts.append(f"g{k}")
        self.watch()
        c.shuffle(self.parts)
        parts = ", ".join(self.parts)
        self.lines.append(f"    return {c.choice([parts, f'[{parts}]', 'instances()'])}")


def source(seed):
    c = random.Random(seed)
    lines, names = constants(c)
    cells = []
    for number in range(c.choice([0, 1, 1, 2])):
        more, parameters = cell(c, number, names)
        lines += more
        cells.append(parameters)
    bench = Bench(c, names)
    bench.write(cells)
    lines += ["@block", "def bench():"] + bench.lines
    lines += ["", "", "b = bench()", f"b.run_sim({c.choice([0, 5, 20, 40, 40])})", ""]
    return "\n".join(lines)
