"""A small model of MyHDL's run, in plain Python.

Sources import it in the place of MyHDL, so that Python itself executes them. It says what signals, generators and a
run do, as docs/designs.md has it, and knows no refusals. What a run takes from it is `run`, which does the first run
that a source has asked for.
"""
import ast
import inspect
import sys
import textwrap

__all__ = [
    "block", "instance", "instances", "always", "always_comb", "always_seq", "Signal", "ResetSignal", "intbv",
    "modbv", "enum", "concat", "delay", "now", "downrange", "StopSimulation",
]

DELTA_LIMIT = 10_000


class Clock:
    time = 0


class StopSimulation(Exception):
    pass


class Fault(Exception):
    """A fault of a run: the words of its error line, and its numbers there."""

    def __init__(self, words, numbers):
        super().__init__(words)
        self.words, self.numbers = words, numbers


def outside(words, value, low, high):
    return Fault(words, f" value {value} low {low} high {high}")


def width_of(low, high):
    """The least width of at least 1 that holds both ends, with a sign where one is negative."""
    if low >= 0:
        return max(1, high.bit_length())
    return max((-low - 1).bit_length(), max(high, 0).bit_length()) + 1


def plain(value):
    """The number, truth value or item that an operand stands for."""
    return value.current if isinstance(value, Operand) else value


def taken(value, variable):
    """What a variable holds after it was given a number."""
    low, high = variable.low, variable.high
    if low is None or low <= value <= high:
        return value
    if not variable.wraps:
        raise outside("X1 Range", int(value), low, high)
    return (value - low) % (high - low + 1) + low


def ends_of(key, width):
    """Where the bits begin and end that an index or a slice names."""
    if not isinstance(key, slice):
        place = int(plain(key))
        if not 0 <= place < width:
            raise outside("X2 Index", place, 0, width - 1)
        return place, place + 1
    high = int(plain(key.start))
    low = 0 if key.stop is None else int(plain(key.stop))
    if not 0 <= low < width:
        raise outside("X2 Index", low, 0, width - 1)
    if not low < high <= width:
        raise outside("X2 Index", high, low + 1, width)
    return low, high


def with_part(variable, before, key, value):
    """What a variable holds after a bit or a slice of what it held before was given a value."""
    low, high = ends_of(key, variable.width)
    value = int(plain(value))
    if not 0 <= value < 1 << high - low:
        raise outside("X1 Range", value, 0, (1 << high - low) - 1)
    return taken(int(before) & ~((1 << high - low) - 1 << low) | value << low, variable)


def divided(does):
    def checked(a, b):
        if b <= 0:
            raise Fault("X4 Divide", f" value {int(b)}")
        return does(a, b)
    return checked


class Operand:
    """What operators read: `current` is its value, and `low` and `high` are its ends, where it has some."""

    low = high = None
    wraps = False
    __hash__ = object.__hash__

    def __bool__(self):
        return bool(self.current)

    def __int__(self):
        return int(self.current)

    __index__ = __int__

    def __len__(self):
        return self.width

    @property
    def width(self):
        return width_of(self.low, self.high)

    @property
    def min(self):
        return self.low

    @property
    def max(self):
        return self.high + 1

    def __getitem__(self, key):
        low, high = ends_of(key, self.width)
        part = int(self.current) >> low & (1 << high - low) - 1
        return intbv(part)[high - low:] if isinstance(key, slice) else bool(part)

    def __invert__(self):
        return intbv(~int(self.current))[self.width:]

    def __neg__(self):
        return -plain(self)

    def __pos__(self):
        return +plain(self)

    def signed(self):
        value = int(self.current)
        return value - (1 << self.width) if self.low >= 0 and value >> self.width - 1 else value


class intbv(Operand):
    def __init__(self, value, min=None, max=None):
        if min is not None:
            self.low, self.high = min, max - 1
        self.current = taken(int(plain(value)), self)

    def __getitem__(self, key):
        if self.low is None:
            return type(self)(self.current % (1 << key.start), min=0, max=1 << key.start)
        return super().__getitem__(key)

    def __setitem__(self, key, value):
        if isinstance(key, slice) and key.start is None:
            self.current = taken(int(plain(value)), self)
        else:
            self.current = with_part(self, self.current, key, value)

    def assigned(self, value):
        """An augmented assignment keeps the variable and its ends."""
        self[:] = value
        return self


class modbv(intbv):
    wraps = True


def give_operators():
    """Each operator on operands is Python's on what they stand for."""
    computing = {
        "add": lambda a, b: a + b, "sub": lambda a, b: a - b, "mul": lambda a, b: a * b,
        "floordiv": divided(lambda a, b: a // b), "mod": divided(lambda a, b: a % b),
        "lshift": lambda a, b: a << b, "rshift": lambda a, b: a >> b,
        "and": lambda a, b: a & b, "or": lambda a, b: a | b, "xor": lambda a, b: a ^ b,
    }
    comparing = {
        "eq": lambda a, b: a == b, "ne": lambda a, b: a != b, "lt": lambda a, b: a < b,
        "le": lambda a, b: a <= b, "gt": lambda a, b: a > b, "ge": lambda a, b: a >= b,
    }
    for name, does in {**computing, **comparing}.items():
        setattr(Operand, f"__{name}__", lambda self, other, does=does: does(plain(self), plain(other)))
    for name, does in computing.items():
        setattr(Operand, f"__r{name}__", lambda self, other, does=does: does(plain(other), plain(self)))
        setattr(intbv, f"__i{name}__", lambda self, other, does=does: self.assigned(does(plain(self), plain(other))))


give_operators()


class Edge:
    def __init__(self, signal, rising):
        self.signal, self.rising = signal, rising


class Pending:
    """What `s.next` is where a part of it is assigned."""

    def __init__(self, signal):
        self.signal = signal

    def __setitem__(self, key, value):
        self.signal.pending = with_part(self.signal, self.signal.pending, key, value)


class Signal(Operand):
    every = []

    def __init__(self, value):
        if isinstance(value, intbv):
            self.low, self.high, self.wraps = value.low, value.high, value.wraps
        elif isinstance(value, bool):
            self.low, self.high = 0, 1
        self.first = self.current = self.pending = plain(value)
        Signal.every.append(self)

    @property
    def next(self):
        return Pending(self)

    @next.setter
    def next(self, value):
        value = taken(plain(value), self)
        self.pending = bool(value) if isinstance(self.first, bool) else value

    @property
    def posedge(self):
        return Edge(self, True)

    @property
    def negedge(self):
        return Edge(self, False)


class ResetSignal(Signal):
    def __init__(self, value, active, isasync):
        super().__init__(bool(value))
        self.active, self.isasync = bool(active), bool(isasync)


def enum(*names, encoding="binary"):
    """A type whose items are equal to themselves alone."""
    return type("Enum", (), {name: object() for name in names})


def concat(*parts):
    value = width = 0
    for part in parts:
        size = 1 if isinstance(part, bool) else part.width
        value = value << size | int(plain(part)) % (1 << size)
        width += size
    return intbv(value)[width:]


class delay:
    def __init__(self, time):
        self.time = int(plain(time))


def now():
    return Clock.time


def downrange(start, stop=0, step=1):
    """The numbers from one below `start` down to `stop`."""
    return range(start - 1, stop - 1, -step)


class Generator:
    """A Python generator that yields what it waits for."""

    def __init__(self, body):
        self.body, self.waits, self.since = body, None, 0

    def has_happened(self, wait, before):
        """What it waits for has come, with these values of the signals before the last delta."""
        if isinstance(wait, delay):
            return self.since + wait.time <= Clock.time
        if isinstance(wait, Edge):
            return bool(wait.signal.current) == wait.rising != bool(before[wait.signal])
        return bool(before[wait] != wait.current)

    def is_woken(self, before):
        return self.waits is not None and any(self.has_happened(wait, before) for wait in self.waits)

    def ends(self):
        """The ends of its delays that lie ahead."""
        found = [self.since + wait.time for wait in self.waits or () if isinstance(wait, delay)]
        return [end for end in found if end > Clock.time]


def instance(function):
    return Generator(function())


def always(*waits):
    def marked(function):
        def body():
            while True:
                yield waits
                function()
        return Generator(body())
    return marked


class Accesses(ast.NodeVisitor):
    """The signals that a function reads, and those that it drives, in order of text."""

    def __init__(self, function):
        self.names = dict(function.__globals__)
        cells = (cell.cell_contents for cell in function.__closure__ or ())
        self.names.update(zip(function.__code__.co_freevars, cells))
        self.reads, self.drives = [], []
        for statement in ast.parse(textwrap.dedent(inspect.getsource(function))).body[0].body:
            self.visit(statement)

    def add(self, places, name):
        found = self.names.get(name)
        for signal in found if isinstance(found, list) else [found]:
            if isinstance(signal, Signal) and not any(signal is other for other in places):
                places.append(signal)

    def visit_Name(self, node):
        self.add(self.reads, node.id)

    def visit_Attribute(self, node):
        if node.attr == "next" and isinstance(node.value, ast.Subscript):
            self.add(self.drives, node.value.value.id)
            self.visit(node.value.slice)
        elif node.attr == "next":
            self.add(self.drives, node.value.id)
        elif node.attr not in ("min", "max"):
            self.visit(node.value)

    def visit_Call(self, node):
        if not (isinstance(node.func, ast.Name) and node.func.id == "len"):
            self.generic_visit(node)


def always_comb(function):
    reads = Accesses(function).reads

    def body():
        while True:
            function()
            yield tuple(reads)
    return Generator(body())


def always_seq(edge, reset):
    def marked(function):
        drives = Accesses(function).drives
        waits = (edge,) if reset is None or not reset.isasync else (edge, Edge(reset, reset.active))

        def body():
            while True:
                yield waits
                if reset is not None and reset.current == reset.active:
                    for signal in drives:
                        signal.pending = signal.first
                else:
                    function()
        return Generator(body())
    return marked


class Instance:
    """What calling a block gives; `asked` has the runs that were asked for."""

    asked = []

    def __init__(self, parts):
        self.parts = parts

    def generators(self):
        found = []
        for part in self.parts:
            found += [part] if isinstance(part, Generator) else part.generators()
        return found

    def run_sim(self, time=1_000_000):
        Instance.asked.append((self, time))


def parts_of(values):
    """The instances and generators among these, each once."""
    found = []
    for value in values:
        if isinstance(value, (Instance, Generator)) and not any(value is other for other in found):
            found.append(value)
    return found


def block(function):
    def made(*arguments, **named):
        answer = function(*arguments, **named)
        return Instance(parts_of(answer if isinstance(answer, (list, tuple)) else [answer]))
    return made


def instances():
    found = []
    for value in sys._getframe(1).f_locals.values():
        found += value if isinstance(value, (list, tuple)) else [value]
    return parts_of(found)


def line_of(error, path):
    """The line of the statement at which an error came: of an `if` with its `elif`s that of the `if`."""
    trace, line = error.__traceback__, 0
    while trace is not None:
        if trace.tb_frame.f_code.co_filename == path:
            line = trace.tb_lineno
        trace = trace.tb_next
    with open(path, encoding="ascii") as file:
        lines = [""] + file.read().split("\n")
    indent = len(lines[line]) - len(lines[line].lstrip())
    while len(lines[line]) - len(lines[line].lstrip()) != indent or lines[line].lstrip().startswith("elif "):
        line -= 1
    return line


class Run:
    """The run of a design, whose generators stand in order of elaboration."""

    def __init__(self, generators, path):
        self.generators, self.path = generators, path
        self.woken, self.deltas = list(generators), 0

    def evaluate(self, generator):
        """Answers the words of its fault, or None."""
        generator.waits = None
        at = f"time {Clock.time} line"
        try:
            waits = next(generator.body)
        except StopIteration:
            return None
        except Fault as fault:
            return f"{fault.words} {at} {line_of(fault, self.path)}{fault.numbers}"
        except AssertionError as fault:
            return f"X3 Assert {at} {line_of(fault, self.path)}"
        except ZeroDivisionError as fault:
            return f"X4 Divide {at} {line_of(fault, self.path)} value 0"
        generator.waits = waits if isinstance(waits, tuple) else (waits,)
        generator.since = Clock.time
        return None

    def wake(self, before):
        self.woken = [generator for generator in self.generators if generator.is_woken(before)]

    def delta(self):
        """Answers the words of its fault, or None."""
        if self.deltas == DELTA_LIMIT:
            return f"X7 DeltaLimit time {Clock.time} count {DELTA_LIMIT}"
        self.deltas += 1
        for generator in self.woken:
            fault = self.evaluate(generator)
            if fault:
                return fault
        before = {signal: signal.current for signal in Signal.every}
        for signal in Signal.every:
            signal.current = signal.pending
        self.wake(before)
        return None

    def times(self, limit):
        """Answers the words of its fault, or None."""
        while True:
            while self.woken:
                fault = self.delta()
                if fault:
                    return fault
            ends = [end for generator in self.generators for end in generator.ends()]
            if not ends or min(ends) > limit:
                return None
            Clock.time, self.deltas = min(ends), 0
            self.wake({signal: signal.current for signal in Signal.every})


def run(path):
    """Does the first run that the source of this path asked for, and answers the words of its fault, or None."""
    top, limit = Instance.asked[0]
    try:
        return Run(top.generators(), path).times(limit)
    except StopSimulation:
        return None
