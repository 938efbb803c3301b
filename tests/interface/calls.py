"""Calls of the C interface, each with all that it must leave: the number that it answers with and
what every pointer points to at exit, as the independent implementation gives them.
"""

import ctypes

from answers import answer, arguments, profile_of
from memory import Memory, Placed, region
from operations import LENT, TABLE, content, length_of, parameters, unit_of, value_in

# No call has more.
POINTERS = 8
STALE = 0xA5


def load(shared_object):
    library = ctypes.CDLL(shared_object)
    for operation in TABLE:
        types = []
        for parameter in parameters(operation):
            types.append(ctypes.c_uint32 if parameter.by_value else ctypes.c_void_p)
            types += [ctypes.c_size_t] * parameter.has_length
        function = getattr(library, f"zarosnik_{operation}")
        function.argtypes = types
        function.restype = ctypes.c_uint32
    return library


class Call:
    """An operation; what it is given, the number that it must answer with and what it must leave,
    by name, as in answers.py; and its arguments, numbers and memory. The causes are those that were
    laid on purpose, in the document's order; what it was drawn for beyond them is stated."""

    def __init__(self, operation, given, outcome, left, memory, shift):
        self.operation, self.given, self.outcome, self.left = operation, given, outcome, left
        self.memory, self.shift = memory, shift
        self.causes, self.stated = [], None

    def __str__(self):
        names = [p.name for p in self.parameters()]
        lines = [f"  {name} = {self.memory.get(name) or self.given[name]}" for name in names]
        head = f"zarosnik_{self.operation} must answer {self.outcome}"
        return "\n".join([head, *lines, f"  (memory shifted by {self.shift})"])

    def parameters(self):
        return parameters(self.operation)

    def profile(self):
        return profile_of(self.given)

    def place(self, shifts):
        """The arguments as the function takes them, and the memory laid out for them by name."""
        values, placed = [], {}
        for p in self.parameters():
            if p.by_value:
                values.append(self.given[p.name])
                continue
            memory, shift = self.memory[p.name], shifts[len(placed)]
            placed[p.name] = Placed(memory, region(len(placed), p.read_only), shift)
            values += [placed[p.name].address] + [memory.length] * p.has_length
        return values, placed

    def make(self, library):
        """Makes the call three times: all its memory ends at a page that must not be touched, then
        begins at one, then stands at any address. Answers with a line for each thing that is not as
        it must be."""
        wrong = []
        anywhere = [(self.shift + 7 * k) % 16 for k in range(POINTERS)]
        for shifts in ([None] * POINTERS, [0] * POINTERS, anywhere):
            values, placed = self.place(shifts)
            outcome = getattr(library, f"zarosnik_{self.operation}")(*values)
            if outcome != self.outcome:
                wrong.append(f"answer: expected {self.outcome}, got {outcome}")
            for name, memory in placed.items():
                wrong += [f"{name}: {line}" for line in memory.differences()]
        return wrong


def laid_out(operation, given, left, filling):
    """The memory of a call by name: what it is given, or, for an answer, anything of its size."""
    found = {}
    for name in (p.name for p in parameters(operation) if not p.by_value):
        after = content(name, left[name]) if name in left else None
        memory = given.get(name)
        if memory is None:
            memory = Memory(filling(len(after)), unit_of(name))
        elif not isinstance(memory, Memory):
            memory = Memory(content(name, memory), unit_of(name))
        found[name] = memory if after is None else memory.leave(after)
    return found


def call(pick, operation, thing=None, **given):
    """A call with the arguments that a profile, a key or a verifier stands for, and with others by
    name. A slice may be given as memory."""
    given = arguments(operation, thing, given)
    values = {name: v.value() if isinstance(v, Memory) else v for name, v in given.items()}
    outcome, left = answer(operation, values)
    memory = laid_out(operation, given, left, pick.randbytes)
    return Call(operation, values, outcome, left, memory, pick.randrange(16))


def by_name(library, operation, thing=None, **given):
    """Makes one call with no memory guarded: its answer, and what it leaves, by name. A slice that
    it may write is given as its length; what stands in it and in answers before is STALE."""
    given, values, written = arguments(operation, thing, given), [], {}
    for p in parameters(operation):
        if p.by_value:
            values.append(given[p.name])
            continue
        if p.name in given and p.name not in LENT[operation]:
            data = content(p.name, given[p.name])
        else:
            data = bytes([STALE]) * (unit_of(p.name) * given.get(p.name, length_of(p.name)))
        memory = (ctypes.c_uint8 * len(data)).from_buffer_copy(data)
        values.append(memory)
        values += [len(data) // unit_of(p.name)] * p.has_length
        if not p.read_only:
            written[p.name] = memory
    outcome = getattr(library, f"zarosnik_{operation}")(*values)
    return outcome, {name: value_in(name, bytes(memory)) for name, memory in written.items()}
