"""Judges sheet A from Python, first by its numbers and then by the bytes of its sheet, and holds what is answered to document 01.

    cc -shared -Wl,--whole-archive target/staticlib/libscreen.a -Wl,--no-whole-archive -o libscreen.so
    python3 include/example.py ./libscreen.so sheets/a.sheet
"""

import sys
from ctypes import CDLL, POINTER, Structure, c_int64, c_size_t, c_uint8, c_uint64, cast

library = CDLL(sys.argv[1])
with open(sys.argv[2], "rb") as file:
    sheet = file.read()


def record(*names):
    return type("Record", (Structure,), {"_fields_": [(name, c_uint64) for name in names]})


CallAnswer = record("code", "place", "first", "last")
ReadAnswer = record("code", "place", "regions", "sectors", "edges", "constraints", "flights", "visits")
WriteAnswer = record("code", "place", "bytes")
SalvageAnswer = record("code", "place", "lost")
Constraint = record("kind", "relation", "limit", "weight")

# The lists that are written to a first sheet, and to a second.
FIRST = ["workloads", "edges", "constraints", "colouring"]
SECOND = ["workloads", "outside", "edges", "counts", "visits", "constraints", "colouring"]


class List:
    """A lent list: a pointer and how many items there are."""

    def __init__(self, items, kind=c_uint64):
        self.kind, self.length = kind, len(items)
        self.items = (kind * len(items))(*items)
        self.pointer = cast(self.items, POINTER(kind))

    @classmethod
    def empty_at(cls, address, kind=c_uint64):
        empty = cls([], kind)
        empty.pointer = cast(address, POINTER(kind))
        return empty

    def __eq__(self, numbers):
        return list(self.items) == numbers


def ask(name, answer, *arguments):
    """Calls a function of the library, with the types that the header has for it."""
    function = getattr(library, name)
    function.restype, types, parts = answer, [], []
    for argument in arguments:
        is_list = isinstance(argument, List)
        types += [POINTER(argument.kind), c_size_t] if is_list else [c_uint64]
        parts += [argument.pointer, argument.length] if is_list else [argument]
    function.argtypes = types
    return function(*parts)


class Plan:
    """Sheet A, and the memory that is lent with it, in the order that the call takes them."""

    def __init__(self, **others):
        self.regions, self.sectors = 5, 2
        self.workloads = List([10, 20, 30, 25, 15])
        self.outside = List([0] * 5)
        self.edges = List([1, 2, 4, 2, 3, 6, 3, 4, 2, 4, 5, 3])
        self.counts, self.visits = List([]), List([])
        self.constraints = List([1, 3, 2, 100, 2, 1, 5, 1, 3, 1, 40, 2, 4, 1, 55, 3])
        self.colouring = List([1, 1, 1, 2, 2])
        self.moves, self.rows = List([]), List([], c_int64)
        self.verdicts = List([9] * 8)
        self.work = List([9] * 10)
        self.__dict__.update(others)

    def judge(self, by="sctr_call"):
        answer = ask(by, CallAnswer, *self.__dict__.values())
        return [answer.code, answer.place, answer.first, answer.last]

    def write(self, by, names, room):
        answer = ask(by, WriteAnswer, self.regions, self.sectors, *[getattr(self, name) for name in names], room)
        return [answer.code, answer.bytes]


def rows(*moves):
    plan = Plan(moves=List(moves), rows=List([0] * (len(moves) // 3 * 4), c_int64))
    assert plan.judge()[:3] == [0, 0, 15]
    return list(plan.rows.items)


plan = Plan()
assert plan.judge() == [0, 0, 15, 15]
assert plan.work == [1, 1, 1, 4, 4, 1, 1, 60, 40, 2]  # labels, component counts, workload sums, T
assert plan.verdicts == [1, 0, 1, 0, 1, 0, 0, 5]  # holds, violation
assert plan.colouring == [1, 1, 1, 2, 2]

deviation = Plan(constraints=List([3, 1, 0, 1]))
assert deviation.judge() == [0, 0, 40, 40]
assert deviation.verdicts == [0, 40] + [9] * 6  # what lies beyond stays as it was

assert rows(1, 2, 2) == [0, 307, 15, 0]
assert rows(2, 2, 2) == [0, 307, 322, 2]
assert rows(2, 3, 2) == [0, 111, 126, 3]
assert rows(4, 3, 4) == [0, 291, 306, 2]
assert rows(5, 3, 0, 5, 4, 0, 5, 5, 0) == [0, 57, 15, 0, 0, 42, 15, 0, 0, 40, 15, 0]
assert rows(1, 6, 1, 1, 5, 3, 9, 0, 0) == [22, 0, 15, 0, 23, 0, 15, 0, 21, 0, 15, 0]

records = List([Constraint(1, 3, 2, 100), Constraint(2, 1, 5, 1), Constraint(3, 1, 40, 2), Constraint(4, 1, 55, 3)], Constraint)
assert Plan(constraints=records).judge("sctr_call_records") == [0, 0, 15, 15]

assert Plan(workloads=List([10, 20, 30, 1_000_000, 15])).judge()[0] == 0
assert Plan(workloads=List([10, 20, 30, 1_000_001, 15])).judge() == [3, 4, 0, 0]
assert Plan(edges=List([1, 2, 4, 2, 2, 6])).judge() == [5, 2, 0, 0]

# An empty list may have any pointer. Each list in turn is empty, and is refused by its code or is not refused.
stored, room = List(sheet, c_uint8), List([0] * 8 * 512, c_uint8)
codes = {"workloads": 3, "outside": 14, "edges": 0, "counts": 0, "visits": 0, "constraints": 6, "colouring": 8}
codes.update({"moves": 0, "rows": 0, "verdicts": 11, "work": 12})
for address in [None, 1]:
    for name, code in codes.items():
        emptied = Plan(**{name: List.empty_at(address, getattr(plan, name).kind)})
        assert emptied.judge()[:2] == [code, 0]
        assert emptied.write("sctr_write", FIRST, room)[0] == (code if name in FIRST else 0)
        assert emptied.write("sctr_write_second", SECOND, room)[0] == (code if name in SECOND else 0)
    emptied = Plan(constraints=List.empty_at(address, Constraint))
    assert emptied.judge("sctr_call_records") == [6, 0, 0, 0]
    assert emptied.write("sctr_write_records", FIRST, room) == [6, 0]

    nothing, no_lists = List.empty_at(address, c_uint8), [List.empty_at(address)] * 7
    assert plan.write("sctr_write", FIRST, nothing) == plan.write("sctr_write_second", SECOND, nothing) == [40, 0]
    assert [ask("sctr_read", ReadAnswer, some, *no_lists).code for some in [stored, nothing]] == [39, 31]
    assert [ask("sctr_to_second", WriteAnswer, some, nothing).code for some in [stored, nothing]] == [40, 31]
    assert ask("sctr_to_first", WriteAnswer, nothing, room).code == 31
    assert [ask("sctr_salvage", SalvageAnswer, some, nothing, no_lists[0]).code for some in [stored, nothing]] == [40, 31]
    assert [ask(f"sctr_{name}", c_uint64, nothing) for name in ["code", "place", "total", "constraints"]] == [31, 0, 0, 0]
    assert [ask(f"sctr_{name}", c_uint64, nothing, 1) for name in ["holds", "violation"]] == [0, 0]

# Lists that are only read may overlap.
twice = Plan(outside=plan.workloads, workloads=plan.workloads)
assert twice.judge() == Plan(outside=List([10, 20, 30, 25, 15])).judge()

assert ask("sctr_code", c_uint64, stored) == 0
assert ask("sctr_total", c_uint64, stored) == 15
for place in range(1, ask("sctr_constraints", c_uint64, stored) + 1):
    holds, violation = ask("sctr_holds", c_uint64, stored, place), ask("sctr_violation", c_uint64, stored, place)
    assert [holds, violation] == plan.verdicts.items[2 * place - 2 : 2 * place]
    print(f"constraint {place}: {'holds' if holds else 'broken'}, violation {violation}")
print("total", ask("sctr_total", c_uint64, stored))

written = List([0] * len(sheet), c_uint8)
assert plan.write("sctr_write", FIRST, written) == [0, len(sheet)]
assert bytes(written.items) == sheet

second = List([0] * (len(sheet) + 512), c_uint8)
assert ask("sctr_to_second", WriteAnswer, stored, second).bytes == len(sheet) + 512
read = [List([9] * length) for length in [5, 5, 12, 0, 0, 16, 5]]
answer = ask("sctr_read", ReadAnswer, second, *read)
assert [answer.code, answer.regions, answer.sectors, answer.edges, answer.constraints, answer.flights] == [0, 5, 2, 4, 4, 0]
assert all(found == list(getattr(plan, name).items) for found, name in zip(read, SECOND))

# A byte of the colouring's only block is damaged: each region is lost, and is in sector 1 now.
spoiled = List(sheet[: 4 * 512 + 10] + b"\x09" + sheet[4 * 512 + 11 :], c_uint8)
salvaged, lost = List([0] * len(sheet), c_uint8), List([9] * 6)
assert ask("sctr_salvage", SalvageAnswer, spoiled, salvaged, List.empty_at(None)).code == 17
assert ask("sctr_salvage", SalvageAnswer, spoiled, salvaged, lost).lost == 5
assert lost == [1, 2, 3, 4, 5, 9]
assert [ask("sctr_code", c_uint64, some) for some in [spoiled, salvaged]] == [33, 0]
assert ask("sctr_salvage", SalvageAnswer, stored, salvaged, List([])).lost == 0
assert bytes(salvaged.items) == sheet
