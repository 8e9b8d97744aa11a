"""A rule file's frames, read from documents 01 and 02 alone and from none of our code.

Only accepted files are read: limits are not tested, but every frame must end where its bytes do.

Expressions and conditions are tuples with the token first:
(0, constant), (1, item, column), (2 | 3 | 4, a, b), (5, step, a), (6, condition, a, b), (7, aggregate, a),
(0x10,), (0x11 | 0x12 | 0x13, a, b), (0x14, condition), (0x15 | 0x16, condition, condition), (0x17, relation, condition).
"""

from dataclasses import dataclass, field


@dataclass
class Table:
    rows: int
    key: list  # the key's columns, rising
    ranges: list  # (lo, hi) of each column

    def width(self):
        return len(self.ranges)


@dataclass
class ForeignKey:
    child: int
    parent: int
    pairs: list  # (child column, parent column)


@dataclass
class Select:
    """A basic view, or an aggregate one, which has a list of grouping columns and a having."""

    kind: str
    sources: list
    where: tuple
    select: list
    grouping: list = field(default_factory=list)
    having: tuple = (0x10,)

    def width(self):
        return len(self.select)


@dataclass
class Pair:
    """A union or an intersection."""

    kind: str
    left: int
    right: int
    columns: int

    def width(self):
        return self.columns


@dataclass
class RuleFile:
    tables: list
    foreign_keys: list
    relations: list  # tables and views, numbered together
    goal: int
    negative: bool

    def views(self):
        """The views, each with its relation's number."""
        return list(enumerate(self.relations))[len(self.tables) :]

    def database(self, k):
        """The tables of candidate k: the cells are digits, the first most significant."""
        ranges = [r for t in self.tables for _ in range(t.rows) for r in t.ranges]
        cells = []
        for lo, hi in reversed(ranges):
            k, digit = divmod(k, hi - lo + 1)
            cells.append(lo + digit)
        take = iter(reversed(cells))
        return [[tuple(next(take) for _ in t.ranges) for _ in range(t.rows)] for t in self.tables]


class Bytes:
    """The bytes of one frame, taken from the left."""

    def __init__(self, line):
        self.rest = bytes.fromhex(line)

    def byte(self):
        first, self.rest = self.rest[0], self.rest[1:]
        return first

    def bytes(self, count):
        return [self.byte() for _ in range(count)]

    def word(self):
        return self.byte() * 256 + self.byte()

    def signed(self):
        word = self.word()
        return word - 65536 if word >= 32768 else word

    def end(self):
        if self.rest:
            raise ValueError(f"{len(self.rest)} bytes too many in a frame")

    def expression(self):
        token = self.byte()
        if token == 0:
            return (token, self.signed())
        if token == 1:
            return (token, self.byte(), self.byte())
        if token in (2, 3, 4):
            return (token, self.expression(), self.expression())
        if token == 5:
            return (token, self.word(), self.expression())
        if token == 6:
            return (token, self.condition(), self.expression(), self.expression())
        if token == 7:
            return (token, self.byte(), self.expression())
        raise ValueError(f"token {token:02x} for an expression")

    def condition(self):
        token = self.byte()
        if token == 0x10:
            return (token,)
        if token in (0x11, 0x12, 0x13):
            return (token, self.expression(), self.expression())
        if token == 0x14:
            return (token, self.condition())
        if token in (0x15, 0x16):
            return (token, self.condition(), self.condition())
        if token == 0x17:
            return (token, self.byte(), self.condition())
        raise ValueError(f"token {token:02x} for a condition")


def read_table(frame):
    rows, columns, mask = frame.bytes(3)
    key = [column for column in range(columns) if mask >> column & 1]
    return Table(rows, key, [(frame.signed(), frame.signed()) for _ in range(columns)])


def read_foreign_key(frame):
    child, parent, count = frame.bytes(3)
    return ForeignKey(child, parent, [(frame.byte(), frame.byte()) for _ in range(count)])


def read_basic(frame):
    sources = frame.bytes(frame.byte())
    count = frame.byte()
    where = frame.condition()
    return Select("basic", sources, where, [frame.expression() for _ in range(count)])


def read_aggregate(frame):
    sources = frame.bytes(frame.byte())
    grouped, count = frame.bytes(2)
    where = frame.condition()
    grouping = [(frame.byte(), frame.byte()) for _ in range(grouped)]
    having = frame.condition()
    select = [frame.expression() for _ in range(count)]
    return Select("aggregate", sources, where, select, grouping, having)


def read_pair(kind, frame, relations):
    left, right = frame.bytes(2)
    return Pair(kind, left, right, relations[left].width())


def read_relation(kind, frame, relations):
    if kind == 1:
        return read_table(frame)
    if kind == 3:
        return read_basic(frame)
    if kind == 4:
        return read_aggregate(frame)
    if kind in (5, 6):
        return read_pair({5: "union", 6: "intersection"}[kind], frame, relations)
    raise ValueError(f"frame kind {kind:02x}")


def read(lines):
    """The rule file of the lines of a text."""
    relations, foreign_keys = [], []
    for line in lines:
        frame = Bytes(line)
        kind = frame.byte()
        if kind == 7:
            goal, sign = frame.bytes(2)
        elif kind == 2:
            foreign_keys.append(read_foreign_key(frame))
        else:
            relations.append(read_relation(kind, frame, relations))
        frame.end()
    tables = [relation for relation in relations if isinstance(relation, Table)]
    return RuleFile(tables, foreign_keys, relations, goal, sign == 1)
