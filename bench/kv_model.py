"""A plain model of sessions over a database, by docs/LANGUAGE.md: what bench/compare and
bench/model_rows compare with. It was written from the rules and shares nothing with the program.

A state has for each table's number a dictionary from keys to rows, both tuples of values; a value
is an int, a `Text` or None. Everything is gone over whole. Truth is True, False or None for
Unknown. An operand is a name of a column, as a `Column`, or a value.
"""
import re
from dataclasses import dataclass

LEAST, GREATEST = -2**63, 2**63 - 1
MOST_KEYS = 4096
MOST_COLUMNS = 15
MOST_CHARACTERS = 200
MOST_KEY_BYTES, MOST_ROW_BYTES = 256, 1006
MOST_ENTRIES = 2**48
WINDOW_WRITES = 262_144
RECORD_HEAD = 13
DICTIONARY, SYSDB, MAIN = 6, 2, 4
BANK, TABLE, NEXT = 1, 2, 5  # kinds of rows of the dictionary
FIXED_FILES, MOST_COPIES = {SYSDB: [2, 3], MAIN: [4]}, 16
FIRST_NUMBER, LAST_NUMBER = 16, 2**32 - 1
A_NAME = re.compile(r"[A-Z][A-Z0-9_]{0,31}")


class Refused(Exception):
    """A statement is refused; the words are the reply."""


class Column(str):
    """A name where an operand stands."""


class Text(str):
    """A quoted text."""


@dataclass
class Test:
    sign: str
    left: object
    right: object


@dataclass
class IsNull:
    column: str
    negated: bool


@dataclass
class Not:
    part: object


@dataclass
class Both:
    word: str  # AND or OR
    parts: list


@dataclass
class Select:
    what: object  # "*", "COUNT", ("SUM", name) or a list of names
    table: str
    where: object


@dataclass
class Insert:
    table: str
    tuples: list


@dataclass
class Update:
    table: str
    sets: list  # (name, [(minus, operand), ..])
    where: object


@dataclass
class Delete:
    table: str
    where: object


@dataclass
class CreateTable:
    name: str
    columns: list  # (name, length or None for INTEGER, whether NOT NULL is said)
    key: list
    bank: str


@dataclass
class DropTable:
    name: str


@dataclass
class NotYet:
    """A definition that doesn't run."""
    text: str


@dataclass
class Table:
    number: int
    bank: int
    columns: list  # (name, 0 for INTEGER or the most characters, whether NULL isn't allowed)
    key: list      # the places of the key's columns, from 0, in key order

    def place(self, name):
        for place, column in enumerate(self.columns):
            if column[0] == name:
                return place
        raise Refused("NOCOLUMN")

    def kind(self, place):
        return Text if self.columns[place][1] else int

    def whole(self, key, row):
        """All values of a row, in the order of the columns."""
        values, rest = dict(zip(self.key, key)), iter(row)
        return [values[at] if at in values else next(rest) for at in range(len(self.columns))]

    def parts(self, values):
        """The key and the row of all values."""
        row = tuple(value for at, value in enumerate(values) if at not in self.key)
        return tuple(values[at] for at in self.key), row


# The dictionary: the rows of table 6, laid over the fixed objects.

KV = Table(5, MAIN, [("K", 0, True), ("V", 0, False)], [0])


def is_number(value, least, most):
    return type(value) is int and least <= value <= most


def described(row):
    """The table that a row of the dictionary tells of; None where it tells of none."""
    if len(row) < 3 or len(row) != 3 + 4 * (row[2] if type(row[2]) is int else -1):
        return None
    number, bank, count = row[:3]
    columns = [row[at:at + 4] for at in range(3, len(row), 4)]
    names = [column[0] for column in columns]
    if not (is_number(number, FIRST_NUMBER, 2**32 - 1) and is_number(bank, 2, 2**32 - 1)
            and 1 <= count <= MOST_COLUMNS and len(set(names)) == count):
        return None
    for name, kind, not_null, place in columns:
        if not (isinstance(name, Text) and A_NAME.fullmatch(name)
                and is_number(kind, 0, MOST_CHARACTERS) and is_number(not_null, 0, 1)
                and is_number(place, 0, MOST_COLUMNS)):
            return None
    places = sorted(column[3] for column in columns if column[3])
    if not places or places != list(range(1, len(places) + 1)):
        return None
    key = sorted((at for at in range(count) if columns[at][3]), key=lambda at: columns[at][3])
    return Table(number, bank, [(str(name), kind, bool(not_null) or place > 0)
                                for name, kind, not_null, place in columns], key)


def table_of(state, name):
    """The table of this name; None where there is none."""
    if name == "KV":
        return KV
    row = state.get(DICTIONARY, {}).get((TABLE, Text(name)))
    return described(row) if row and A_NAME.fullmatch(name) else None


def banks_of(state):
    """The databanks: of each name the number."""
    found, copies = {"SYSDB": SYSDB, "MAIN": MAIN}, list(FIXED_FILES[SYSDB])
    told = []
    for key, row in sorted(state.get(DICTIONARY, {}).items(), key=lambda it: key_order(it[0])):
        if len(key) != 2 or key[0] != BANK or not isinstance(key[1], Text) or len(row) != 3:
            continue
        name, (number, option, file) = str(key[1]), row
        is_main = name == "MAIN"
        if (A_NAME.fullmatch(name) and name != "SYSDB" and is_number(option, 1, 1)
                and is_number(number, MAIN if is_main else FIRST_NUMBER, 2**32 - 1)
                and (number == MAIN or not is_main) and is_number(file, 4, 2**32 - 1)):
            told.append((name, number, file))
    mains = [file for name, _, file in told if name == "MAIN"]
    copies += mains or FIXED_FILES[MAIN]
    for name, number, file in told:
        if name != "MAIN" and file not in copies and len(copies) < MOST_COPIES:
            found[name] = number
            copies.append(file)
    return found


def next_number(state):
    row = state.get(DICTIONARY, {}).get((NEXT, Text("NEXT")))
    if row and len(row) == 1 and is_number(row[0], FIRST_NUMBER, 2**32 - 1):
        return row[0]
    return FIRST_NUMBER


def define(statement, state):
    """The writes of a definition: of a key of the dictionary the new row, or None."""
    if isinstance(statement, DropTable):
        table = table_of(state, statement.name)
        if table is None:
            raise Refused("NOTABLE")
        if statement.name == "KV":
            raise Refused("FIXED")
        if state.get(table.number):
            raise Refused("NOTEMPTY")
        return {(TABLE, Text(statement.name)): None}
    bank = banks_of(state).get(statement.bank)
    names = [name for name, _, _ in statement.columns]
    if bank is None:
        raise Refused("NOBANK")
    if bank == SYSDB:
        raise Refused("FIXED")
    if table_of(state, statement.name) is not None or len(set(names)) < len(names):
        raise Refused("NAMETAKEN")
    if len(names) > MOST_COLUMNS or len(set(statement.key)) < len(statement.key):
        raise Refused("COLUMNCOUNT")
    if any(length is not None and not 1 <= length <= MOST_CHARACTERS
           for _, length, _ in statement.columns):
        raise Refused("TOOLONG")
    if not set(statement.key) <= set(names):
        raise Refused("NOCOLUMN")
    number = next_number(state)
    if number == LAST_NUMBER:
        raise Refused("NONUMBERLEFT")
    row = [number, bank, len(names)]
    for name, length, not_null in statement.columns:
        place = statement.key.index(name) + 1 if name in statement.key else 0
        row += [Text(name), length or 0, int(not_null), place]
    return {(TABLE, Text(statement.name)): tuple(row), (NEXT, Text("NEXT")): (number + 1,)}


# What a statement names, from left to right.

def kind(table, operand):
    """int, Text, or None for NULL, which is of each kind."""
    if isinstance(operand, Column):
        return table.kind(table.place(operand))
    return None if operand is None else type(operand)


def match(one, other):
    if one and other and one is not other:
        raise Refused("KINDMISMATCH")


def bind_predicate(table, predicate):
    if isinstance(predicate, Test):
        left = kind(table, predicate.left)
        match(left, kind(table, predicate.right))
    elif isinstance(predicate, IsNull):
        table.place(predicate.column)
    elif isinstance(predicate, Not):
        bind_predicate(table, predicate.part)
    elif isinstance(predicate, Both):
        for part in predicate.parts:
            bind_predicate(table, part)


def bind_sets(table, sets):
    seen = set()
    for name, terms in sets:
        place = table.place(name)
        if place in table.key:
            raise Refused("KEYCOLUMN")
        if name in seen:
            raise Refused("COLUMNCOUNT")
        seen.add(name)
        for _, operand in terms:
            part = kind(table, operand)
            if len(terms) > 1:
                match(part, int)
            match(part, table.kind(place))


def bind(table, statement):
    if isinstance(statement, Insert):
        for values in statement.tuples:
            if len(values) != len(table.columns):
                raise Refused("COLUMNCOUNT")
            for place, value in enumerate(values):
                match(table.kind(place), kind(table, value))
        return
    if isinstance(statement, Select) and isinstance(statement.what, tuple):
        match(table.kind(table.place(statement.what[1])), int)
    if isinstance(statement, Select) and isinstance(statement.what, list):
        for name in statement.what:
            table.place(name)
    if isinstance(statement, Update):
        bind_sets(table, statement.sets)
    bind_predicate(table, statement.where)


# What a row makes of a predicate and of an expression.

def order(value):
    return (0, value) if type(value) is int else (1, value.encode())


def key_order(key):
    return [order(value) for value in key]


def value_of(table, operand, values):
    return values[table.place(operand)] if isinstance(operand, Column) else operand


def compare(sign, left, right):
    if left is None or right is None:
        return None
    left, right = order(left), order(right)
    return {"=": left == right, "<>": left != right, "<": left < right, "<=": left <= right,
            ">": left > right, ">=": left >= right}[sign]


def truth(table, predicate, values):
    if predicate is None:
        return True
    if isinstance(predicate, Test):
        return compare(predicate.sign, value_of(table, predicate.left, values),
                       value_of(table, predicate.right, values))
    if isinstance(predicate, IsNull):
        return (values[table.place(predicate.column)] is None) != predicate.negated
    if isinstance(predicate, Not):
        part = truth(table, predicate.part, values)
        return None if part is None else not part
    parts = [truth(table, part, values) for part in predicate.parts]
    decides = predicate.word == "OR"
    if decides in parts:
        return decides
    return None if None in parts else not decides


def bounded(number):
    if not LEAST <= number <= GREATEST:
        raise Refused("OVERFLOW")
    return number


def worth(table, terms, values):
    parts = [value_of(table, operand, values) for _, operand in terms]
    if len(parts) == 1:
        return parts[0]
    if None in parts:
        return None
    return bounded(sum(-it if minus else it for (minus, _), it in zip(terms, parts)))


# What a statement reads: ranges of keys. A range has a table's number, the values with which its
# keys begin, and tests of the value behind them.

@dataclass
class Range:
    table: int
    prefix: tuple
    edges: list  # (sign, value)

    def contains(self, number, key):
        if number != self.table or key[:len(self.prefix)] != self.prefix:
            return False
        if not self.edges:
            return True
        return len(key) > len(self.prefix) and all(
            compare(sign, key[len(self.prefix)], value) for sign, value in self.edges)


FLIPPED = {"=": "=", "<>": "<>", "<": ">", "<=": ">=", ">": "<", ">=": "<="}


def tests(predicate):
    """The tests of a column with a value that ANDs alone join at the top."""
    if isinstance(predicate, Both) and predicate.word == "AND":
        return [test for part in predicate.parts for test in tests(part)]
    if isinstance(predicate, Test):
        sign, left, right = predicate.sign, predicate.left, predicate.right
        if isinstance(right, Column):
            sign, left, right = FLIPPED[sign], right, left
        if isinstance(left, Column) and not isinstance(right, Column) and right is not None:
            return [(str(left), sign, right)]
    return []


def range_of(table, predicate):
    found, prefix = tests(predicate), []
    names = [table.columns[at][0] for at in table.key]
    for name in names:
        points = [value for column, sign, value in found if (column, sign) == (name, "=")]
        if not points:
            edges = [(sign, value) for column, sign, value in found
                     if column == name and sign != "<>"]
            return Range(table.number, tuple(prefix), edges)
        prefix.append(points[0])
    return Range(table.number, tuple(prefix), [])


def reads(statement, state):
    """The ranges that a statement reads."""
    found = [Range(DICTIONARY, (TABLE, Text(statement.table)), [])]
    table = table_of(state, statement.table)
    try:
        if table is None:
            return found
        bind(table, statement)
    except Refused:
        return found
    if not isinstance(statement, Insert):
        return found + [range_of(table, statement.where)]
    keys = [table.parts(values)[0] for values in statement.tuples]
    return found + [Range(table.number, key, []) for key in keys if None not in key]


# Images: only how long they are, and how entries are written.

def image(value):
    if value is None:
        return b"\0"
    if type(value) is int:
        return b"\1" + value.to_bytes(8, "big", signed=True)
    text = value.encode()
    return b"\2" + len(text).to_bytes(2, "big") + text


def images(values):
    return b"".join(map(image, values))


def entry_image(session, writes):
    """The image of an entry with writes (databank, table, key, row), in their order."""
    parts = [bytes([session]), len(writes).to_bytes(2, "big")]
    for bank, table, key, row in writes:
        text = images(key)
        parts += [bank.to_bytes(4, "big"), table.to_bytes(4, "big"), len(text).to_bytes(2, "big"),
                  text]
        if row is None:
            parts.append(b"\0")
        else:
            text = images(row)
            parts += [b"\1", len(text).to_bytes(2, "big"), text]
    return b"".join(parts)


# What a statement does.

def check_row(table, values):
    """What refuses a new row by its values alone."""
    if any(value is None and not_null for value, (_, _, not_null) in zip(values, table.columns)):
        raise Refused("NULLNOTALLOWED")
    if any(isinstance(value, Text) and len(value) > most
           for value, (_, most, _) in zip(values, table.columns)):
        raise Refused("TOOLONG")
    key, row = table.parts(values)
    if len(images(key)) > MOST_KEY_BYTES:
        raise Refused("KEYTOOWIDE")
    if len(images(key)) + len(images(row)) > MOST_ROW_BYTES:
        raise Refused("ROWTOOWIDE")
    return key, row


def insert(table, statement, rows):
    writes = {}
    for values in statement.tuples:
        key, row = check_row(table, values)
        if key in rows or key in writes:
            raise Refused("DUPLICATE")
        writes[key] = row
    return writes


def update(table, statement, kept):
    writes = {}
    for key, values in kept:
        changed = list(values)
        for name, terms in statement.sets:
            changed[table.place(name)] = worth(table, terms, values)
        writes[key] = check_row(table, changed)[1]
    return writes


def told(table, what, kept):
    """The rows that a SELECT tells of the rows that it keeps."""
    if what == "COUNT":
        return [[len(kept)]]
    if isinstance(what, tuple):
        numbers = [values[table.place(what[1])] for values in kept]
        numbers = [number for number in numbers if number is not None]
        return [[bounded(sum(numbers)) if numbers else None]]
    if what == "*":
        return kept
    return [[values[table.place(name)] for name in what] for values in kept]


def execute(statement, state, written):
    """The table, the rows to be told or None, and the writes: of a key the new row, or None."""
    table = table_of(state, statement.table)
    if table is None:
        raise Refused("NOTABLE")
    bind(table, statement)
    rows = state.get(table.number, {})
    told_rows, writes = None, {}
    if isinstance(statement, Insert):
        writes = insert(table, statement, rows)
    else:
        kept = [(key, table.whole(key, rows[key])) for key in sorted(rows, key=key_order)]
        kept = [row for row in kept if truth(table, statement.where, row[1]) is True]
        if isinstance(statement, Select):
            told_rows = told(table, statement.what, [values for _, values in kept])
        elif isinstance(statement, Update):
            writes = update(table, statement, kept)
        else:
            writes = {key: None for key, _ in kept}
    if len(written | {(table.number, key) for key in writes}) > MOST_KEYS:
        raise Refused("TOOMANYWRITES")
    return table, told_rows, writes


def printed(value):
    if isinstance(value, Text):
        return "'" + value.replace("'", "''") + "'"
    return "NULL" if value is None else str(value)


class Transaction:
    def __init__(self):
        self.own, self.reads = {}, []  # of (table, key) the databank and the row or None


class Model:
    """Sessions over one history. `room` is how many bytes the records may still take, if that is
    bounded."""

    def __init__(self, room=None):
        self.state, self.history, self.open, self.room = {}, [], {}, room
        self.opened = 0
        # TRANSDB: how large a side is, the one that takes records, whether the other one is clean,
        # and the records of each
        self.side, self.active, self.is_clean, self.records = room, 0, True, [b"", b""]

    def reopen(self):
        """What a new play begins with."""
        self.open, self.opened = {}, len(self.history)

    def reply(self, session, step):
        """The lines of the reply to a word or a statement, without the session's number."""
        here = self.open.get(session)
        if isinstance(step, NotYet):
            return ["REFUSED NOTYET"]
        if step == "START" or isinstance(step, (CreateTable, DropTable)):
            if here:
                return ["REFUSED INTRANSACTION"]
            if step != "START":
                return [self.refusable(self.define, session, step)]
            self.open[session] = Transaction()
            return ["OK"]
        if here is None:
            return ["REFUSED NOTRANSACTION"]
        if step == "ROLLBACK":
            del self.open[session]
            return ["OK"]
        if step == "COMMIT":
            return [self.refusable(self.commit, session, here)]
        try:
            return self.run(here, step)
        except Refused as refused:
            return [f"REFUSED {refused}"]

    def refusable(self, call, *given):
        try:
            return call(*given)
        except Refused as refused:
            return f"REFUSED {refused}"

    def run(self, here, statement):
        here.reads += [(it, len(self.history)) for it in reads(statement, self.state)]
        table, rows, writes = execute(statement, self.laid_over(here.own), here.own.keys())
        if rows is not None:
            return ["ROW " + ",".join(map(printed, row)) for row in rows] + [f"ROWS {len(rows)}"]
        here.own.update({(table.number, key): (table.bank, row) for key, row in writes.items()})
        return [f"DONE {len(writes)}"]

    def laid_over(self, own):
        """The state with a transaction's writes laid over it."""
        over = dict(self.state)
        for number in {number for number, _ in own}:
            over[number] = dict(over.get(number, {}))
        for (number, key), (_, row) in own.items():
            put(over[number], key, row)
        return over

    def window_start(self):
        """How many entries stand before the longest suffix with so many writes."""
        start, count = len(self.history), 0
        while start > self.opened and count + len(self.history[start - 1]) <= WINDOW_WRITES:
            start -= 1
            count += len(self.history[start])
        return start

    def commit(self, session, here):
        """COMMIT. After HISTORYFULL and FULL the transaction stands."""
        oldest = min((number for _, number in here.reads), default=len(self.history))
        if oldest < self.window_start():
            del self.open[session]
            raise Refused(f"AGED {oldest} {self.window_start()}")
        for at in range(oldest, len(self.history)):
            if any(number <= at and it.contains(*key) for it, number in here.reads
                   for key in self.history[at]):
                del self.open[session]
                raise Refused(f"CONFLICT {at + 1}")
        net = [(bank, number, key, row) for (number, key), (bank, row) in here.own.items()
               if row is not None or key in self.state.get(number, {})]
        answer = self.seal(session, net) if net else f"ENDED {len(self.history)}"
        del self.open[session]
        return answer

    def define(self, session, statement):
        writes = define(statement, self.state)
        return self.seal(session, [(SYSDB, DICTIONARY, key, row) for key, row in writes.items()])

    def turn(self):
        """TURN, while no entry is in doubt."""
        if not self.is_clean:
            return "REFUSED NOTCLEAN"
        self.active, self.is_clean, self.room = 1 - self.active, False, self.side
        return f"TURNED {self.active} {len(self.history) + 1}"

    def told(self):
        """What STATE tells: there is no LOGDB and no copy. The side that was active begins at number 1."""
        other = "CLEAN" if self.is_clean else "LIVE"
        return [f"NUMBER {len(self.history)}", f"TRANSDB {self.active} {other} 1", "LOGDB OUT"]

    def seal(self, session, writes):
        """Puts an entry behind the others."""
        if len(self.history) >= MOST_ENTRIES:
            raise Refused("HISTORYFULL")
        writes.sort(key=lambda write: (write[1], key_order(write[2])))
        text = entry_image(session, writes)
        need = RECORD_HEAD + len(text)
        if self.room is not None:
            if self.room < need:
                raise Refused(f"FULL {need} {self.room}")
            self.room -= need
        for _, number, key, row in writes:
            put(self.state.setdefault(number, {}), key, row)
        self.history.append({(number, key) for _, number, key, _ in writes})
        self.records[self.active] += (b"\xa5" + len(text).to_bytes(4, "big")
                                      + len(self.history).to_bytes(8, "big") + text)
        return f"COMMITTED {len(self.history)}"


def put(rows, key, row):
    """Puts a row, or takes one away."""
    if row is None:
        rows.pop(key, None)
    else:
        rows[key] = row
