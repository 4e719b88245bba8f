"""A plain model of a store with one file, and of the pairs, extents, slots and databank files in
it, by docs/FORMATS.md: what bench/bank_rows compares with. It was written from the rules and shares
nothing with the program.

A value is an int, a str or None; keys and rows are tuples of them. A call of the store that fails
raises Fault, and what a call refuses is a Refused with the words of the refusal.
"""
OPEN = 0xA5
FRONT, SLOT, EXTENT, PIECE = 1024, 1024, 1 << 20, 1 << 16
MOST_EXTENTS, SLOTS_IN_EXTENT = 4096, 1024
TRIES = 4


class Fault(Exception):
    """A call of the store fails."""


class Refused(Exception):
    """A call is refused; the words say why."""


class Store:
    """One file, the calls on it, and those of them that fail. A row has to give it room enough."""

    def __init__(self, data=b"", room=1 << 22, places=1024):
        self.room, self.places, self.written = room, places, 0
        self.start = bytes(data)
        self.data = bytearray(data)
        self.calls = []  # (kind, place, bytes, failed)
        self.failing = set()
        self.faults = 0

    def call(self, kind, place=0, piece=b""):
        assert len(self.calls) < self.places, "no place for the call"
        failed = len(self.calls) in self.failing
        self.calls.append((kind, place, bytes(piece), failed))
        if failed:
            self.faults += 1
            raise Fault

    def write(self, place, piece):
        self.written += len(piece)
        assert max(self.written, place + len(piece), len(self.data)) <= self.room, "no room"
        self.call("write", place, piece)
        put(self.data, place, piece)

    def sync(self):
        self.call("sync")

    def length(self):
        self.call("look")
        return len(self.data)

    def read(self, place, count):
        self.call("look")
        return bytes(self.data[place:place + count])

    def crash(self, count, digits):
        """What a crash behind so many calls leaves: of each range that wasn't synced the next of
        the digits says what it holds, 0 what was there, 1 what was written, 2 bytes A5."""
        data, at = bytearray(self.start), 0
        calls = self.calls[:count]
        synced = max((k for k, call in enumerate(calls) if call[0] == "sync" and not call[3]),
                     default=-1)
        for k, (kind, place, piece, failed) in enumerate(calls):
            if kind != "write":
                continue
            if k < synced:
                if not failed:
                    put(data, place, piece)
                continue
            digit = digits[at % len(digits)] if at < 40 else 0
            at += 1
            data.extend(bytes(max(0, place + len(piece) - len(data))))
            if digit:
                put(data, place, piece if digit == 1 else bytes([OPEN]) * len(piece))
        return Store(data, self.room, self.places)


def put(data, place, piece):
    data.extend(bytes(max(0, place - len(data))))
    data[place:place + len(piece)] = piece


class Pair:
    """Forty bytes at two places, of which one counts."""

    def __init__(self, store, place, number, value, closed):
        self.store, self.place, self.number, self.value = store, place, number, value
        self.closed = closed  # the gate of the other place is closed on the disk
        self.settled = True

    @staticmethod
    def format(store, value):
        store.write(0, bytes(1024))
        store.sync()
        pair = Pair(store, 512, 0, b"", True)
        pair.put(value)
        return pair

    @staticmethod
    def open(store):
        store.sync()
        data = store.read(0, 1024)
        opened = [at for at in (0, 512) if data[at:at + 1] == bytes([OPEN])]
        if not opened:
            raise Refused("no open place")
        if len(data) < 1024:
            raise Refused("malformed")
        numbers = {at: int.from_bytes(data[at + 1:at + 9], "big") for at in opened}
        at = opened[0]
        if len(opened) == 2:
            if numbers[512] == (numbers[0] + 1) % 2**64:
                at = 512
            elif numbers[0] != (numbers[512] + 1) % 2**64:
                raise Refused("malformed")
        return Pair(store, at, numbers[at], data[at + 9:at + 49], len(opened) == 1)

    def put(self, value):
        other, number = 512 - self.place, (self.number + 1) % 2**64
        self.settled = False
        if not self.closed:
            self.store.write(other, b"\0")
            self.store.sync()
            self.closed = True
        self.store.write(other + 1, number.to_bytes(8, "big") + value + bytes(15))
        self.store.sync()
        self.closed = False
        self.store.write(other, bytes([OPEN]))
        self.store.sync()
        self.place, self.number, self.value, self.settled = other, number, value, True

    def settle(self):
        if not self.settled:
            self.put(self.value)


class Extents:
    """A file of so many extents behind a pair."""

    def __init__(self, pair, most):
        self.pair, self.store, self.most = pair, pair.store, most

    @staticmethod
    def format(store, most, fields):
        zero(store, 0)
        return Extents(Pair.format(store, (1).to_bytes(4, "big") + fields), most)

    @staticmethod
    def open(store, most):
        extents = Extents(Pair.open(store), most)
        if not 1 <= extents.limit <= most:
            raise Refused("malformed")
        return extents

    @property
    def limit(self):
        return int.from_bytes(self.pair.value[:4], "big")

    @property
    def fields(self):
        return self.pair.value[4:]

    def grow(self):
        if self.limit == self.most:
            raise Refused("limit")
        self.pair.settle()
        zero(self.store, self.limit)
        self.pair.put((self.limit + 1).to_bytes(4, "big") + self.fields)

    def put_fields(self, fields):
        self.pair.put(self.pair.value[:4] + fields)


def zero(store, extent):
    for piece in range(0, EXTENT, PIECE):
        store.write(FRONT + EXTENT * extent + piece, bytes(PIECE))
    store.sync()


def image(values):
    """The image of a key or a row."""
    out = b""
    for value in values:
        if value is None:
            out += b"\0"
        elif isinstance(value, int):
            out += b"\1" + value.to_bytes(8, "big", signed=True)
        else:
            text = value.encode()
            out += b"\2" + len(text).to_bytes(2, "big") + text
    return out


def values_in(data):
    """The values that an image is of; None where it is none's."""
    values = []
    while data:
        kind, data = data[0], data[1:]
        if kind == 0:
            values.append(None)
        elif kind == 1 and len(data) >= 8:
            values.append(int.from_bytes(data[:8], "big", signed=True))
            data = data[8:]
        elif kind == 2 and len(data) >= 2 + int.from_bytes(data[:2], "big"):
            size = int.from_bytes(data[:2], "big")
            try:
                text = data[2:2 + size].decode()
            except UnicodeDecodeError:
                return None
            if size > 800 or any(sign < " " and sign != "\t" for sign in text):
                return None
            values.append(text)
            data = data[2 + size:]
        else:
            return None
    return tuple(values)


def key_order(key):
    return [(1, value.encode()) if isinstance(value, str) else (0, value) for value in key]


def slot_place(slot):
    return FRONT + SLOT * slot


def body(kind, table, stamp, key, row):
    """The body of a slot with these images."""
    head = bytes([kind]) + table.to_bytes(4, "big") + stamp.to_bytes(8, "big")
    head += len(key).to_bytes(2, "big") + len(row).to_bytes(2, "big")
    return (head + key + row).ljust(SLOT - 1, b"\0")


def item_in(data):
    """Kind, table, stamp and both images of an open slot's body; None where it isn't in the slot
    grammar."""
    kind, table = data[0], int.from_bytes(data[1:5], "big")
    stamp = int.from_bytes(data[5:13], "big")
    k, r = int.from_bytes(data[13:15], "big"), int.from_bytes(data[15:17], "big")
    if kind not in (1, 2) or (kind == 2 and r) or not 1 <= k <= 256 or k + r > 1006:
        return None
    if any(data[17 + k + r:]):
        return None
    return kind, table, stamp, data[17:17 + k], data[17 + k:17 + k + r]


def slot_in(store, slot):
    data = store.read(slot_place(slot), SLOT)
    if len(data) < SLOT or data[0] != OPEN:
        return None
    item = item_in(data[1:])
    if item is None:
        raise Refused(f"malformed {slot}")
    return item


def scan(store, limit):
    """The items of the open slots, by slot; pieces of 64 slots are read."""
    items = {}
    for first in range(0, limit * SLOTS_IN_EXTENT, 64):
        data = store.read(slot_place(first), PIECE)
        for at in range(len(data) // SLOT):
            if data[SLOT * at] == OPEN:
                item = item_in(data[SLOT * at + 1:SLOT * (at + 1)])
                if item is None:
                    raise Refused(f"malformed {first + at}")
                items[first + at] = item
    return items


class Kept:
    """What is kept of a slot that isn't free."""

    def __init__(self, key, stamp, row, gate):
        self.key, self.stamp, self.row, self.gate = key, stamp, row, gate


class Bank:
    """A databank file; a key here is that of a table with its number."""

    def __init__(self, extents, bank, mark):
        self.extents, self.store, self.bank = extents, extents.store, bank
        self.mark = self.reached = mark
        self.phase, self.run, self.slots = "idle", [], {}

    @staticmethod
    def fields_for(bank, mark):
        return b"\0\1" + bank.to_bytes(4, "big") + mark.to_bytes(8, "big") + bytes(22)

    @staticmethod
    def format(store, bank, mark):
        Extents.format(store, MOST_EXTENTS, Bank.fields_for(bank, mark))

    @staticmethod
    def open(store, bank, number):
        try:
            extents = Extents.open(store, MOST_EXTENTS)
        except Refused:
            raise Refused("damaged 0")
        mark = int.from_bytes(extents.fields[6:14], "big")
        if extents.fields != Bank.fields_for(bank, mark) or mark > number:
            raise Refused("damaged 0")
        opened = Bank(extents, bank, mark)
        length = store.length()
        if length < FRONT + EXTENT * extents.limit:
            raise Refused(f"damaged {length}")
        opened.find(number)
        return opened

    def find(self, number):
        """Looks at each slot, the least first."""
        data, limit = self.store.data, self.extents.limit * SLOTS_IN_EXTENT
        gates = data[FRONT:slot_place(limit):SLOT]
        at = gates.find(OPEN)
        while at >= 0:
            place = slot_place(at)
            item = item_in(bytes(data[place + 1:place + SLOT]))
            if item is None or not self.take(at, item, number):
                raise Refused(f"damaged {place}")
            at = gates.find(OPEN, at + 1)
        for _ in range(16 * self.extents.limit):
            self.store.call("look")

    def take(self, slot, item, number):
        kind, table, stamp, key, row = item
        key, row = values_in(key), values_in(row)
        if not 1 <= stamp <= number or not key or len(key) > 15 or None in key or row is None:
            return False
        self.slots[slot] = Kept((table, key), stamp, row if kind == 1 else None, "open")
        return True

    def is_stale(self, slot):
        it = self.slots[slot]
        same = [(n, o) for n, o in self.slots.items() if o.key == it.key and n != slot]
        if any(o.gate == "open" and (o.stamp > it.stamp or (o.stamp == it.stamp and n < slot))
               for n, o in same):
            return True
        return it.row is None and it.stamp <= self.mark and all(o.stamp >= it.stamp
                                                               for _, o in same)

    def bodies(self, entries):
        """Entries are numbers with lists of writes (bank, table, key, row or None)."""
        if self.phase != "idle":
            raise Refused(f"phase {self.phase}")
        if entries and entries[0][0] != self.mark + 1:
            raise Refused(f"not next {self.mark} {entries[0][0]}")
        last = {}
        for number, writes in entries:
            for bank, table, key, row in writes:
                if bank == self.bank:
                    last[table, key] = number, row
        keys = sorted(last, key=lambda at: (at[0], key_order(at[1])))
        closing = [n for n in self.slots if self.slots[n].gate == "doubtful" or self.is_stale(n)]
        staying = set(self.slots) - set(closing)
        if len(staying) + len(keys) > MOST_EXTENTS * SLOTS_IN_EXTENT:
            raise Refused("limit")
        run, slot = [], 0
        while len(run) < len(keys):
            if slot not in staying:
                run.append(slot)
            slot += 1
        self.gate(closing, 0, "doubtful")
        for n in closing:
            del self.slots[n]
        while run and run[-1] >= self.extents.limit * SLOTS_IN_EXTENT:
            self.extents.grow()
        self.fill(run, keys, last)
        self.run, self.phase = run, "bodies"
        self.reached = entries[-1][0] if entries else self.mark
        return self.reached

    def fill(self, run, keys, last):
        for slot, at in zip(run, keys):
            stamp, row = last[at]
            piece = body(2 if row is None else 1, at[0], stamp, image(at[1]), image(row or ()))
            self.store.write(slot_place(slot) + 1, piece)
        self.store.sync()
        for slot, at in zip(run, keys):
            self.slots[slot] = Kept(at, last[at][0], last[at][1], "shut")

    def gate(self, slots, byte, meanwhile):
        for n in slots:
            self.slots[n].gate = meanwhile
        for n in slots:
            self.store.write(slot_place(n), bytes([byte]))
        self.store.sync()

    def gates(self):
        if self.phase != "bodies":
            raise Refused(f"phase {self.phase}")
        self.gate(self.run, OPEN, "doubtful")
        for n in self.run:
            self.slots[n].gate = "open"
        self.phase = "gates"

    def raise_mark(self):
        if self.phase != "gates":
            raise Refused(f"phase {self.phase}")
        self.extents.put_fields(Bank.fields_for(self.bank, self.reached))
        self.mark, self.phase = self.reached, "idle"
        return self.mark

    def turn(self, entries):
        """A whole turn, each of its calls again after a fault."""
        again(lambda: self.bodies(entries))
        again(self.gates)
        return again(self.raise_mark)

    def record(self, at):
        """The record of a key: the open one of the greatest stamp, in the least slot."""
        its = [(-it.stamp, n) for n, it in self.slots.items()
               if it.key == at and it.gate == "open"]
        return min(its)[1] if its else None

    def row(self, table, key):
        slot = self.record((table, key))
        if slot is None or self.slots[slot].row is None:
            return None
        _, _, _, _, row = slot_in(self.store, slot)
        return values_in(row)

    def keys(self, table):
        """The keys of a table that have rows, in order."""
        keys = {it.key for it in self.slots.values() if it.key[0] == table}
        having = [at[1] for at in keys if (slot := self.record(at)) is not None
                  and self.slots[slot].row is not None]
        return sorted(having, key=key_order)


def again(call):
    for _ in range(TRIES):
        try:
            return call()
        except Fault:
            pass
    raise Fault


def replayed(history, bank, mark):
    """The rows of a databank that the entries up to the mark leave, by table and key."""
    rows = {}
    for number, its, table, key, row in history:
        if its == bank and number <= mark:
            rows[table, key] = row
    return rows


def stands(bank, history):
    """Whether a file stands for a history: each open record is a write of the entry of its stamp,
    and with the entries behind its mark over its rows it has the rows of the whole history."""
    for it in bank.slots.values():
        if not any((it.stamp, bank.bank, *it.key, it.row) == written for written in history):
            return False
    behind = {(table, key) for number, its, table, key, _ in history
              if its == bank.bank and number > bank.mark}
    return all(bank.row(*at) == row for at, row in replayed(history, bank.bank, bank.mark).items()
               if at not in behind)
