"""The texts of statements, by docs/LANGUAGE.md: `parse` reads one, `spell` writes one.

It was written from the rules, as kv_model.py was, and shares nothing with the program.
"""
import re

from kv_model import (Both, Column, CreateTable, Delete, DropTable, Insert, IsNull, Not, NotYet,
                      Refused, Select, Test, Text, Update)

WORDS = set("""ALTER AND BACKUP COMMIT COUNT CREATE DATABANK DELETE DROP FOR FROM IN INSERT INTEGER
INTO IS KEY MASTER NOT NULL OF OFFLINE ONLINE OR PRIMARY READY RESTORE ROLLBACK SELECT SET SHADOW
START SUM TABLE TO UPDATE VALUES VARCHAR WHERE""".split())
GREATEST_NUMBER = 2**63
MOST_NAME, MOST_TEXT, MOST_BYTES, MOST_DEPTH = 32, 800, 65536, 64
NAME = re.compile(rb"[A-Za-z][A-Za-z0-9_]*")
DIGITS = re.compile(rb"[0-9]+")
SIGN = re.compile(rb"<>|<=|>=|[(),*=<>+;-]")
COMPARES = ["=", "<>", "<", "<=", ">", ">="]


class Token:
    def __init__(self, kind, value, at, to):
        self.kind, self.value, self.at, self.to = kind, value, at, to


def character(text, at):
    """The place behind the character at a place, which is UTF-8 and no control byte but tab."""
    if text[at] < 0x20 and text[at] != 9:
        raise Refused(f"CHARACTER {at}")
    for length in range(1, 5):
        try:
            text[at:at + length].decode()
        except UnicodeDecodeError:
            continue
        if at + length <= len(text):
            return at + length
    raise Refused(f"CHARACTER {at}")


def quoted(text, first):
    """The text whose first quote stands at a place."""
    value, at = b"", first + 1
    while at < len(text):
        if text[at:at + 1] == b"'":
            if text[at + 1:at + 2] != b"'":
                return Token("text", Text(value.decode()), first, at + 1)
            to, piece = at + 2, b"'"
        else:
            to = character(text, at)
            piece = text[at:to]
        if len(value) + len(piece) > MOST_TEXT:
            raise Refused(f"CHARACTER {at + MOST_TEXT - len(value)}")
        value, at = value + piece, to
    raise Refused(f"TEXT {first}")


def next_token(text, at):
    """The first token from a place on; None at the end."""
    while text[at:at + 1] in (b" ", b"\t"):
        at += 1
    if at == len(text):
        return None
    if found := NAME.match(text, at):
        name = found[0].decode().upper()
        if len(name) > MOST_NAME:
            raise Refused(f"CHARACTER {at + MOST_NAME}")
        return Token("word" if name in WORDS else "name", name, at, found.end())
    if found := DIGITS.match(text, at):
        if int(found[0]) > GREATEST_NUMBER:
            raise Refused(f"NUMBER {at}")
        return Token("number", int(found[0]), at, found.end())
    if text[at:at + 1] == b"'":
        return quoted(text, at)
    if found := SIGN.match(text, at):
        return Token("sign", found[0].decode(), at, found.end())
    raise Refused(f"CHARACTER {at}")


class Parser:
    """The statement of a text, token by token: the first that can't go on refuses it."""

    def __init__(self, text):
        self.text, self.token = text, next_token(text, 0)

    def wrong(self):
        raise Refused("END" if self.token is None else f"SYNTAX {self.token.at}")

    def step(self):
        token = self.token
        self.token = next_token(self.text, token.to)
        return token.value

    def stands(self, *values):
        """Whether the next token is one of these words or signs."""
        return (self.token is not None and self.token.kind in ("word", "sign")
                and self.token.value in values)

    def take(self, *values):
        """Takes one of these words or signs."""
        return self.step() if self.stands(*values) else self.wrong()

    def may(self, *values):
        return self.step() if self.stands(*values) else None

    def words(self, words):
        for word in words.split():
            self.take(word)

    def name(self):
        return self.step() if self.token is not None and self.token.kind == "name" else self.wrong()

    def listed(self, part):
        parts = [part()]
        while self.may(","):
            parts.append(part())
        return parts

    def bracketed(self, part):
        self.take("(")
        parts = self.listed(part)
        self.take(")")
        return parts

    def literal(self):
        if self.stands("-"):
            self.step()
            return -self.number(GREATEST_NUMBER)
        if self.may("NULL"):
            return None
        if self.token is not None and self.token.kind == "text":
            return self.step()
        return self.number(GREATEST_NUMBER - 1)

    def number(self, most):
        if self.token is None or self.token.kind != "number" or self.token.value > most:
            self.wrong()
        return self.step()

    def operand(self):
        if self.token is not None and self.token.kind == "name":
            return Column(self.step())
        return self.literal()

    def predicate(self, depth=0):
        return self.joined("OR", lambda: self.joined("AND", lambda: self.factor(depth)))

    def joined(self, word, part):
        parts = [part()]
        while self.may(word):
            parts.append(part())
        return parts[0] if len(parts) == 1 else Both(word, parts)

    def factor(self, depth):
        if self.stands("NOT", "("):
            if depth == MOST_DEPTH:
                self.wrong()
            if self.step() == "NOT":
                return Not(self.factor(depth + 1))
            inside = self.predicate(depth + 1)
            self.take(")")
            return inside
        return self.test()

    def test(self):
        left = self.operand()
        if isinstance(left, Column) and self.may("IS"):
            negated = self.may("NOT") is not None
            self.take("NULL")
            return IsNull(str(left), negated)
        sign = self.take(*COMPARES)
        return Test(sign, left, self.operand())

    def where(self):
        return self.predicate() if self.may("WHERE") else None

    def statement(self):
        word = self.take("START", "COMMIT", "ROLLBACK", "SELECT", "INSERT", "UPDATE", "DELETE",
                         "CREATE", "DROP", "SET", "ALTER", "RESTORE")
        found = getattr(self, word.lower(), lambda: word)()
        self.may(";")
        if self.token is not None:
            self.wrong()
        return found

    def select(self):
        if self.may("*"):
            what = "*"
        elif self.may("COUNT"):
            self.words("( * )")
            what = "COUNT"
        elif self.may("SUM"):
            self.take("(")
            what = ("SUM", self.name())
            self.take(")")
        else:
            what = self.listed(self.name)
        self.take("FROM")
        table = self.name()
        return Select(what, table, self.where())

    def insert(self):
        self.take("INTO")
        table = self.name()
        self.take("VALUES")
        return Insert(table, self.listed(lambda: self.bracketed(self.literal)))

    def assignment(self):
        name = self.name()
        self.take("=")
        terms = [(False, self.operand())]
        while sign := self.may("+", "-"):
            terms.append((sign == "-", self.operand()))
        return name, terms

    def update(self):
        table = self.name()
        self.take("SET")
        sets = self.listed(self.assignment)
        return Update(table, sets, self.where())

    def delete(self):
        self.take("FROM")
        table = self.name()
        return Delete(table, self.where())

    def create(self):
        word = self.take("DATABANK", "TABLE", "SHADOW", "BACKUP")
        name = self.name()
        if word == "TABLE":
            return self.create_table(name)
        if word != "DATABANK":
            self.take("FOR" if word == "SHADOW" else "OF")
            self.name()
        return NotYet(word)

    def create_table(self, name):
        self.take("(")
        columns = [self.column()]
        self.take(",")
        while not self.stands("PRIMARY"):
            columns.append(self.column())
            self.take(",")
        self.words("PRIMARY KEY")
        key = self.bracketed(self.name)
        self.words(") IN")
        return CreateTable(name, columns, key, self.name())

    def column(self):
        name, length = self.name(), None
        if self.take("INTEGER", "VARCHAR") == "VARCHAR":
            self.take("(")
            length = self.number(GREATEST_NUMBER - 1)
            self.take(")")
        not_null = self.may("NOT") is not None
        if not_null:
            self.take("NULL")
        return name, length, not_null

    def drop(self):
        word = self.take("TABLE", "SHADOW", "BACKUP")
        name = self.name()
        return DropTable(name) if word == "TABLE" else NotYet(word)

    def set(self):
        word = self.take("SHADOW", "BACKUP")
        self.name()
        self.take(*(["ONLINE", "OFFLINE"] if word == "SHADOW" else ["READY"]))
        return NotYet(word)

    def alter(self):
        self.take("SHADOW")
        self.name()
        self.words("TO MASTER")
        return NotYet("SHADOW")

    def restore(self):
        self.name()
        self.take("FROM")
        self.name()
        return NotYet("RESTORE")


def parse(text):
    """The step that the bytes of a statement spell."""
    if len(text) > MOST_BYTES:
        raise Refused("LONG")
    return Parser(text).statement()


# How a step is written.

def spell_value(value):
    if value is None:
        return "NULL"
    if isinstance(value, Text):
        return "'" + value.replace("'", "''") + "'"
    return str(value)


def spell_terms(terms):
    text = spell_value(terms[0][1])
    return text + "".join((" - " if minus else " + ") + spell_value(it) for minus, it in terms[1:])


def spell_predicate(predicate):
    if isinstance(predicate, Test):
        return f"{spell_value(predicate.left)} {predicate.sign} {spell_value(predicate.right)}"
    if isinstance(predicate, IsNull):
        return f"{predicate.column} IS {'NOT ' if predicate.negated else ''}NULL"
    if isinstance(predicate, Not):
        return f"NOT ({spell_predicate(predicate.part)})"
    return f" {predicate.word} ".join(f"({spell_predicate(part)})" for part in predicate.parts)


def spell_what(what):
    if what == "COUNT":
        return "COUNT(*)"
    if isinstance(what, tuple):
        return f"SUM({what[1]})"
    return what if what == "*" else ", ".join(what)


def spell_column(name, length, not_null):
    kind = "INTEGER" if length is None else f"VARCHAR({length})"
    return f"{name} {kind}{' NOT NULL' if not_null else ''}"


def spell(step):
    """The text of a step."""
    if isinstance(step, str):
        return step
    if isinstance(step, CreateTable):
        columns = ", ".join(spell_column(*column) for column in step.columns)
        return (f"CREATE TABLE {step.name} ({columns}, PRIMARY KEY ({', '.join(step.key)})) "
                f"IN {step.bank}")
    if isinstance(step, DropTable):
        return f"DROP TABLE {step.name}"
    if isinstance(step, Insert):
        tuples = ", ".join("(" + ",".join(map(spell_value, it)) + ")" for it in step.tuples)
        return f"INSERT INTO {step.table} VALUES {tuples}"
    where = "" if step.where is None else " WHERE " + spell_predicate(step.where)
    if isinstance(step, Select):
        return f"SELECT {spell_what(step.what)} FROM {step.table}{where}"
    if isinstance(step, Update):
        sets = ", ".join(f"{name} = {spell_terms(terms)}" for name, terms in step.sets)
        return f"UPDATE {step.table} SET {sets}{where}"
    return f"DELETE FROM {step.table}{where}"
