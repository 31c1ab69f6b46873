"""Random pairs of packages for tools/check-transforms, how two packages differ, and why a peer may go wrong."""

import collections
import copy
import random

from check_transforms_packages import (
    ADD,
    DELETE,
    ENCODINGS,
    KEY,
    LOCALIZED,
    NOT_BINARY,
    NULLABLE,
    STRING,
    VALID,
    Column,
    Database,
    Table,
    stream_name,
)

# --- random pairs

WORDS = "alpha beta gamma delta TARGETDIR SourceDir [#file] 1.0.0 {0F96CDC0} x y z".split()
MORE_WORDS = {0: [], 1252: ["Größe", "naïve", "10 €", "œuvre"], 65001: ["日本語", "Größe", "Ελλάδα", "🦀 crab"]}
# What a pair may have besides that peers are known to get wrong, by the names of REASONS.
SPECIALS = "old-bytes null-streams two-streams early-streams columns long-names nulls empty-texts page wide".split()


class Generator:
    """Makes the packages of a pair."""

    def __init__(self, seed, special):
        self.random, self.special = random.Random(seed), special
        self.page = self.random.choice([0, 1252, 65001])
        self.words = WORDS + MORE_WORDS[self.page]
        self.has_null_streams = special == "null-streams" or self.chance(0.1)
        self.shuffles, self.streams = special == "early-streams" or self.chance(0.1), {}

    def chance(self, share):
        return self.random.random() < share

    def text(self):
        if self.special == "empty-texts" and self.chance(0.1):
            return ""
        if self.chance(0.6):
            return self.random.choice(self.words)
        text = " ".join(self.random.choice(self.words) for _ in range(self.random.randint(1, 6)))
        return text if self.chance(0.5) else f"{text} {self.random.randint(0, 10**9)}"

    def number(self, width):
        limit = self.random.choice([9, 1 << 8 * width - 1])
        return self.random.randint(1 - limit, limit - 1)

    def stream(self):
        size = self.random.choice([1, 7, 63, 64, 65, 700, 4095, 4096, 9000])
        return bytes([self.random.randint(1, 255)]) * size

    def value(self, column, share=0.2):
        if column.is_stream and not self.has_null_streams:
            return self.stream()
        if column.takes_null and self.chance(share) or self.special == "nulls" and self.chance(0.1):
            return None
        if column.is_stream:
            return self.stream()
        return self.text() if column.is_text else self.number(column.width)

    def key_value(self, column):
        if column.takes_null and self.chance(0.1):
            return None
        if column.is_text:
            return self.random.choice(["k{}", "Key.{}", "_{}"]).format(self.random.randint(0, 30))
        return self.random.randint(-20, 20) if self.chance(0.9) else self.number(column.width)

    def column(self, name, is_key, streams=True):
        nullable = NULLABLE * self.chance(0.1 if is_key else 0.7) | KEY * is_key
        kind = self.random.choice("ssslii4" if is_key or not streams else "sssslliii44v")
        if kind in "sl":
            width = self.random.choice([0, 1, 38, 72, 255]) if not is_key else 72
            bits = NOT_BINARY | STRING | LOCALIZED * (kind == "l" and not is_key)
            return Column(name, VALID | bits | width | nullable)
        bits = {"i": NOT_BINARY | 2, "4": 4, "v": STRING}[kind]
        return Column(name, VALID | bits | nullable)

    def table(self, name):
        keys = self.random.choice([1, 1, 1, 2, 2, 3])
        others = self.random.choice([0, 1, 2, 2, 3, 4, 6, 9, 14, 17, 26])
        if self.special == "columns" and self.chance(0.6):
            others = 32 - keys
        columns = [self.column(f"Key{it}", True) for it in range(keys)]
        if all(it.takes_null for it in columns):
            columns[0] = Column(columns[0].name, columns[0].bits & ~NULLABLE)
        for it in range(others):
            columns.append(self.column(f"Column{it}", False, not any(column.is_stream for column in columns)))
        columns += self.special_columns(columns)
        if self.shuffles:
            self.random.shuffle(columns)
        table = Table(columns, [])
        self.add_rows(name, table, self.random.choice([0, 1, 3, 8, 20, 40]))
        return table

    def special_columns(self, columns):
        """Returns the columns of streams that a table has besides, so that there is what the pair is for."""
        wanted = {"old-bytes": 1, "null-streams": 1, "early-streams": 1, "two-streams": 2}.get(self.special, 0)
        count = wanted - sum(it.is_stream for it in columns)
        return [Column(f"Data{it}", VALID | STRING | NULLABLE * self.chance(0.5)) for it in range(count)]

    def row(self, name, columns):
        row = [(self.key_value if it.is_key else self.value)(it) for it in columns]
        return self.with_one_stream(name, columns, row)

    def with_one_stream(self, name, columns, row):
        """Gives all cells of a row that have a stream the same bytes: a row has one. They are those that the row had
        before, unless other ones are wanted."""
        held = next((value for value in row if isinstance(value, bytes)), None)
        if held and self.special != "old-bytes":
            held = self.streams.setdefault(stream_name(name, Table(columns, []).key(row)), held)
        return [held if it.is_stream and value is not None else value for it, value in zip(columns, row)]

    def add_rows(self, name, table, count):
        known = table.by_key()
        for _ in range(count):
            row = self.row(name, table.columns)
            key = table.key(row)
            if key not in known and self.fits(name, table, row):
                known[key] = row
                table.rows.append(row)

    def fits(self, name, table, row):
        """Returns whether the row's stream has a name that no other one has. That of a row with a null in a key of
        numbers ends in -32768 for libmsi and Wine, so there is none."""
        if not any(it.is_stream for it in table.columns):
            return True
        if any(value is None and column.is_key and not column.is_text for value, column in zip(row, table.columns)):
            return False
        names = [stream_name(name, table.key(it)) for it in table.rows]
        mine = stream_name(name, table.key(row))
        return len(mine) <= 31 and mine not in names

    def name(self, number):
        if self.special == "long-names" and self.chance(0.6):
            return f"ATableWhoseNameHasManyCharacters{number}"
        return self.random.choice(["Table{}", "T_{}", "some.Table{}", "a{}"]).format(number)

    def database(self):
        tables = (self.name(it) for it in range(self.random.choice([1, 2, 3, 4, 6])))
        return Database(self.page, {it: self.table(it) for it in tables})

    def changed_row(self, name, columns, row):
        places = [it for it, column in enumerate(columns) if not column.is_key]
        for place in self.random.sample(places, min(len(places), self.random.choice([1, 1, 2, 5]))):
            column = columns[place]
            if not column.is_stream or self.special in ("old-bytes", "null-streams"):
                row[place] = self.value(column)
        return self.with_one_stream(name, columns, row)

    def changed(self, name, table):
        """Returns a table with other rows, and maybe more columns."""
        table = copy.deepcopy(table)
        kind = self.random.choice(["same", "few", "few", "many", "many", "other", "longer", "longer"])
        share = {"same": 0, "few": 0.1, "many": 0.5, "other": 1, "longer": self.random.choice([0, 0.2])}[kind]
        if kind == "longer":
            table = self.longer(name, table)
        kept = [row for row in table.rows if not self.chance(share / (1 if kind == "other" else 2))]
        table.rows[:] = [self.changed_row(name, table.columns, it) if self.chance(share) else it for it in kept]
        self.add_rows(name, table, int(share * self.random.choice([1, 4, 20])))
        return table

    def longer(self, name, table):
        most = 32 if self.special == "columns" else 31
        count = min(self.random.choice([1, 1, 2, 5]), most - len(table.columns))
        streams = not any(it.is_stream for it in table.columns)
        added = [self.column(f"Added{it}", False, streams and not it) for it in range(count)]
        if self.special != "nulls":
            added = [Column(it.name, it.bits | NULLABLE) for it in added]
        columns = table.columns + added
        rows = []
        for row in table.rows:
            values = [self.value(it, 0.5) if self.chance(0.5) else None for it in added]
            rows.append(self.with_one_stream(name, columns, row + values))
        return Table(columns, rows)

    def pair(self):
        old = self.database()
        self.has_null_streams = self.special == "null-streams"
        tables = {name: self.changed(name, it) for name, it in old.tables.items() if not self.chance(0.15)}
        for number in range(self.random.choice([0, 0, 1, 2])):
            tables[f"New{number}"] = self.table(f"New{number}")
        if self.special == "wide" and self.chance(0.3):
            rows = [[f"text {it}", it] for it in range(66000)][: self.random.choice([65600, 500])]
            tables["Many"] = Table([Column("Text", 0x2D48), Column("Number", 0x1104)], rows)
        page = self.random.choice([1252, 65001]) if self.special == "page" else self.page
        return old, self.in_page(Database(page, tables))

    def in_page(self, database):
        """Returns the database without characters that its page lacks."""
        fits = lambda value: value.encode(ENCODINGS[database.page], "replace").decode(ENCODINGS[database.page])
        rows = lambda it: [[fits(value) if isinstance(value, str) else value for value in row] for row in it.rows]
        return Database(database.page, {name: Table(it.columns, rows(it)) for name, it in database.tables.items()})


# --- comparisons

# Why a peer's tables may be others than new's.
REASONS = {
    "old-bytes": "it keeps the bytes of a stream that is there under the name of a told one",
    "null-streams": "it drops a record with null in a column of streams",
    "two-streams": "it drops a record with two cells of the row's stream",
    "early-streams": "it drops a record with a stream before the last column of the key",
    "null-keys": "it drops a record with a stream, and null in the key",
    "columns": "it loses rows of tables with 32 columns",
    "long-names": "it loses columns or rows of tables with names past 31 characters",
    "nulls": "it drops an added row with null in a column that doesn't take it",
    "empty-texts": "it misreads pools with an empty text",
    "page": "the package's page stays, and texts that it lacks are lost",
    "wide": "it spoils packages whose references have to be widened, or are wide without need",
}
# Those that Wine has no part in.
OF_LIBMSI = {"null-keys"}


def rows_of(table):
    return collections.Counter(tuple(row) for row in table.rows)


def brief(rows):
    """Returns one of these rows, with the bytes of streams cut short."""
    row = next(iter(rows), None)
    return row and [value[:8] if isinstance(value, bytes) else value for value in row]


def of_tables(wanted, found):
    """Returns how two tables differ, in a line, or None."""
    if not wanted or not found:
        return "isn't there" if wanted else "is there"
    if wanted.columns != found.columns:
        return f"has the columns {found.columns}, not {wanted.columns}"
    missing, more = rows_of(wanted) - rows_of(found), rows_of(found) - rows_of(wanted)
    if missing or more:
        return f"lacks {len(missing)} rows, as {brief(missing)}, and has {len(more)} others, as {brief(more)}"
    return None


def differences(wanted, found):
    """Returns lines about how two databases differ, by the names of tables; of the page under none."""
    lines = {it: of_tables(wanted.tables.get(it), found.tables.get(it)) for it in {*wanted.tables, *found.tables}}
    if wanted.page != found.page:
        lines[""] = f"the page is {found.page}, not {wanted.page}"
    return {name: line for name, line in lines.items() if line}


def texts_of(database):
    return {value for it in database.tables.values() for row in it.rows for value in row if isinstance(value, str)}


def reasons_of(old, new, is_wide, told):
    """Returns the names of reasons why a peer may go wrong, by the names of tables; those of all tables under none."""
    found = collections.defaultdict(set)
    if old.page != new.page:
        found[""].add("page")
    if any("" in texts_of(it) for it in (old, new)):
        found[""].add("empty-texts")
    if is_wide or max(len(texts_of(it)) for it in (old, new)) > 65000:
        found[""].add("wide")
    for name, table in new.tables.items():
        if len(table.columns) > 31:
            found[name].add("columns")
        if len(name) > 31:
            found[name].add("long-names")
    held = {}
    for name, table in old.tables.items():
        for row in table.rows:
            held.update({stream_name(name, table.key(row)): it for it in row if isinstance(it, bytes)})
    for it in told:
        if it.table in new.tables and it.action != DELETE:
            found[it.table] |= reasons_of_record(it, new.tables[it.table], held)
    return found


def reasons_of_record(told, table, held):
    """Returns the names of reasons why a peer may go wrong at a record; `held` are the streams of the old package."""
    found = set()
    if sum(isinstance(told.row[it], bytes) for it in told.places) > 1:
        found.add("two-streams")
    for place in told.places:
        value, column = told.row[place], table.columns[place]
        if isinstance(value, bytes) and held.get(stream_name(told.table, table.key(told.row)), value) != value:
            found.add("old-bytes")
        if isinstance(value, bytes) and None in table.key(told.row):
            found.add("null-keys")
        if isinstance(value, bytes) and any(it.is_key for it in table.columns[place:]):
            found.add("early-streams")
        if value is None and column.is_stream:
            found.add("null-streams")
        if value is None and not column.takes_null and told.action == ADD:
            found.add("nulls")
    return found
