"""Packages and transforms as bytes, for tools/check-transforms: compound files, string pools and tables, read and
written without any code of this repository or of a peer; and the making of a transform by the rules of docs/FORMATS.md.
"""

import collections
import os
import re
import struct
import subprocess
import sys
from typing import NamedTuple

# --- compound files

END, FREE, LAST = 0xFFFFFFFE, 0xFFFFFFFF, 0xFFFFFFFA
PACKAGE = bytes.fromhex("84100c0000000000c000000000000046")
TRANSFORM = bytes.fromhex("82100c0000000000c000000000000046")


def read_compound(data):
    """Returns the CLSID of a compound file's root, and its streams by their names."""
    if data[:8] != bytes.fromhex("d0cf11e0a1b11ae1"):
        raise ValueError("no compound file")
    size = 1 << struct.unpack_from("<H", data, 30)[0]
    count, directory, mini, difat = (struct.unpack_from("<I", data, it)[0] for it in (44, 48, 60, 68))
    sector = lambda number: data[(number + 1) * size : (number + 2) * size].ljust(size, b"\0")
    numbers = list(struct.unpack_from("<109I", data, 76))
    while difat <= LAST:
        *more, difat = struct.unpack(f"<{size // 4}I", sector(difat))
        numbers += more
    fat = [it for number in numbers[:count] for it in struct.unpack(f"<{size // 4}I", sector(number))]

    def chain(start, table, piece):
        found = []
        while start <= LAST:
            found.append(piece(start))
            start = table[start]
        return b"".join(found)

    entries = chain(directory, fat, sector)
    entries = [entries[it : it + 128] for it in range(0, len(entries), 128)]
    links = lambda entry: struct.unpack_from("<3I", entry, 68)
    place = lambda entry: struct.unpack_from("<IQ", entry, 116)
    minis = chain(place(entries[0])[0], fat, sector)
    held = chain(mini, fat, sector)
    mini_fat = struct.unpack(f"<{len(held) // 4}I", held)
    streams, left = {}, [links(entries[0])[2]]
    while left:
        number = left.pop()
        if number == FREE:
            continue
        entry = entries[number]
        left += links(entry)[:2]
        name = entry[: struct.unpack_from("<H", entry, 64)[0] - 2].decode("utf-16-le")
        start, length = place(entry)
        length &= 0xFFFFFFFF
        if entry[66] == 2:
            small = (start, mini_fat, lambda it: minis[it * 64 : it * 64 + 64])
            held = chain(*(small if length < 4096 else (start, fat, sector))) if length else b""
            streams[name] = held[:length]
    return entries[0][80:96], streams


def blocks(data, size):
    return [data[it : it + size].ljust(size, b"\0") for it in range(0, len(data), size)]


def chained(first, count):
    """Returns the entries of a table for a chain of blocks in order."""
    return [first + it + 1 for it in range(count - 1)] + [END] * (count > 0)


def tree(low, high, links):
    """Sets the links of the entries from low to before high, and returns the top one."""
    if low >= high:
        return FREE
    middle = (low + high) // 2
    links[middle] = tree(low, middle, links), tree(middle + 1, high, links)
    return middle


def compound(clsid, streams):
    """Returns a compound file with these streams."""
    names = sorted(streams, key=lambda it: (len(it.encode("utf-16-le")), it.upper().encode("utf-16-be")))
    small = [it for it in names if 0 < len(streams[it]) < 4096]
    mini_fat, minis, sectors, fat, at = [], [], [], [], {}
    for name in small:
        cut = blocks(streams[name], 64)
        at[name] = len(minis)
        mini_fat += chained(len(minis), len(cut))
        minis += cut

    def put(data):
        cut = blocks(data, 512)
        first = len(sectors)
        fat.extend(chained(first, len(cut)))
        sectors.extend(cut)
        return first if cut else END

    mini_first = put(struct.pack(f"<{len(mini_fat)}I", *mini_fat) + b"\xff" * (-4 * len(mini_fat) % 512))
    root_first = put(b"".join(minis))
    for name in names:
        if len(streams[name]) >= 4096:
            at[name] = put(streams[name])
    links = {}
    top = tree(1, len(names) + 1, links)
    entries = [directory_entry("Root Entry", 5, (FREE, FREE, top), clsid, root_first, 64 * len(minis))]
    for number, name in enumerate(names, 1):
        start = at.get(name, END)
        entries.append(directory_entry(name, 2, (*links[number], FREE), bytes(16), start, len(streams[name])))
    entries += [bytes(68) + b"\xff" * 12 + bytes(48)] * (-len(entries) % 4)
    directory = put(b"".join(entries))
    count = next(it for it in range(1, 110) if 128 * it >= len(fat) + it)
    numbers = list(range(len(fat), len(fat) + count))
    fat += [0xFFFFFFFD] * count + [FREE] * (128 * count - len(fat) - count)
    header = bytes.fromhex("d0cf11e0a1b11ae1") + bytes(16) + struct.pack("<5H6x", 0x3E, 3, 0xFFFE, 9, 6)
    header += struct.pack("<9I", 0, count, directory, 0, 4096, mini_first, (len(mini_fat) + 127) // 128, END, 0)
    header += struct.pack("<109I", *numbers, *[FREE] * (109 - count))
    return header + b"".join(sectors) + struct.pack(f"<{len(fat)}I", *fat)


def directory_entry(name, kind, links, clsid, start, length):
    name = name.encode("utf-16-le")
    held = name.ljust(64, b"\0") + struct.pack("<HBB3I", len(name) + 2, kind, 1, *links)
    return held + clsid + bytes(20) + struct.pack("<IQ", start, length)


# --- names of streams

LETTERS = "0123456789ABCDEFGHIJKLMNOPQRSTUVWXYZabcdefghijklmnopqrstuvwxyz._"
SUMMARY = "\x05SummaryInformation"


def packed(name, is_table=False):
    """Returns a stream's name as a container has it."""
    pair = lambda it: chr(0x3800 + 64 * LETTERS.index(it[1]) + LETTERS.index(it[0]))
    one = lambda it: pair(it[0]) if len(it[0]) == 2 else chr(0x4800 + LETTERS.index(it[0]))
    return "\u4840" * is_table + re.sub("[0-9A-Za-z._]{1,2}", one, name)


# --- packages

VALID, NOT_BINARY, STRING, NULLABLE, KEY, LOCALIZED = 0x100, 0x400, 0x800, 0x1000, 0x2000, 0x200
ENCODINGS = {0: "utf-8", 1252: "cp1252", 65001: "utf-8"}


class Column(NamedTuple):
    """A column's name and type bits."""

    name: str
    bits: int

    @property
    def is_key(self):
        return bool(self.bits & KEY)

    @property
    def takes_null(self):
        return bool(self.bits & NULLABLE)

    @property
    def is_text(self):
        return self.bits & (STRING | NOT_BINARY) == STRING | NOT_BINARY

    @property
    def is_stream(self):
        return self.bits & (STRING | NOT_BINARY) == STRING

    @property
    def width(self):
        """Returns the bytes of a number."""
        return 4 if not self.bits & STRING and self.bits & 0xFF == 4 else 2


class Table(NamedTuple):
    """Columns, and rows: each a list of values, None, numbers, texts and bytes."""

    columns: list
    rows: list

    def key(self, row):
        return tuple(value for value, it in zip(row, self.columns) if it.is_key)

    def by_key(self):
        return {self.key(row): row for row in self.rows}


class Database(NamedTuple):
    """What a transform carries of a package: the page, and the tables by their names."""

    page: int
    tables: dict


def stream_name(name, key):
    return packed(".".join([name, *("" if it is None else str(it) for it in key)]))


class Pool:
    """A pool of texts that is being written: one place a text until its count is 65535."""

    def __init__(self, page, is_wide=False):
        self.page, self.is_wide, self.places, self.open = page, is_wide, [], {}

    def take(self, text):
        if text is None:
            return 0
        place = self.open.get(text)
        if place is None or self.places[place][1] == 65535:
            place = self.open[text] = len(self.places)
            self.places.append([text, 0])
        self.places[place][1] += 1
        return place + 1

    def streams(self):
        self.is_wide = self.is_wide or len(self.places) > 65535
        texts = [(text.encode(ENCODINGS[self.page]), count) for text, count in self.places]
        pool = struct.pack("<I", self.page | self.is_wide << 31)
        for text, count in texts:
            is_long = len(text) > 65535 or not text
            pool += struct.pack("<HHI", 0, count, len(text)) if is_long else struct.pack("<HH", len(text), count)
        names = packed("_StringPool", True), packed("_StringData", True)
        return dict(zip(names, (pool, b"".join(text for text, _ in texts))))


def read_pool(streams):
    """Returns the page, the bytes of a reference, and the texts with their counts, 0 first."""
    pool, data = (streams[packed(it, True)] for it in ("_StringPool", "_StringData"))
    first, at, start, texts = struct.unpack_from("<I", pool)[0], 4, 0, [(None, 0)]
    page = first & 0x7FFFFFFF
    while at + 4 <= len(pool):
        length, count = struct.unpack_from("<HH", pool, at)
        at += 4
        if not length and count:
            length = struct.unpack_from("<I", pool, at)[0]
            at += 4
        texts.append((data[start : start + length].decode(ENCODINGS[page], errors="replace"), count))
        start += length
    return page, 3 if first >> 31 else 2, texts


def pack_number(number, size):
    top = 1 << 8 * size - 1
    return (0 if number is None else number + top).to_bytes(size, "little")


def unpack_number(data):
    top = 1 << 8 * len(data) - 1
    number = int.from_bytes(data, "little")
    return number - top if number else None


def size_of(column, reference):
    return 2 if column.is_stream else reference if column.is_text else column.width


def read_cell(column, data, texts):
    if column.is_stream:
        return int.from_bytes(data, "little") or None
    if column.is_text:
        place = int.from_bytes(data, "little")
        return texts[place][0] if place < len(texts) else f"(no place {place})"
    return unpack_number(data)


def read_rows(columns, data, reference, texts):
    sizes = [size_of(it, reference) for it in columns]
    count, at, cells = len(data) // sum(sizes), 0, []
    for column, size in zip(columns, sizes):
        cells.append([read_cell(column, data[at + i * size :][:size], texts) for i in range(count)])
        at += count * size
    return [list(row) for row in zip(*cells)]


TABLES = [Column("Name", 0x2D40)]
COLUMNS = [Column("Table", 0x2D40), Column("Number", 0x2502), Column("Name", 0x0D40), Column("Type", 0x0502)]


def read_database(path):
    """Returns what a transform carries of a package."""
    streams = read_compound(open(path, "rb").read())[1]
    page, reference, texts = read_pool(streams)
    rows = lambda name, columns: read_rows(columns, streams.get(packed(name, True), b""), reference, texts)
    columns = collections.defaultdict(dict)
    for table, number, name, bits in rows("_Columns", COLUMNS):
        columns[table][number] = Column(name, bits & 0xFFFF)
    tables = {}
    for (name,) in rows("_Tables", TABLES):
        found = [columns[name][it] for it in sorted(columns[name])]
        tables[name] = Table(found, rows(name, found) if found else [])
        for row in tables[name].rows:
            stream = streams.get(stream_name(name, tables[name].key(row)))
            for place, column in enumerate(found):
                if column.is_stream and row[place] is not None:
                    row[place] = stream
    return Database(page, tables)


# --- packages that are written here

CODE = "{6E1F4A31-8C5B-4B0E-9C5D-2D3A9C1B7F10}"


def property_set(properties):
    """Returns the stream of a summary: texts and 32-bit numbers by their ids."""
    values, places = b"", []
    for number, value in sorted(properties.items()):
        places.append(struct.pack("<II", number, 8 + 8 * len(properties) + len(values)))
        if isinstance(value, int):
            values += struct.pack("<Ii", 3, value)
        else:
            text = value.encode() + b"\0"
            values += struct.pack("<II", 30, len(text)) + text + bytes(-len(text) % 4)
    section = struct.pack("<II", 8 + 8 * len(properties) + len(values), len(properties)) + b"".join(places) + values
    header = struct.pack("<HHI16xI", 0xFFFE, 0, 0x2000A, 1) + bytes.fromhex("e0859ff2f94f6810ab9108002b27b3d9")
    return header + struct.pack("<I", 48) + section


def write_database(path, database, is_wide=False):
    """Writes a package, with references of three bytes if these are wanted."""
    pool, stored = Pool(database.page, is_wide), {}
    described = [[name, i, *it] for name, table in database.tables.items() for i, it in enumerate(table.columns, 1)]
    tables = {**database.tables, "_Columns": Table(COLUMNS, described)}
    tables["_Tables"] = Table(TABLES, [[it] for it in database.tables])
    streams = {SUMMARY: property_set({2: "Installation Database", 7: "Intel;1033", 9: CODE, 14: 200})}
    for name, (columns, rows) in tables.items():
        stored[name] = sorted([cell_of(pool, *it) for it in zip(columns, row)] for row in rows)
        for place in (it for it, column in enumerate(columns) if column.is_stream):
            held = {stream_name(name, Table(columns, rows).key(row)): row[place] for row in rows}
            streams.update({name: data for name, data in held.items() if data is not None})
    streams.update(pool.streams())
    for name, rows in stored.items():
        sizes = [size_of(it, 3 if pool.is_wide else 2) for it in tables[name].columns]
        held = b"".join(cell.to_bytes(size, "little") for size, cells in zip(sizes, zip(*rows)) for cell in cells)
        if held:
            streams[packed(name, True)] = held
    with open(path, "wb") as it:
        it.write(compound(PACKAGE, streams))


def cell_of(pool, column, value):
    """Returns a cell as a number without sign."""
    if column.is_stream:
        return int(value is not None)
    if column.is_text:
        return pool.take(value)
    return int.from_bytes(pack_number(value, column.width), "little")


# --- packages that msibuild writes of text archives


def archive_type(column):
    if column.is_stream:
        letter, width = "v", 0
    elif column.is_text:
        letter, width = "l" if column.bits & LOCALIZED else "s", column.bits & 0xFF
    else:
        letter, width = "i", column.width
    return (letter.upper() if column.takes_null else letter) + str(width)


def can_be_built(database):
    """Returns whether msibuild makes this package of text archives: it wants keys first, and no null but in columns
    that take null, and fewer than 32 columns; an archive has no empty text and no control characters, and a stream for
    each file."""
    for columns, rows in database.tables.values():
        keys = [it.is_key for it in columns]
        if keys != sorted(keys, reverse=True) or sum(it.is_stream for it in columns) > 1 or len(columns) > 31:
            return False
        for value, column in ((value, it) for row in rows for value, it in zip(row, columns)):
            if value is None and not column.takes_null or value in ("", b""):
                return False
            if isinstance(value, str) and re.search("[\x00-\x1f]", value):
                return False
    return True


def build(path, database, folder):
    """Makes a package by msibuild."""
    os.makedirs(folder)
    files = []
    for name, table in database.tables.items():
        files += ["-i", f"{name}.idt"]
        with open(f"{folder}/{name}.idt", "w", encoding="utf-8", newline="") as it:
            keys = [column.name for column in table.columns if column.is_key]
            lines = [[column.name for column in table.columns], map(archive_type, table.columns), [name, *keys]]
            lines += archive_rows(f"{folder}/{name}", table)
            it.writelines("\t".join(fields) + "\r\n" for fields in lines)
    with open(f"{folder}/page.idt", "w", encoding="ascii", newline="") as it:
        it.write(f"\r\n\r\n{database.page}\t_ForceCodepage\r\n")
    # (its -s takes one argument too many, so it comes last)
    words = ["msibuild", os.path.realpath(path), "-i", "page.idt", *files, "-s", "A package", "Writer", ";1033", CODE]
    done = subprocess.run(words, cwd=folder, capture_output=True)
    if done.returncode:
        sys.exit(f"check-transforms: msibuild failed: {done.stderr.decode(errors='replace').splitlines()[-1:]}")


def archive_rows(folder, table):
    """Returns the rows of a text archive, and writes the files of its streams into a folder."""
    for number, row in enumerate(table.rows):
        fields = []
        for value in row:
            if isinstance(value, bytes):
                os.makedirs(folder, exist_ok=True)
                with open(f"{folder}/{number}.ibd", "wb") as it:
                    it.write(value)
                value = f"{number}.ibd"
            fields.append("" if value is None else str(value))
        yield fields


# --- transforms that are made here


class Told(NamedTuple):
    """A record: the table, ADD, DELETE or CHANGE, the row, and the places of the cells besides the key."""

    table: str
    action: str
    row: list
    places: list


ADD, DELETE, CHANGE = "add", "delete", "change"


class Maker:
    """Makes a transform by the rules, without msipkg."""

    def __init__(self, old, new):
        self.old, self.new, self.pool = old, new, Pool(new.page)
        self.told, self.cells, self.brought = [], collections.defaultdict(list), {}
        self.tables()
        self.columns()
        for name in by_bytes(new.tables):
            self.rows(name, old.tables.get(name), new.tables[name])

    def tell(self, name, table, action, row, places):
        """Adds a record, and the stream that it brings."""
        self.told.append(Told(name, action, row, places))
        masks = {ADD: 1 | len(row) << 8, DELETE: 0, CHANGE: sum(1 << it for it in places)}
        cells = [(2, masks[action])]
        for place, (column, value) in enumerate(zip(table.columns, row)):
            if column.is_key or place in places:
                cells.append((None if column.is_text else size_of(column, 2), cell_of(self.pool, column, value)))
                if column.is_stream and value is not None:
                    self.brought[stream_name(name, table.key(row))] = value
        self.cells[name].append(cells)

    def tables(self):
        table = Table(TABLES, [])
        for it in by_bytes(self.old.tables.keys() - self.new.tables.keys()):
            self.tell("_Tables", table, DELETE, [it], [])
        for it in by_bytes(self.new.tables.keys() - self.old.tables.keys()):
            self.tell("_Tables", table, ADD, [it], [0])

    def columns(self):
        for name in by_bytes(self.new.tables):
            old = self.old.tables.get(name)
            known = len(old.columns) if old else 0
            for number, it in enumerate(self.new.tables[name].columns[known:], known + 1):
                row = [name, number if old else None, it.name, it.bits]
                self.tell("_Columns", Table(COLUMNS, []), ADD, row, [0, 1, 2, 3])

    def rows(self, name, old, new):
        known = len(old.columns) if old else 0
        gained = [None] * (len(new.columns) - known)
        before = Table(new.columns, [row + gained for row in old.rows] if old else []).by_key()
        after, places = new.by_key(), list(range(len(new.columns)))
        deletes, changes, adds = set(before.keys() - after.keys()), {}, set(after.keys() - before.keys())
        for key in before.keys() & after.keys():
            differing = [it for it in places if before[key][it] != after[key][it]]
            if differing:
                changes[key] = differing
        if gained and before and not deletes and not changes and not adds:
            changes[min(before, key=order)] = [known]
        for key in [it for it, differing in changes.items() if differing[0] == 0 or differing[-1] > 15]:
            del changes[key]
            deletes.add(key)
            adds.add(key)
        for key in sorted(deletes, key=order):
            self.tell(name, new, DELETE, before[key], [])
        for key in sorted(changes, key=order):
            self.tell(name, new, CHANGE, after[key], changes[key])
        for key in sorted(adds, key=order):
            self.tell(name, new, ADD, after[key], places)

    def streams(self):
        """Returns the streams of the transform, but for the summary."""
        streams = {**self.brought, **self.pool.streams()}
        wide = 3 if self.pool.is_wide else 2
        for name, records in self.cells.items():
            held = b"".join(cell.to_bytes(size or wide, "little") for cells in records for size, cell in cells)
            streams[packed(name, True)] = held
        return streams


def by_bytes(names):
    return sorted(names, key=str.encode)


def order(key):
    """Returns what keys are sorted by: null, numbers, texts by their bytes."""
    return [(0, 0) if it is None else (1, it) if isinstance(it, int) else (2, it.encode()) for it in key]


def records_in(data, columns):
    """Returns the records of a transform, each its mask and its values, by the names of tables with these columns."""
    streams, found = read_compound(data)[1], {}
    _, reference, texts = read_pool(streams)
    for name, it in columns.items():
        found[name] = read_records(streams.get(packed(name, True), b""), it, reference, texts)
    return found


def read_records(data, columns, reference, texts):
    at, records = 0, []
    while at < len(data):
        mask, at, values = struct.unpack_from("<H", data, at)[0], at + 2, []
        for place, column in enumerate(columns):
            if place < mask >> 8 if mask & 1 else column.is_key or mask >> place & 1:
                size = size_of(column, reference)
                values.append(read_cell(column, data[at : at + size], texts))
                at += size
        records.append((mask, *values))
    return records
