#!/usr/bin/env python3
"""Holds what the library converted against a real XML parser, the expat that comes with python3.

    expat.py [LEAST] < FILE

FILE is written by `convert`: shape, text and catalogue file of each conversion, each with its length (4 bytes) before
it. The parser must take each text as well-formed, and its elements must be the rows, parent rows and cells of the
catalogue, whose tables are the shape's. Prints how many were compared. The status is 1 after a difference, or if fewer
than LEAST (10,000 if not given) were compared.
"""

import struct
import sys
from xml.parsers import expat

MISSING = 4_294_967_295
NO_PARENT = 65_535


def tables_of(file):
    """The tables of a catalogue file: columns, parent table and rows, a row being its parent row and its codes."""
    (count,) = struct.unpack_from("<H", file, len(file) - 6)
    (trailer,) = struct.unpack_from("<I", file, len(file) - 4)
    assert trailer + 4 * count + 6 == len(file), "the trailer"
    tables, at = [], 0
    for offset in struct.unpack_from(f"<{count}I", file, trailer):
        assert offset == at, "an offset"
        columns, parent, rows = struct.unpack_from("<3H", file, at)
        row = struct.Struct(f"<H{columns}I")
        at += 6 + rows * row.size
        tables.append((columns, parent, list(row.iter_unpack(file[offset + 6 : at]))))
    assert at == trailer, "the trailer's place"
    return tables


def rows_of(text, columns):
    """The rows of each table by the parser's elements, for tables of so many columns."""
    rows = [[] for _ in columns]
    above = []

    def start(name, attributes):
        if not above:
            assert name == "catalogue" and not attributes, "the outermost element"
            above.append(NO_PARENT)
            return
        assert name[0] == "t", "a row's name"
        table = int(name[1:])
        cells = [MISSING] * columns[table]
        for column, value in attributes.items():
            assert column[0] == "c", "a column's name"
            cells[int(column[1:])] = int(value)
        above.append(len(rows[table]))
        rows[table].append((above[-2], *cells))

    def end(_):
        above.pop()

    def characters(data):
        assert not data.strip(" \t\r\n"), "other text"

    def other(*_):
        assert False, "what is neither an element nor text"

    parser = expat.ParserCreate()
    parser.StartElementHandler = start
    parser.EndElementHandler = end
    parser.CharacterDataHandler = characters
    parser.CommentHandler = parser.ProcessingInstructionHandler = parser.StartCdataSectionHandler = other
    parser.XmlDeclHandler = parser.StartDoctypeDeclHandler = other
    parser.Parse(text, True)
    return rows


def compare(shape, text, catalogue):
    """Fails where the parser and the catalogue differ."""
    tables, bare = tables_of(catalogue), tables_of(shape)
    assert [table[:2] for table in tables] == [table[:2] for table in bare], "the tables"
    assert not any(rows for _, _, rows in bare), "rows in the shape"
    rows = rows_of(text, [columns for columns, _, _ in tables])
    assert rows == [rows for _, _, rows in tables], "the rows"


def conversions(file):
    """Shape, text and catalogue of each conversion."""
    while length := file.read(4):
        shape = file.read(int.from_bytes(length, "little"))
        text, catalogue = [file.read(int.from_bytes(file.read(4), "little")) for _ in range(2)]
        yield shape, text, catalogue


def main():
    least = int(sys.argv[1]) if len(sys.argv) > 1 else 10_000
    count = 0
    for shape, text, catalogue in conversions(sys.stdin.buffer):
        try:
            compare(shape, text, catalogue)
        except (AssertionError, IndexError, ValueError, struct.error, expat.ExpatError) as difference:
            print(f"DIFFERENCE, {difference}\nshape {shape.hex()}\ntext {text!r}\ncatalogue {catalogue.hex()}")
            return 1
        count += 1
    print(f"expat {expat.EXPAT_VERSION[6:]} reads the same rows in {count} converted texts")
    if count < least:
        print(f"these are fewer than {least}")
        return 1
    return 0


sys.exit(main())
