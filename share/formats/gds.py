"""A reader of GDSII files of boundaries, texts and calls, written from the format's public description: records of a length, a kind and a type.

`read(bytes)` gives the database unit in metres and the structures by name, each a Structure, or raises ValueError.
"""

import struct
from typing import NamedTuple

BEGIN, NAME, BOUNDARY, CALL, TEXT = 0x05, 0x06, 0x08, 0x0A, 0x0C
LAYER, DATATYPE, POINTS, END, CALLED = 0x0D, 0x0E, 0x10, 0x11, 0x12
TEXTTYPE, STRING, FLAGS, ANGLE, UNITS = 0x16, 0x19, 0x1A, 0x1C, 0x03
INTEGERS = {LAYER: ">h", DATATYPE: ">h", TEXTTYPE: ">h", FLAGS: ">H"}
MIRRORED = 0x8000


class Structure(NamedTuple):
    """Boxes and texts with their layer and datatype, and calls as (name, whether it is mirrored about x first, angle, x, y)."""

    boxes: list
    texts: list
    calls: list


def records(data):
    at = 0
    while at + 4 <= len(data):
        length, kind, _ = struct.unpack(">HBB", data[at : at + 4])
        if length < 4:
            return
        yield kind, data[at + 4 : at + length]
        at += length


def number(data):
    """A number in base sixteen: a sign, an exponent from -64 on, and a fraction."""
    fraction = int.from_bytes(data[1:8], "big") / 2**56
    return (-1 if data[0] & 0x80 else 1) * fraction * 16.0 ** ((data[0] & 0x7F) - 64)


def value(kind, body):
    if kind in INTEGERS:
        return struct.unpack(INTEGERS[kind], body)[0]
    if kind == POINTS:
        numbers = struct.unpack(f">{len(body) // 4}i", body)
        return list(zip(numbers[::2], numbers[1::2]))
    if kind == ANGLE:
        return number(body)
    return body.rstrip(b"\0").decode("latin-1") if kind in (NAME, CALLED, STRING) else body


def add(structure, kind, fields):
    points = fields[POINTS]
    if kind == BOUNDARY:
        xs, ys = sorted({x for x, _ in points}), sorted({y for _, y in points})
        if len(xs) != 2 or len(ys) != 2 or len(points) != 5:
            raise ValueError("a boundary that is no box")
        structure.boxes.append((fields[LAYER], fields[DATATYPE], (xs[0], ys[0], xs[1], ys[1])))
    elif kind == TEXT:
        structure.texts.append((fields[LAYER], fields[TEXTTYPE], *points[0], fields[STRING]))
    else:
        is_mirrored = bool(fields.get(FLAGS, 0) & MIRRORED)
        structure.calls.append((fields[CALLED], is_mirrored, fields.get(ANGLE, 0), *points[0]))


def read(data):
    unit, structures, now, kind, fields = None, {}, None, None, {}
    for record, body in records(data):
        if record == UNITS:
            unit = number(body[8:])
        elif record == NAME:
            now = structures.setdefault(value(record, body), Structure([], [], []))
        elif record in (BOUNDARY, CALL, TEXT):
            kind, fields = record, {}
        elif record == END and kind is not None:
            add(now, kind, fields)
            kind = None
        elif kind is not None:
            fields[record] = value(record, body)
    if unit is None:
        raise ValueError("it has no units")
    return unit, structures
