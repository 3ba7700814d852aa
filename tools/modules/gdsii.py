"""GDSII files, record by record, for the scripts of this folder.

Nothing is checked beyond what is needed to go on: whether a file is a library, the program says.
"""
import struct
from typing import NamedTuple, Optional

BGNSTR, STRNAME, ENDSTR, ENDLIB, UNITS = 0x0502, 0x0606, 0x0700, 0x0400, 0x0305
BOUNDARY, PATH, SREF, AREF, TEXT, NODE, BOX = 0x0800, 0x0900, 0x0A00, 0x0B00, 0x0C00, 0x1500, 0x2D00
ENDEL, XY, LAYER, SNAME, COLROW, STRING = 0x1100, 0x1003, 0x0D02, 0x1206, 0x1302, 0x1906
DATATYPES = (0x0E02, 0x1602, 0x2A02, 0x2E02)  # DATATYPE, TEXTTYPE, NODETYPE, BOXTYPE
PROPATTR, PROPVALUE = 0x2B02, 0x2C06
KINDS = {BOUNDARY: "BOUNDARY", PATH: "PATH", SREF: "SREF", AREF: "AREF", TEXT: "TEXT", NODE: "NODE", BOX: "BOX"}
UNNUMBERED = ("NODE", "BOX")  # these don't count where elements of a structure are numbered


class Record(NamedTuple):
    at: int
    code: int
    data: bytes

    def numbers(self):
        form = "i" if self.code == XY else "h"
        count = len(self.data) // struct.calcsize(form)
        return struct.unpack(f">{count}{form}", self.data[: count * struct.calcsize(form)])

    def text(self):
        return self.data.rstrip(b"\0").decode("latin-1")

    def spelled(self):
        return record(self.code, self.data)


class Element(NamedTuple):
    """An element with its structure's name, and its number among the elements of its structure, or None."""

    structure: str
    number: Optional[int]
    kind: str
    records: list

    def record(self, *codes):
        return next((it for it in self.records if it.code in codes), None)

    def layer(self):
        """Layer and datatype, or texttype, or None."""
        layer, datatype = self.record(LAYER), self.record(*DATATYPES)
        if layer is None or datatype is None or not layer.numbers() or not datatype.numbers():
            return None
        return layer.numbers()[0], datatype.numbers()[0]

    def points(self):
        values = [value for it in self.records if it.code == XY for value in it.numbers()]
        return list(zip(values[::2], values[1::2]))

    def refers_to(self):
        name = self.record(SNAME)
        return None if name is None else name.text()

    def properties(self):
        attributes = [it.numbers()[0] for it in self.records if it.code == PROPATTR]
        return dict(reversed(list(zip(attributes, (it.text() for it in self.records if it.code == PROPVALUE)))))


def record(code, data=b""):
    data += bytes(len(data) % 2)
    return struct.pack(">HH", 4 + len(data), code) + data


def records(data):
    """The records up to ENDLIB or up to the first that can't be cut off."""
    at = 0
    while at + 4 <= len(data):
        length, code = struct.unpack_from(">HH", data, at)
        if length < 4 or at + length > len(data):
            return
        yield Record(at, code, data[at + 4 : at + length])
        if code == ENDLIB:
            return
        at += length


def parts(found):
    """The records of a file one by one, but those of an element together, as an Element. The last one may not be ended."""
    structure, number, element = "", 0, []
    for it in found:
        if element or it.code in KINDS:
            element.append(it)
            if it.code == ENDEL:
                yield element_of(structure, number, element)
                number, element = number + (KINDS[element[0].code] not in UNNUMBERED), []
            continue
        if it.code == BGNSTR:
            number = 0
        if it.code == STRNAME:
            structure = it.text()
        yield it
    if element:
        yield element_of(structure, number, element)


def element_of(structure, number, found):
    kind = KINDS[found[0].code]
    return Element(structure, None if kind in UNNUMBERED else number, kind, found)


def elements(data):
    return [it for it in parts(records(data)) if isinstance(it, Element)]
