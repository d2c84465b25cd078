#!/usr/bin/env python3
"""Prints the page of a SuperCard Pro image, over the shared library that `./install PREFIX` makes:

    THIKBROMU=PREFIX/lib/libthikbromu.so examples/python/list_image.py samples/small.scp

Without THIKBROMU the system is asked for the library. It prints what `thikbromu disk` prints.
"""

import ctypes
import ctypes.util
import os
import sys

MOST_CELL_BYTES = 16_384
MOST_FINDINGS = 901
LONGEST_LINE = 64
ENTRIES = 168

Bytes = ctypes.c_char_p
Size = ctypes.c_size_t
Sizes = ctypes.POINTER(Size)
Number = ctypes.c_uint32
Numbers = ctypes.POINTER(Number)

# The calls that are used, with what they take. Each gives 0, or the number of a refusal.
CALLS = {
    "image_header": [Bytes, Size, Size, Numbers, Size, Sizes],
    "image_entries": [Bytes, Size, Size, Numbers, Size, Sizes],
    "image_check": [Bytes, Size, Size, Number, Sizes],
    "revolution_cells": [Bytes, Size, Number, Number, Bytes, Size, Sizes, Sizes],
    "findings": [Bytes, Size, Size, Number, Number, Numbers, Size, Sizes],
    "disk_page": [Numbers, Size, Numbers, Size, Bytes, Size, Sizes],
}


class Refused(Exception):
    """A call that is refused, with its number and the value beside it."""


class Library:
    """The library's calls; each gives the value that it stores, or raises Refused."""

    def __init__(self):
        name = os.environ.get("THIKBROMU") or ctypes.util.find_library("thikbromu")
        if not name:
            sys.exit("list_image.py: there is no libthikbromu; name it in THIKBROMU")
        self.library = ctypes.CDLL(name)
        for call, takes in CALLS.items():
            function = self.library["thikbromu_" + call]
            function.argtypes, function.restype = takes, Number
        self.library.thikbromu_image_sum.argtypes = [Number, Bytes, Size]
        self.library.thikbromu_image_sum.restype = Number

    def call(self, name, *arguments):
        value = Size()
        refusal = self.library["thikbromu_" + name](*arguments, ctypes.byref(value))
        if refusal:
            raise Refused(refusal, value.value)
        return value.value

    def sum(self, image):
        return self.library.thikbromu_image_sum(0, image[16:], len(image) - 16)


def findings_of(library, block, revolutions, revolution, track, side):
    """The findings of a block's revolution, four numbers each."""
    cells = ctypes.create_string_buffer(MOST_CELL_BYTES)
    pulses = Size()
    count = library.call("revolution_cells", block, len(block), revolutions, revolution, cells, MOST_CELL_BYTES, ctypes.byref(pulses))
    numbers = (Number * (4 * MOST_FINDINGS))()
    found = library.call("findings", cells, MOST_CELL_BYTES, count, track, side, numbers, len(numbers))
    return list(numbers[: 4 * found])


def page_of(library, image):
    """The page of an image, without the tracks that are refused; these are named on standard error."""
    header = (Number * 10)()
    library.call("image_header", image, len(image), len(image), header, len(header))
    revolutions = header[2]
    places = (Number * (2 * ENTRIES))()
    library.call("image_entries", image, len(image), len(image), places, len(places))
    library.call("image_check", image, len(image), len(image), library.sum(image))
    tracks, findings = [], []
    for entry in range(ENTRIES):
        start, end = places[2 * entry], places[2 * entry + 1]
        if start == 0:
            continue
        track, side = divmod(entry, 2)
        try:
            found = findings_of(library, image[start:end], revolutions, min(1, revolutions - 1), track, side)
        except Refused as refusal:
            print(f"T{track:02} H{side} refused {refusal.args[0]}", file=sys.stderr)
            continue
        tracks += [track, side, len(found) // 4]
        findings += found
    page = ctypes.create_string_buffer(LONGEST_LINE * (len(findings) // 4) + 1)
    length = library.call(
        "disk_page",
        (Number * len(tracks))(*tracks),
        len(tracks),
        (Number * len(findings))(*findings),
        len(findings),
        page,
        len(page),
    )
    return page.raw[:length].decode("ascii")


def main():
    if len(sys.argv) != 2:
        sys.exit("usage: list_image.py IMAGE.scp")
    with open(sys.argv[1], "rb") as file:
        image = file.read()
    try:
        print(page_of(Library(), image), end="")
    except Refused as refusal:
        sys.exit(f"{sys.argv[1]}: refused {refusal.args[0]}, value {refusal.args[1]}")


if __name__ == "__main__":
    main()
