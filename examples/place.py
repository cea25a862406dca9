"""Places a block and checks the answer, from Python.

    (cd crates/capi && rt lib) && mkdir -p target
    gcc -shared -o target/libplaces.so -Wl,--whole-archive crates/capi/out/libcapi.a -Wl,--no-whole-archive
    python3 examples/place.py blocks/question.block

It prints what examples/place.c prints, and ends with the same status.
"""

import ctypes
import pathlib
import struct
import sys

SAMPLES = 16000  # in a second
LONGEST_ANSWER = 350  # bytes, for 32 words, 8 anchors and 16 spans
TIMES, PRICES, GAP, PASSES = 17, 18, 19, 20  # the tags of the answer's fields

library = ctypes.CDLL(str(pathlib.Path(__file__).parent / "../target/libplaces.so"))

library.places_place.restype = ctypes.c_uint32
library.places_place.argtypes = [
    ctypes.c_char_p,
    ctypes.c_size_t,
    ctypes.POINTER(ctypes.c_uint8),
    ctypes.c_size_t,
    ctypes.POINTER(ctypes.c_uint64),
]

library.places_check.restype = ctypes.c_uint32
library.places_check.argtypes = [
    ctypes.c_char_p,
    ctypes.c_size_t,
    ctypes.POINTER(ctypes.c_int32),
    ctypes.c_size_t,
    ctypes.POINTER(ctypes.c_int64),
    ctypes.c_size_t,
    ctypes.POINTER(ctypes.c_int64),
]


class Refused(Exception):
    """A number of document 01's refusal table."""

    def __init__(self, number):
        super().__init__(f"refused {number}")
        self.number = number


def place(block):
    """The times, the prices (anchors, spans, cap), the gap and the rounds of a block's plan."""
    answer = (ctypes.c_uint8 * LONGEST_ANSWER)()
    written = ctypes.c_uint64()
    number = library.places_place(block, len(block), answer, len(answer), ctypes.byref(written))
    if number != 0:
        raise Refused(number)
    fields = read_fields(bytes(answer)[: written.value])
    times = struct.unpack(f"<{len(fields[TIMES]) // 4}i", fields[TIMES])
    prices = struct.unpack(f"<{len(fields[PRICES]) // 8}q", fields[PRICES])
    (gap,) = struct.unpack("<q", fields[GAP])
    (passes,) = struct.unpack("<H", fields[PASSES])
    return times, prices, gap, passes


def read_fields(answer):
    """The bodies of an answer's fields, by tag."""
    fields = {}
    while answer:
        tag, length = struct.unpack_from("<BH", answer)
        fields[tag] = answer[3 : 3 + length]
        answer = answer[3 + length :]
    return fields


def check(block, times, prices):
    """The gap of anyone's plan and prices."""
    gap = ctypes.c_int64()
    times = (ctypes.c_int32 * len(times))(*times)
    prices = (ctypes.c_int64 * len(prices))(*prices)
    number = library.places_check(
        block, len(block), times, len(times), prices, len(prices), ctypes.byref(gap)
    )
    if number != 0:
        raise Refused(number)
    return gap.value


def main(name):
    block = pathlib.Path(name).read_bytes()
    try:
        times, prices, gap, passes = place(block)
    except Refused as refused:
        print(refused)
        return 1
    for word, time in enumerate(times):
        print(f"word {word}: sample {time}, {time / SAMPLES:.3f} seconds")
    print(f"gap {gap}, rounds {passes}")
    try:
        checked = check(block, times, prices)
    except Refused as refused:
        print(f"check: {refused}")
        return 1
    print(f"check: gap {checked}")
    return 0 if checked == gap else 1


if __name__ == "__main__":
    if len(sys.argv) != 2:
        sys.exit("usage: place.py BLOCK")
    sys.exit(main(sys.argv[1]))
