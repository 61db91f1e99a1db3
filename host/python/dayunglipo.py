"""Dayunglipo from Python, by ctypes over dist/libdayunglipo.so.

As a program it reads one description from a file or from standard input, and
prints its fields, the first outputs, the replies to a few questions, and the
report:

    python3 host/python/dayunglipo.py [FILE]
"""

import ctypes
import os
import pathlib
import sys
from ctypes import (POINTER, Structure, c_bool, c_double, c_size_t, c_uint8, c_uint16, c_uint32,
                    c_uint64)

MOST_BITS = 480
MOST_OUTPUT = 32
ROW_WORDS = 8
WORK_WORDS = 7696
TEXT_BYTES = 16480
LONGEST_DESCRIPTION = 65


class Fields(Structure):
    """The kind and the body's fields; those of other kinds are zero."""

    _fields_ = [
        ("kind", c_uint8), ("k", c_uint16), ("nu", c_uint8), ("r", c_uint16), ("m", c_uint16),
        ("w", c_uint8), ("p", c_uint8), ("bits", c_uint8), ("a", c_uint32), ("u", c_uint8),
        ("s", c_uint8), ("b", c_uint32), ("t", c_uint8), ("c", c_uint32), ("v", c_uint8),
        ("coefficients", c_uint8 * 60),
    ]


class Words(Structure):
    """A start state: bit i is worth 2^(i mod 64) in word i div 64."""

    _fields_ = [("words", c_uint64 * ROW_WORDS)]


class Reading(Structure):
    _fields_ = [("refusal", c_uint32), ("fields", Fields)]


class Valued(Structure):
    _fields_ = [("refusal", c_uint32), ("value", c_double)]


class Reply(Structure):
    _fields_ = [("refusal", c_uint32), ("yes", c_bool), ("d", c_size_t), ("set", c_uint64 * ROW_WORDS)]


class BasisReply(Structure):
    _fields_ = [("refusal", c_uint32), ("words", c_size_t)]


class ReportReply(Structure):
    _fields_ = [
        ("refusal", c_uint32), ("resolutions", c_uint32 * MOST_BITS),
        ("dimensions", c_uint32 * MOST_OUTPUT), ("resolution_sum", c_uint32),
        ("dimension_sum", c_uint32), ("me", c_bool),
    ]


class Refused(Exception):
    """A refusal; its number is the table's of the header."""

    def __init__(self, number):
        super().__init__(f"refused {number}")
        self.number = number


BYTES, NUMBERS, WORK = POINTER(c_uint8), POINTER(c_uint32), POINTER(c_uint64)
FUNCTIONS = {
    "read": (Reading, [BYTES, c_size_t]),
    "write": (c_uint32, [Fields, BYTES, c_size_t]),
    "outputs": (c_uint32, [Fields, c_size_t, Words, NUMBERS, c_size_t]),
    "value": (Valued, [c_uint64, c_uint32]),
    "question": (Reply, [Fields, c_size_t, c_size_t, WORK, c_size_t]),
    "basis_check": (c_uint32, [Fields, c_size_t, c_size_t, c_size_t]),
    "basis": (BasisReply, [Fields, c_size_t, c_size_t, WORK, c_size_t]),
    "report": (ReportReply, [Fields, WORK, c_size_t]),
    "listing": (c_size_t, [BYTES, c_size_t, BYTES, c_size_t]),
}


def load(path=None):
    """The library's functions by name; DAYUNGLIPO_LIBS may name its folder."""
    root = pathlib.Path(__file__).resolve().parents[2]
    folder = pathlib.Path(os.environ.get("DAYUNGLIPO_LIBS", root / "dist"))
    library = ctypes.CDLL(str(path or folder / "libdayunglipo.so"))
    functions = {}
    for name, (result, arguments) in FUNCTIONS.items():
        function = getattr(library, "dayunglipo_" + name)
        function.restype, function.argtypes = result, arguments
        functions[name] = function
    return functions


class Dayunglipo:
    """The calls; each raises Refused with the number of a refusal."""

    def __init__(self, path=None):
        self.functions = load(path)

    def read(self, data):
        """The fields of a description."""
        reply = self.functions["read"]((c_uint8 * len(data)).from_buffer_copy(data), len(data))
        return checked(reply).fields

    def write(self, fields):
        """The description of the fields."""
        out = (c_uint8 * LONGEST_DESCRIPTION)()
        refused(self.functions["write"](fields, out, len(out)))
        return bytes(out[:{3: 21, 4: 24}.get(fields.kind, 65)])

    def outputs(self, fields, t, state):
        """The first t outputs from a start state, a whole number whose bit i is state bit i."""
        unsigned(state, 64 * ROW_WORDS)
        words = [state >> (64 * i) & (2**64 - 1) for i in range(ROW_WORDS)]
        out = (c_uint32 * min(unsigned(t, 64), MOST_BITS))()
        start = Words((c_uint64 * ROW_WORDS)(*words))
        refused(self.functions["outputs"](fields, t, start, out, len(out)))
        return list(out)

    def value(self, y, bits):
        """The number y / 2^bits."""
        return checked(self.functions["value"](unsigned(y, 64), unsigned(bits, 32))).value

    def question(self, fields, t, l):
        """Yes as (True, 0, 0); no as (False, d, the set as a whole number)."""
        t, l = unsigned(t, 64), unsigned(l, 64)
        reply = checked(self.functions["question"](fields, t, l, work(), WORK_WORDS))
        return reply.yes, reply.d, whole(reply.set)

    def basis(self, fields, t, l):
        """The reduced rows, each a whole number whose bit i is state bit i."""
        lent, t, l = work(), unsigned(t, 64), unsigned(l, 64)
        reply = checked(self.functions["basis"](fields, t, l, lent, WORK_WORDS))
        return [whole(lent[i:i + ROW_WORDS]) for i in range(0, reply.words, ROW_WORDS)]

    def report(self, fields):
        """The whole report."""
        return checked(self.functions["report"](fields, work(), WORK_WORDS))

    def listing(self, data):
        """The listing's text."""
        lent, text = (c_uint8 * len(data)).from_buffer_copy(data), (c_uint8 * TEXT_BYTES)()
        length = self.functions["listing"](lent, len(data), text, TEXT_BYTES)
        return bytes(text[:length]).decode("ascii")


def unsigned(number, bits):
    """The number, if it is a whole number of so many bits; ctypes would cut it off without a word."""
    if not 0 <= number < 1 << bits:
        raise ValueError(f"not a number of {bits} bits: {number}")
    return number


def work():
    """A new work buffer."""
    return (c_uint64 * WORK_WORDS)()


def whole(words):
    """Words as one whole number, the first the lowest."""
    return sum(word << (64 * i) for i, word in enumerate(words))


def refused(number):
    """Raises a refusal."""
    if number != 0:
        raise Refused(number)


def checked(reply):
    """A reply that is not refused."""
    refused(reply.refusal)
    return reply


def state_bits(fields):
    """k of accepted fields."""
    return fields.k if fields.kind == 1 else fields.r * fields.w - fields.p


def print_fields(f):
    """The kind and the fields, masks in hexadecimal."""
    print(f"fields kind {f.kind} k {f.k} nu {f.nu} r {f.r} m {f.m} w {f.w} p {f.p} L {f.bits}", end="")
    print(f" a {f.a:x} U {f.u} S {f.s} b {f.b:x} T {f.t} c {f.c:x} V {f.v}", end="")
    print(f" coefficients {f.coefficients[0]:02x}{f.coefficients[1]:02x}")


def print_questions(library, fields):
    """A few questions about t·l = k."""
    k, bits = state_bits(fields), fields.bits
    for t, l in sorted({(1, 1), (k, 1), (max(1, k // 2), min(2, bits)), (max(1, k // bits), bits)}):
        yes, d, numbers = library.question(fields, t, l)
        words = " ".join(f"{numbers >> (64 * i) & (2**64 - 1):x}" for i in range(ROW_WORDS))
        print(f"question {t} {l}", "yes" if yes else f"no d {d} set {words}")


def print_outputs(library, fields):
    """The first outputs from the start state with all its bits set, and their values."""
    k = state_bits(fields)
    for n, y in enumerate(library.outputs(fields, min(k, 32), 2**k - 1)):
        print(f"output {n} {y} value {library.value(y, fields.bits):.17g}")


def print_report(library, fields):
    """The lines of the listing, from the numbers of the report."""
    reply, k = library.report(fields), state_bits(fields)
    for t, found in enumerate(reply.resolutions[:k], 1):
        best = min(fields.bits, k // t)
        print("t", t, best, found, best - found)
    for l, found in enumerate(reply.dimensions[:fields.bits], 1):
        print("l", l, k // l, found, k // l - found)
    print("sum", reply.resolution_sum, reply.dimension_sum)
    print("ME", "yes" if reply.me else "no")


def main(arguments):
    if arguments:
        data = pathlib.Path(arguments[0]).read_bytes()
    else:
        data = sys.stdin.buffer.read(LONGEST_DESCRIPTION + 1)
    library = Dayunglipo()
    try:
        fields = library.read(data)
        print_fields(fields)
        print(f"k {state_bits(fields)} L {fields.bits}")
        print_outputs(library, fields)
        print_questions(library, fields)
        print_report(library, fields)
    except Refused as refusal:
        print(refusal)
        return 1
    return 0


if __name__ == "__main__":
    sys.exit(main(sys.argv[1:]))
