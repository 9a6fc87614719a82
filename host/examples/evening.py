"""One evening: reads a day file (docs/FORMAT.md) from standard input, posts its
records, settles, and prints the refusals and the sheet.

    evening.py SHARED-OBJECT < day-file
"""
import ctypes
import struct
import sys

RECORD = 24
RESULT = 72
HEADER = "member pnl fee margin usable reserve withdrawable call standing"


def functions(path):
    """The three functions, each over buffers that are lent for the call."""
    library = ctypes.CDLL(path)

    def call(name):
        function = library[name]
        function.restype = ctypes.c_uint8

        def lend(*buffers):
            words = []
            for buffer in buffers:
                words.append((ctypes.c_uint8 * len(buffer)).from_buffer(buffer))
                words.append(ctypes.c_size_t(len(buffer)))
            return function(*words)

        return lend

    return call("clearing_check"), call("clearing_post"), call("clearing_settle")


def parts(day):
    """The book, the records and the prices."""
    try:
        (total,) = struct.unpack_from("<I", day, 4)
        (count,) = struct.unpack_from("<I", day, total)
    except struct.error:
        sys.exit("the day file ends too early")
    start = total + 4
    end = start + RECORD * count
    if end > len(day):
        sys.exit("the day file ends too early")
    records = [day[at:at + RECORD] for at in range(start, end, RECORD)]
    return day[:total], records, day[end:]


def main():
    if len(sys.argv) != 2:
        sys.exit(__doc__)
    check, post, settle = functions(sys.argv[1])
    book, records, prices = parts(bytearray(sys.stdin.buffer.read()))
    if check(book) != 0:
        sys.exit("the book is not valid")
    for place, record in enumerate(records):
        refusal = post(book, record)
        if refusal != 0:
            print("refused", place, refusal)
    (members,) = struct.unpack_from("<H", book)
    following = bytearray(len(book))
    results = bytearray(RESULT * members)
    refusal = settle(book, prices, following, results)
    if refusal != 0:
        print("settlement refused", refusal)
        return
    print(HEADER)
    for row in struct.iter_unpack("<9q", results):
        print(*row)


main()
