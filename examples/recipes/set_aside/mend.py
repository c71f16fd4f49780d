"""Makes zero, in its place, what fault lines name, where it is spaces or low-values: mend.py LAYOUT FAULTS FILE

LAYOUT is what `cobconv layout` prints, and FAULTS what a conversion of FILE told, whose records are of form f. The status is 1 where nothing was mended."""
import re
import sys

FAULT = re.compile(rb"record (\d+) in offset (\d+) NoValue")
ZEROS = {b"packed": lambda length: bytes(length - 1) + b"\x0c", b"zoned": lambda length: b"\xf0" * length}

with open(sys.argv[1], "rb") as layout, open(sys.argv[2], "rb") as faults:
    entries = [line.split() for line in layout]  # level, name, offset, length, kind
    told = [(int(record), int(offset)) for record, offset in FAULT.findall(faults.read())]

record_length = int(entries[0][3])
zeros = {int(entry[2]): ZEROS[entry[4]](int(entry[3])) for entry in entries if entry[4] in ZEROS}
mended = 0
with open(sys.argv[3], "r+b") as file:
    for record, offset in told:
        zero = zeros.get(offset, b"")
        start = (record - 1) * record_length + offset
        file.seek(start)
        if zero and file.read(len(zero)) in (b"\x40" * len(zero), b"\x00" * len(zero)):
            file.seek(start)
            file.write(zero)
            mended += 1
print("made zero:", mended, flush=True)
sys.exit(0 if mended else 1)
