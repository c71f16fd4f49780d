"""Makes spaces and low-values in the packed items of LEDGER zeros: repair.py IN OUT"""
import sys

LENGTH, PACKED = 12, [(4, 4), (8, 4)]  # of the record; offset and length of each item, as layout prints them

with open(sys.argv[1], "rb") as old, open(sys.argv[2], "wb") as new:
    while record := bytearray(old.read(LENGTH)):
        for offset, length in PACKED:
            if record[offset : offset + length] in (b"\x40" * length, b"\x00" * length):
                record[offset : offset + length] = b"\x00" * (length - 1) + b"\x0c"
        new.write(record)
