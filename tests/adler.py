#!/usr/bin/env python3
# What the program `slots_runs` must write: Adler's sums come from zlib, the inputs from the program's generator.
import zlib


def inputs(seed, lengths):
    """Inputs of these lengths, one after the other from one generator."""
    for length in lengths:
        data = bytearray()
        for _ in range(length):
            seed = (seed * 1664525 + 1013904223) % 2**32
            data.append(seed >> 24)
        yield bytes(data)


print(zlib.adler32(b"\xff" * 65574))
for data in inputs(1, range(1000)):
    print(zlib.adler32(data))
for data in inputs(1, range(2043, 2053)):
    print(zlib.adler32(data))
print("written true")
print("found 6120 of 6120 changes of the record, 0 of 2040 behind it")
