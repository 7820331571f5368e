# The sample game (docs/FORMAT.md) through a shared library, which the command line names. Replays examples/spin.txt; prints the rules and the last configuration.
import ctypes
import os
import sys

with open(os.path.join(os.path.dirname(__file__), "spin.txt")) as file:
    table, configuration, log, [limit] = [[int(number) for number in line.split(",")] for line in file]


def lent(kind, values):
    array = (kind * len(values))(*values)
    return array, ctypes.c_size_t(len(values))


library = ctypes.CDLL(os.path.abspath(sys.argv[1]))
library.hethalip_replay.restype = ctypes.c_uint64
out = lent(ctypes.c_int64, [-1] * (2 * limit))  # no tag is -1: the configuration ends before the first one
choices = lent(ctypes.c_uint16, [0] * len(log))
work = lent(ctypes.c_int64, [0] * ((len(log) + 1) * (2 * limit + 2)))
given = [*lent(ctypes.c_int64, table), *lent(ctypes.c_int64, configuration), *lent(ctypes.c_uint16, log)]
answer = library.hethalip_replay(*given, ctypes.c_uint64(limit), *out, *choices, *work)
if answer & 0xFF != 20:
    sys.exit(f"kind {answer & 0xFF}")
tags = list(out[0])[::2] + [-1]
print("rules:", *choices[0])
print("configuration:", *out[0][: 2 * tags.index(-1)])
