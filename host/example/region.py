"""Finds a region by its kind: python3 region.py LIBRARY IMAGE KIND, where LIBRARY is libkw.so.0."""
import ctypes
import sys

library, path, kind = sys.argv[1:]
kw_region = ctypes.CDLL(library).kw_region
kw_region.argtypes = [ctypes.c_char_p, ctypes.c_size_t, ctypes.c_uint16, ctypes.c_uint64 * 4]
kw_region.restype = ctypes.c_uint32
image, answer = open(path, "rb").read(), (ctypes.c_uint64 * 4)()
number = kw_region(image, len(image), int(kind), answer)
found, first, past, flags = answer
if number:
    sys.exit(f"refused {number} {found}")
print(f"{past - first} bytes from {first} on, flags {flags}" if found else "no such region")
