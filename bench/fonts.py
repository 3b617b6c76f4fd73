#!/usr/bin/env python3
"""Copies a font file without its tables of lookups: fonts.py FONT NEW [TAG..] leaves out GSUB, GPOS, GDEF, morx, kerx, trak and the TAGs."""
import struct, sys

LOOKUPS = {b"GSUB", b"GPOS", b"GDEF", b"morx", b"kerx", b"trak"} | {tag.encode() for tag in sys.argv[3:]}
font = open(sys.argv[1], "rb").read()
records = [struct.unpack(">4sIII", font[at:at + 16]) for at in range(12, 12 + 16 * struct.unpack(">H", font[4:6])[0], 16)]
kept = [record for record in records if record[0] not in LOOKUPS]
head, body = font[:4] + struct.pack(">HHHH", len(kept), 0, 0, 0), b""
start = 12 + 16 * len(kept)
for tag, check, at, size in kept:
    head += struct.pack(">4sIII", tag, check, start + len(body), size)
    body += font[at:at + size] + bytes(-size % 4)
open(sys.argv[2], "wb").write(head + body)
