#!/usr/bin/env python3
"""tests/flashnor/starts.py: creates an image of 64 KiB and a journal of a TINY64 for each of many patterns of bytes.

A pattern is a string of hexadecimal digits. The patterns are each byte value, eight times, and signatures of files, of
parts of firmware, of chips and of commands. PATTERN.img begins with the bytes of the pattern. The rest of its first
sector is 00h, and the rest of the image is FFh. PATTERN.j is a journal of format 2 that saves the first sector of this
image. The script prints the patterns, one per line.
"""
import hashlib
from pathlib import Path

HEADER = b"NORUNDO2" + bytes.fromhex("fe1010 0000000000000000 0000 00000100")
SECTOR = 4096
SIZE = 65536
SIGNATURES = """
4e4f52554e444f32 4e4f52554e444f31 4e4f52554e444f33 4e4f52554e444f 4e4f5255 4f444e55524f4e 53464450 50444653
ffffffff00 00000000ff 00000001 01000000 00000100 7fffffff 80000000 fffffffe feffffff deadbeef efbeadde cafebabe
bebafeca badc0ffe 0badf00d feedface 8badf00d 12345678 78563412 5afe5afe 55aa aa55 55aa55aa aa55aa55 5aa5 a55a
5aa5f00f 00ff00ff ff00ff00 0000ffff ffff0000 0f0f f0f0 0123456789abcdef fedcba9876543210
000102030405060708090a0b0c0d0e0f fffefdfcfbfaf9f8f7f6f5f4f3f2f1f0 7f454c46 4d5a 504b0304 1f8b0800
89504e470d0a1a0a 25504446 efbbbf fffe feff 0d0a 2321 3a 2c 5f465648 5f5f464d41505f5f 4c41524348495645 24465054
27051956 d00dfeed 68737173 85190320 55424923 6664 46440a 66640000 62696f73 6d65 676265 30313233 30783030
303a666666 302c31 ef4017 ef4018 fe1010 4b00000000 5a00000000 03000000 0200000000 d8000000 010400
"""

for pattern in [f"{value:02x}" * 8 for value in range(256)] + SIGNATURES.split():
    sector = bytes.fromhex(pattern).ljust(SECTOR, b"\0")
    Path(f"{pattern}.img").write_bytes(sector.ljust(SIZE, b"\xff"))
    saved = HEADER + bytes(4) + sector + bytes.fromhex("ffffffff")
    Path(f"{pattern}.j").write_bytes(saved + hashlib.sha256(saved).digest())
    print(pattern)
