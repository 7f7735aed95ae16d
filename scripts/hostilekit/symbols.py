"""An ELF file of one function with a loop, whose name may be any bytes."""
from __future__ import annotations

import struct

from .parts import RETURN

BASE = 0x1000
CODE = (0x00300293, 0xFFF28293, 0xFE029EE3, RETURN)  # x5 = 3; the loop: one less, and again if it is not 0


def elf_with_loop(name: bytes = b"f", end: bytes = b"\0") -> bytes:
    """The file. The loop's head is the second instruction; what ends the names may be another byte."""
    code = struct.pack("<4I", *CODE)
    names = b"\0" + name + end
    symbols = bytes(16) + struct.pack("<IIIBBH", 1, BASE, len(code), 0x12, 0, 1)
    texts = b"\0.text\0.symtab\0.strtab\0"
    at = [84, 84 + len(code)]
    at += [at[1] + len(symbols), at[1] + len(symbols) + len(names)]
    sections = (struct.pack("<10I", *[0] * 10) + struct.pack("<10I", 7, 2, 0, 0, at[1], len(symbols), 2, 1, 4, 16)
                + struct.pack("<10I", 15, 3, 0, 0, at[2], len(names), 0, 0, 1, 0) + struct.pack("<10I", 1, 1, 6, BASE, at[0], len(code), 0, 0, 4, 0))
    table = at[3] + len(texts)
    head = b"\x7fELF\x01\x01\x01" + bytes(9) + struct.pack("<HHIIIIIHHHHHH", 2, 243, 1, BASE, 52, table, 0, 52, 32, 1, 40, 4, 0)
    load = struct.pack("<8I", 1, at[0], BASE, BASE, len(code), len(code), 5, 4)
    return head + load + code + symbols + names + texts + sections
