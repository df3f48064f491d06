"""The colour of a pixel, and the lines of text on each page of a PDF, with the standard library alone."""

import re
import struct
import zlib
from typing import List, Tuple


def pixel(data: bytes) -> Tuple[int, int, int]:
    """The colour of a PNG of one pixel; whatever its filter, nothing stands beside it."""
    packed, at = b"", 8
    while at < len(data):
        length, name = struct.unpack(">I4s", data[at : at + 8])
        packed += data[at + 8 : at + 8 + length] if name == b"IDAT" else b""
        at += length + 12
    red, green, blue = zlib.decompress(packed)[1:4]
    return red, green, blue


def _unpacked(body: bytes) -> bytes:
    """A stream's content; its end may have been taken for a line's."""
    try:
        return zlib.decompressobj().decompress(body)
    except zlib.error:
        return b""


def lines_on_pages(pdf: bytes) -> List[int]:
    """How many lines of text each page of a PDF has: the heights at which text starts."""
    streams = {}
    for number, head, body in re.findall(rb"(\d+) 0 obj\s*<<((?:(?!endobj).)*?)>>\s*stream\r?\n(.*?)\r?\nendstream", pdf, re.S):
        if b"FlateDecode" in head:
            streams[number] = _unpacked(body)
    pages = re.findall(rb"/Type\s*/Page\b(?!s).*?/Contents (\d+) 0 R", pdf, re.S)
    return [len(set(re.findall(rb"[\d.-]+ ([\d.-]+) Tm", streams.get(page, b"")))) for page in pages]
