"""The bytes that a stream of a PDF decodes to, never more than are allowed."""

from __future__ import annotations

import base64
import zlib
from typing import List, Optional

LONGEST = 1 << 27
"""The most bytes that a stream may decode to, where nothing else is said."""

_PIECE = 1 << 14
# How many bytes one byte of these may become, of the filters that aren't decoded here: those with a predictor.
_GROWTH = {"FlateDecode": 1033, "Fl": 1033, "LZWDecode": 2560, "LZW": 2560}


class Undecodable(ValueError):
    """A stream that can't be decoded, or not within its limit; `str` says which."""


def inflated(data: bytes, limit: int) -> bytes:
    """What FlateDecode makes of data."""
    inflater = zlib.decompressobj()
    try:
        plain = inflater.decompress(data, limit)
    except zlib.error as fault:
        raise Undecodable("can't be decoded") from fault
    if inflater.unconsumed_tail and inflater.decompress(inflater.unconsumed_tail, 1):
        raise Undecodable(f"is longer than {limit:,} bytes")
    if not inflater.eof:
        raise Undecodable("can't be decoded")
    return plain


def _from_hex(data: bytes) -> bytes:
    digits = data.partition(b">")[0].translate(None, b"\0\t\n\f\r ")
    return bytes.fromhex((digits + b"0"[: len(digits) % 2]).decode("ascii"))


def _from_85(data: bytes) -> bytes:
    return base64.a85decode(data.partition(b"~>")[0].translate(None, b"\0\t\n\f\r "))


def _from_runs(data: bytes, limit: int) -> bytes:
    made, at = bytearray(), 0
    while at < len(data) and data[at] != 128 and len(made) <= limit:
        length = data[at]
        if length < 128:
            made += data[at + 1:at + 2 + length]
            at += 2 + length
        else:
            made += data[at + 1:at + 2] * (257 - length)
            at += 2
    return bytes(made)


def _from_lzw(data: bytes, limit: int, early: int) -> bytes:
    """What LZWDecode makes of data; `early` is 1 if codes get longer one entry before they have to."""
    start: List[bytes] = [bytes([byte]) for byte in range(256)] + [b"", b""]
    table, width, last, made, held, bits = start[:], 9, b"", bytearray(), 0, 0
    for byte in data:
        held, bits = held << 8 | byte, bits + 8
        if bits < width:
            continue
        bits -= width
        code, held = held >> bits, held & (1 << bits) - 1
        if code == 257 or len(made) > limit:
            break
        if code == 256:
            table, width, last = start[:], 9, b""
            continue
        if code > len(table) or code == len(table) and not last:
            raise Undecodable("can't be decoded")
        entry = table[code] if code < len(table) else last + last[:1]
        made += entry
        if last and len(table) < 4096:
            table.append(last + entry[:1])
        last = entry
        width = max(width, min(12, (len(table) + early).bit_length()))
    return bytes(made)


def _step(data: bytes, name: str, limit: int) -> Optional[bytes]:
    """What a filter makes of data; None if it isn't known here."""
    if name in ("FlateDecode", "Fl"):
        return inflated(data, limit)
    if name in ("ASCIIHexDecode", "AHx"):
        return _from_hex(data)
    if name in ("ASCII85Decode", "A85"):
        return _from_85(data)
    if name in ("RunLengthDecode", "RL"):
        return _from_runs(data, limit)
    if name in ("LZWDecode", "LZW", "LZWDecode0", "LZW0"):
        return _from_lzw(data, limit, 0 if name.endswith("0") else 1)
    return None


def decoded(data: bytes, filters: List[str], limit: int = LONGEST) -> Optional[bytes]:
    """What these filters make of data; None if one of them is for another decoder, which is then sure not to make more
    than the limit. LZWDecode0 is LZWDecode with an EarlyChange of 0."""
    for at, name in enumerate(filters):
        try:
            made = _step(data, name, limit)
        except (ValueError, UnicodeDecodeError) as fault:
            raise fault if isinstance(fault, Undecodable) else Undecodable("can't be decoded") from fault
        if made is None:
            _check_growth(data, filters[at:], limit)
            return None
        data = made
        if len(data) > limit:
            raise Undecodable(f"is longer than {limit:,} bytes")
    if len(data) > limit:
        raise Undecodable(f"is longer than {limit:,} bytes")
    return data


def _check_growth(data: bytes, filters: List[str], limit: int) -> None:
    """Refuses what filters could make longer than the limit."""
    most = len(data)
    for name in filters:
        most *= _GROWTH.get(name.rstrip("+"), 64)
    if most > limit:
        raise Undecodable(f"may be longer than {limit:,} bytes")


def inflated_end(data: bytes, at: int, limit: int) -> Optional[int]:
    """Where data that FlateDecode reads ends, if it begins here."""
    inflater, made = zlib.decompressobj(), 0
    try:
        # By pieces: what is left over is copied each time.
        for begins in range(at, len(data), _PIECE):
            rest = data[begins:begins + _PIECE]
            while rest and not inflater.eof:
                made += len(inflater.decompress(rest, 1 << 20))
                rest = inflater.unconsumed_tail
                if made > limit:
                    return None
            if inflater.eof:
                return min(begins + _PIECE, len(data)) - len(inflater.unused_data)
    except zlib.error:
        pass
    return None
