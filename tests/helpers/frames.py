"""Frames, made by Python's own CRC; and random ones, each with the words that spell it and its
numbers, as the calls for C take them."""
import binascii
from collections.abc import Sequence
from random import Random

Made = tuple[str, str, tuple[int, ...]]


# Each byte with its bits in the opposite order.
REFLECTED = bytes(int(f"{byte:08b}"[::-1], 2) for byte in range(256))


def with_crc(body: Sequence[int]) -> bytes:
    """The frame of some bytes: ISO/IEC 13239, 16-bit FCS, each byte's lowest bit first."""
    register = binascii.crc_hqx(bytes(body).translate(REFLECTED), 0xFFFF) ^ 0xFFFF
    return bytes(body) + register.to_bytes(2, "big").translate(REFLECTED)


def hex_of(body: Sequence[int]) -> str:
    """The hex digits of the frame of some bytes."""
    return with_crc(body).hex().upper()


def inventory(rng: Random) -> Made:
    link, slots = rng.randrange(4), rng.choice((1, 16))
    bits = rng.randrange(61 if slots == 16 else 65)
    value = rng.getrandbits(bits)
    size = (bits + 7) // 8
    digits = value.to_bytes(size, "big").hex().upper() or "-"
    body = [(0x04 if slots == 16 else 0x24) + link, 1, bits, *value.to_bytes(size, "little")]
    return (hex_of(body), f"request inventory link {link} slots {slots} mask {bits} {digits}",
            (link, slots, bits, value))


def stay_quiet(rng: Random) -> Made:
    link, uid = rng.randrange(4), rng.getrandbits(64)
    return (hex_of([0x20 + link, 2, *uid.to_bytes(8, "little")]),
            f"request stay-quiet link {link} uid {uid:016X}", (link, uid))


def reply(rng: Random) -> Made:
    flags, dsfid = rng.randrange(0, 256, 2), rng.randrange(256)
    uid = 0xE0 << 56 | rng.getrandbits(56)
    return (hex_of([flags, dsfid, *uid.to_bytes(8, "little")]),
            f"response flags {flags:02X} dsfid {dsfid:02X} uid {uid:016X}", (flags, dsfid, uid))
