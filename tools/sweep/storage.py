"""What the bytes of items represent and how values are stored; code page 037."""

from collections import namedtuple

SPACE = 0x40
PLUS, MINUS, UNSIGNED = 0xC, 0xD, 0xF

# A number: its sign, a whole number of units of 10 to the minus scale, and the scale. Zero is never minus.
Number = namedtuple("Number", "negative units scale")


def code_page():
    """The bytes of the characters."""
    page = {}
    for characters, first in (("0123456789", 0xF0), ("ABCDEFGHI", 0xC1), ("JKLMNOPQR", 0xD1), ("STUVWXYZ", 0xE2),
                              ("abcdefghi", 0x81), ("jklmnopqr", 0x91), ("stuvwxyz", 0xA2)):
        page.update((character, first + k) for k, character in enumerate(characters))
    signs = " !\"#$%&'()*+,-./:;<=>?@[\\]^_`{|}~"
    codes = "405A7F7B5B6C507D4D5D5C4E6B604B617A5E4C7E6E6F7CBAE0BBB06D79C04FD0A1"
    page.update(zip(signs, bytes.fromhex(codes)))
    return page


PAGE = code_page()
CHARACTERS = {byte: character for character, byte in PAGE.items()}


def encoded(text):
    return bytes(PAGE[character] for character in text)


def number(negative, units, scale):
    return Number(negative and units != 0, units, scale)


def aligned(value, digits, scale, signed):
    """A number put into so many digits with this scale: digits are cut at both ends, never rounded."""
    if scale >= value.scale:
        units = value.units * 10 ** (scale - value.scale) % 10 ** digits
    else:
        units = value.units // 10 ** (value.scale - scale) % 10 ** digits
    return number(value.negative and signed, units, scale)


def sign_read(half, signed):
    """Whether half a byte is the sign minus, or None where it is no sign."""
    if half in (0xB, 0xD):
        return True if signed else None
    return False if half in (0xA, 0xC, 0xE, 0xF) else None


def in_digits(digits):
    """The number of a list of digits, or None where one is none."""
    return None if any(d > 9 for d in digits) else int("".join(map(str, digits)) or "0")


def read_zoned(item, content):
    place = 0 if item.leading and item.picture.signed else len(content) - 1
    if any(byte >> 4 != 0xF for k, byte in enumerate(content) if k != place):
        return None
    return sign_read(content[place] >> 4, item.picture.signed), in_digits([byte & 15 for byte in content])


def read_separate(item, content):
    sign, digits = (content[0], content[1:]) if item.leading else (content[-1], content[:-1])
    if sign not in (0x4E, 0x60) or any(byte >> 4 != 0xF for byte in digits):
        return None
    return sign == 0x60, in_digits([byte & 15 for byte in digits])


def read_packed(item, content):
    halves = [half for byte in content for half in (byte >> 4, byte & 15)]
    if item.picture.digits % 2 == 0 and halves[0] != 0:
        return None
    return sign_read(halves[-1], item.picture.signed), in_digits(halves[:-1])


def read_binary(item, content):
    whole = int.from_bytes(content, "big", signed=item.picture.signed)
    return (whole < 0, abs(whole)) if abs(whole) < 10 ** item.picture.digits else None


READERS = {"zoned": read_zoned, "separate": read_separate, "packed": read_packed, "binary": read_binary}


def value_of(item, content):
    """The number that the bytes of a numeric item represent, or None."""
    found = READERS[item.storage](item, content)
    if found is None or None in found:
        return None
    return number(found[0], found[1], item.picture.scale)


def store_number(item, value):
    """The bytes of a numeric item that holds a value."""
    picture = item.picture
    value = aligned(value, picture.digits, picture.scale, picture.signed)
    digits = [int(d) for d in str(value.units).zfill(picture.digits)]
    sign = (MINUS if value.negative else PLUS) if picture.signed else UNSIGNED
    if item.storage == "binary":
        whole = -value.units if value.negative else value.units
        return whole.to_bytes(2 if picture.digits <= 4 else 4 if picture.digits <= 9 else 8, "big", signed=picture.signed)
    if item.storage == "packed":
        halves = [0] * (1 - picture.digits % 2) + digits + [sign]
        return bytes(16 * high + low for high, low in zip(halves[::2], halves[1::2]))
    content = [0xF0 + d for d in digits]
    if item.storage == "separate":
        byte = [0x60 if value.negative else 0x4E]
        return bytes(byte + content if item.leading else content + byte)
    place = 0 if item.leading else -1
    content[place] = 16 * sign + digits[place]
    return bytes(content)
