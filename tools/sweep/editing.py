"""Edited texts of numbers, and what value an edited text has."""

from .pictures import is_digit_place, width
from .storage import SPACE, aligned, encoded, number


def region_of(positions):
    """From where to where a run suppresses: to its last symbol and the insertions at its right, never past the point."""
    point = next((k for k, p in enumerate(positions) if p.symbol in (".", "V")), len(positions))
    run = [k for k, p in enumerate(positions[:point]) if p.role in ("suppressed", "floating", "first floating")]
    if not run:
        return 0, 0
    end = run[-1] + 1
    while end < point and positions[end].role == "insertion":
        end += 1
    return run[0], end


def digits_at(positions, value, count):
    """The digit of each position, None where a position holds none."""
    digits = iter(str(value.units).zfill(count))
    return [int(next(digits)) if is_digit_place(p) else None for p in positions]


def plain_text(position, digit, negative):
    """What a position prints that is not suppressed."""
    if digit is not None:
        return str(digit)
    if position.role in ("sign", "floating", "first floating") and position.symbol in "+-":
        return "-" if negative else "+" if position.symbol == "+" else " "
    if position.symbol in "CD":
        return {"C": "CR", "D": "DB"}[position.symbol] if negative else "  "
    return {"B": " "}.get(position.symbol, position.symbol) if width(position) else ""


def edited(picture, blank, value):
    """The bytes of the text of a value."""
    value = aligned(value, picture.digits, picture.scale, picture.signed)
    positions = picture.positions
    places = [p for p in positions if is_digit_place(p)]
    if value.units == 0 and blank:
        return bytes([SPACE] * picture.size)
    if value.units == 0 and all(p.role != "digit" for p in places):
        star = any(p.symbol == "*" for p in places)
        return encoded("".join("." if p.symbol == "." and star else ("*" if star else " ") * width(p) for p in positions))
    return encoded(suppressed(positions, digits_at(positions, value, picture.digits), value.negative))


def suppressed(positions, digits, negative):
    """The text of digits, suppressed up to the first that is not zero."""
    start, end = region_of(positions)
    cut = next((k for k in range(start, end) if digits[k]), end)
    floats = start < end and positions[start].role == "first floating"
    text = ""
    for k, position in enumerate(positions):
        if floats and k == cut - 1:
            text += plain_text(positions[start], None, negative)
        elif start <= k < cut:
            text += "*" if positions[start].symbol == "*" else " "
        else:
            text += plain_text(position, digits[k], negative)
    return text


def value_of_text(picture, blank, content):
    """The value whose edited text bytes are, or None."""
    at, digits = 0, ""
    for position in picture.positions:
        if is_digit_place(position):
            byte = content[at]
            digits += str(byte - 0xF0) if 0xF0 <= byte <= 0xF9 else "0"
        at += width(position)
    for negative in (False, True):
        value = number(negative, int(digits), picture.scale)
        if edited(picture, blank, value) == content:
            return value
    return None
