"""What crate number_test must print, from the rules of the layout alone: a value is the decimal text of a signed 64-bit
number, or text; a number is stored in the first kind that holds it, little-endian in two's complement."""
import re
import sys

sys.set_int_max_str_digits(0)

VALUES = """
| 0 00 - -0 --1 -01 007 +5 1_ _1 1/ 1: -a 5 -5 10086
12 13 -1 127 128 -128 -129 32767 32768 -32768 -32769
8388607 8388608 -8388608 -8388609 2147483647 2147483648 -2147483648 -2147483649
9223372036854775807 9223372036854775808 -9223372036854775808 -9223372036854775809
1000000000000000000 -1000000000000000000 9999999999999999999 -9999999999999999999
10000000000000000000 -10000000000000000000 18446744073709551615 18446744073709551617
"""  # | is the empty value, _ a space

KINDS = [(0xFE, 1), (0xC0, 2), (0xF0, 3), (0xD0, 4), (0xE0, 8)]


def encoding(number):
    if number in range(13):
        return bytes([0xF1 + number])
    for byte, width in KINDS:
        try:
            return bytes([byte]) + number.to_bytes(width, "little", signed=True)
        except OverflowError:
            pass
    return None


def verdict(value):
    if re.fullmatch("0|-?[1-9][0-9]*", value):
        stored = encoding(int(value))
        if stored:
            return f"number {value} {stored.hex()} {value}"
    return "text"


for word in VALUES.split():
    value = word.replace("|", "").replace("_", " ")
    print(f"<{value}> {verdict(value)}")
print("60000 digits", verdict("1" * 60000))
