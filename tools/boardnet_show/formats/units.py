"""The units of files, in u: a millimetre and an inch, and the words for them."""

MM, INCH = 10_000_000, 254_000_000
# Of copper files.
SCALES = {"MOMM": MM, "MOIN": INCH, "G71": MM, "G70": INCH}
# Of netlists: the unit of each code behind UNITS CUST, the code of each unit, and its words.
CUSTOM = {0: 25_400, 1: 10_000}
CODES = {unit: code for code, unit in CUSTOM.items()}
UNIT_WORDS = {10_000: "0.001 mm", 25_400: "0.0001 inch"}


def decimal_millimetres(u: int) -> str:
    """A length as a file has it: seven decimals."""
    return f"{'-' if u < 0 else ''}{abs(u) // 10 ** 7}.{abs(u) % 10 ** 7:07d}"
