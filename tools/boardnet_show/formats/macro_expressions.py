"""Expressions of aperture macros, over fractions."""
import re
from fractions import Fraction as Q
from typing import Dict, List, Optional, Tuple

from boardnet_show.geometry.exact import Refused, decimal, limited

MOST_DEEP = 64  # brackets in one another
TOKEN = re.compile(r"\$(\d{1,9})|(\d+\.?\d*|\.\d+)|([-+xX/()])")
BLANK_INSIDE = re.compile(r"[$.0-9]\s+[.0-9]")


def compact(word: str) -> str:
    """A word of a body without its blanks. One inside a number or a variable is refused, since it may part two:
    `flatten` takes none."""
    if not word.lstrip().startswith("0") and BLANK_INSIDE.search(word):
        raise Refused(f"macro: a blank inside a number: {' '.join(word.split())}")
    return re.sub(r"\s", "", word)


class Expression:
    """Sums of products of signed values, numbers, variables and brackets."""

    def __init__(self, text: str, variables: Dict[int, Q]) -> None:
        self.variables, at = variables, 0
        self.tokens: List[Tuple[Optional[str], Optional[str], Optional[str]]] = []
        while at < len(text):
            match = TOKEN.match(text, at)
            if not match:
                raise Refused(f"macro: no expression: {text}")
            variable, number, sign = match.groups()
            self.tokens.append((variable, number, sign))
            at = match.end()
        self.tokens.append((None, None, ""))
        self.at = self.deep = 0

    def sign(self, signs: str) -> Optional[str]:
        found = self.tokens[self.at][2]
        if not found or found not in signs:
            return None
        self.at += 1
        return found

    def value(self) -> Q:
        total = self.total()
        if self.at != len(self.tokens) - 1:
            raise Refused("macro: no expression")
        return total

    def total(self) -> Q:
        total = self.product()
        while True:
            sign = self.sign("+-")
            if sign is None:
                return total
            total = limited(total + (self.product() if sign == "+" else -self.product()))

    def product(self) -> Q:
        value = self.factor()
        while True:
            sign = self.sign("xX/")
            if sign is None:
                return value
            other = self.factor()
            if sign == "/" and other == 0:
                raise Refused("macro: division by 0")
            value = limited(value / other if sign == "/" else value * other)

    def factor(self) -> Q:
        turned_round, sign = False, self.sign("+-")
        while sign:
            turned_round, sign = turned_round != (sign == "-"), self.sign("+-")
        value = self.bracket() if self.sign("(") else self.operand()
        return -value if turned_round else value

    def bracket(self) -> Q:
        self.deep += 1
        if self.deep > MOST_DEEP:
            raise Refused(f"macro: over {MOST_DEEP} brackets in one another")
        value = self.total()
        if self.sign(")") is None:
            raise Refused("macro: no expression")
        self.deep -= 1
        return value

    def operand(self) -> Q:
        variable, number, _ = self.tokens[self.at]
        if variable is None and number is None:
            raise Refused("macro: no expression")
        self.at += 1
        value = decimal(number) if number else self.variables.get(int(variable or 0), Q(0))
        return Q(0) if value is None else value
