"""Numbers of the text form: a word, with its unit or without, as a whole number of the record's unit, exactly."""

import re
from decimal import Decimal
from fractions import Fraction
from typing import NamedTuple

from streams import Complaint, shown


class Quantity(NamedTuple):
    """What a column holds. A unit counts so many of the record's unit, which is that of a plain number, or of its last decimal."""

    record_unit: str
    units: dict
    doubtful: range = range(0)  # in the record's unit, of either sign: a whole plain number that was likely meant in another unit
    kind: str = "number"        # what a message calls it
    words: dict = {}            # words for its numbers; it has no units then
    decimals: int = 0           # how many a plain number may have; it has no units then
    example: str = "200000000, 200_000_000 or 1.5kN"  # of how one is written

    @property
    def expected(self):
        """What a cell of such a column may be."""
        if self.words:
            return ", ".join(f"{number} or '{word}'" for word, number in self.words.items())
        if not self.units:
            return f"a {self.kind} such as {self.example}"
        return f"a whole number of {self.record_unit}, or a number with its unit ({', '.join(self.units)})"

    def written(self, number):
        """The number as a text shows it: by its word, if it has one."""
        return next((word for word, meant in self.words.items() if meant == number), f"{Decimal(number).scaleb(-self.decimals):f}")

    def doubt(self, word):
        """What a note says of a plain number that was likely meant in another unit."""
        if not self.units:
            return f"{word} is taken as the {self.kind} {word}; a {self.kind} is given as in {self.example}"
        return f"{word} is taken as {word} {self.record_unit}; a number may have its unit, as in {word}{list(self.units)[1]}"

    def factor(self, unit):
        """How many of the record's unit a unit counts; 'kN·m' and 'mm²' are kNm and mm2."""
        return self.units.get(unit.replace("·", "").replace("²", "2"))


LENGTH = Quantity("mm", {"mm": 1, "cm": 10, "m": 1_000})
AREA = Quantity("mm²", {"mm2": 1, "cm2": 100})
STRENGTH = Quantity("N/mm²", {"N/mm2": 1, "MPa": 1})
FORCE = Quantity("N", {"N": 1, "kN": 1_000, "MN": 1_000_000}, doubtful=range(1, 1_000))
MOMENT = Quantity("N·mm", {"Nmm": 1, "kNm": 1_000_000, "MNm": 1_000_000_000}, doubtful=range(1, 100_000))
SITUATION = Quantity("", {}, kind="situation", words={"persistent": 1, "accidental": 2})
ALPHA_CC = Quantity("hundredths", {}, doubtful=range(101, 2**63), kind="factor", decimals=2, example="0.85")

NUMBER = re.compile(r"([+-]?[0-9]+(?:_[0-9]+)*)(\.[0-9]+)? *([A-Za-z].*)?", re.ASCII)
BARS = re.compile(r"([0-9]{1,5})x([0-9]{1,5})", re.ASCII)
LONGEST = 60  # characters of a word; no number that fits a record needs as many
LEAST_LEGS = 25  # mm²: two legs of 4 mm, and no link has less
PI = 3_14159_26535_89793_23846_26433_83279_50288_41971, 10**40
UNITS = {unit for quantity in (LENGTH, AREA, FORCE, MOMENT) for unit in quantity.units}


def hint(word, example):
    """Why a word that looks like a number is none; `example` is of one."""
    odd = next((sign for sign in word if not 32 <= ord(sign) < 127), None)
    if odd is not None and 0xDC80 <= ord(odd) <= 0xDCFF:
        return f"; byte {ord(odd) - 0xDC00:02X} is not text in UTF-8"
    if odd is not None and odd in "\u2010\u2011\u2012\u2013\u2014\u2212":
        return f"; the minus is '-', and not U+{ord(odd):04X}"
    if odd is not None:
        return f"; U+{ord(odd):04X} belongs to no number"
    if len(word) > LONGEST:
        return f"; no number of a record has {len(word)} characters"
    if "," in word:
        return f"; a comma may mean thousands or decimals: write {example}"
    if word in UNITS:
        return "; a unit stands directly after its number, as in 80kN"
    if " " in word:
        return "; a cell holds one number, and this line is parted by ';', tabs or commas"
    return ""


def whole(word, quantity, bounds, unit=""):
    """The number of the record's unit that a word stands for; `unit` is that of the column, if its title has one."""
    if word.lower() in quantity.words:
        return quantity.words[word.lower()]
    match = NUMBER.fullmatch(word) if len(word) <= LONGEST else None
    if not match or quantity.words and any(match.group(2, 3)):
        why = "" if quantity.words else hint(word, quantity.example)
        raise Complaint(f"'{shown(word)}' is no {quantity.kind}; expected {quantity.expected}{why}")
    digits, decimals, suffix = match.groups()
    named = suffix or unit
    factor = quantity.factor(named) if named else 10**quantity.decimals
    if factor is None:
        raise Complaint(f"'{shown(word)}' has no unit of this column; expected {quantity.expected}")
    if decimals and not named and not quantity.decimals:
        raise Complaint(f"'{shown(word)}' has decimals and no unit; expected {quantity.expected}")
    number = Fraction(digits.replace("_", "") + (decimals or "")) * factor
    if number.denominator != 1:
        raise Complaint(f"'{shown(word)}' is not whole in {quantity.record_unit}; expected {quantity.expected}")
    least, most = bounds
    if not least <= number <= most:
        raise Complaint(f"'{shown(word)}' does not fit a record; expected {least} to {most} {quantity.record_unit}".rstrip(" "))
    return int(number)


def is_doubtful(word, quantity, number):
    """A load without a unit that is next to nothing in the record's unit, or a factor such as 85."""
    return word[-1:].isdigit() and "." not in word and abs(number) in quantity.doubtful


def area_of_bars(count, diameter):
    """The area of so many bars by π·d²/4, the sum rounded down to whole mm²."""
    digits, scale = PI
    return count * diameter**2 * digits // (4 * scale)


def area_of(word, bounds):
    """An area, or bars as in 3x16."""
    bars = BARS.fullmatch(word)
    if not bars:
        return whole(word, AREA, bounds)
    area = area_of_bars(int(bars[1]), int(bars[2]))
    if area > bounds[1]:
        raise Complaint(f"'{word}' does not fit a record; expected an area up to {bounds[1]} mm²")
    return area


def length_of(word, bounds):
    """A length."""
    return whole(word, LENGTH, bounds)


def pair_of(word, bounds, what, expected, *readings):
    """The two numbers of a word with a '/' between them, each by its own reading."""
    parts = word.split("/")
    if len(parts) != len(readings):
        raise Complaint(f"'{shown(word)}' is no {what}; expected {expected}")
    try:
        return tuple(read(part.strip(" "), bounds) for read, part in zip(readings, parts))
    except Complaint as complaint:
        raise Complaint(f"of the {what} '{shown(word)}', {complaint}") from None


def layer_of(word, bounds, others):
    """Depth and area of the word d/A; `others` are the words with a name that may stand among layers."""
    return pair_of(word, bounds, "layer", f"depth/area such as 450/1500, depth/bars such as 450/3x16, or by its name {others}",
                   length_of, area_of)


def link_of(word, bounds):
    """Area and spacing of the word A/s."""
    return pair_of(word, bounds, "link", "area/spacing such as 101/200, or bars/spacing such as 2x8/200", area_of, length_of)


def is_diameter(word, area):
    """A plain area of links that is next to nothing, as in 8/200, where bars were likely meant."""
    return word.partition("/")[0].strip(" ").isdigit() and 0 < area < LEAST_LEGS
