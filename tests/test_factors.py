"""The rows that a plant engineer ticks off: the stress block's factors and the partial factors as the source has them, comments too."""

import re
import unittest
from fractions import Fraction

import second
from running import TOP

SOURCE = TOP / "crates" / "materials" / "src" / "lib.rt"
ROW = re.compile(r" *\((\d+), Block \{ l: (\d+), eta: (\d+) \}\), // λ (\d\.\d+), η (\d\.\d+)")
PARTIAL = re.compile(r"\n    concrete: (\d+), // γc (\d\.\d+)\n    steel: (\d+), // γs (\d\.\d+)\n")


def constant(name, ends):
    """What stands between the brackets of a constant or a static."""
    begins, ends = map(re.escape, ends)
    text = SOURCE.read_text(encoding="utf-8")
    return re.search(rf"^(?:const|static) {name}: .*{begins}([^{ends}]*)^{ends};", text, re.MULTILINE).group(1)


def rows():
    """The stress block's factors, line by line."""
    return constant("BLOCKS", "[]").strip("\n").splitlines()


class Factors(unittest.TestCase):
    """The prover holds the figures to 3.1.7(3) and Table 2.1N; it does not read the decimals beside them."""

    def test_a_plain_row_for_each_class(self):
        for row in rows():
            self.assertRegex(row, f"^{ROW.pattern}$")
        self.assertEqual(tuple(int(ROW.match(row)[1]) for row in rows()), second.CLASSES)

    def test_figures_and_decimals_are_the_factors(self):
        for fck, depth, strength, *printed in (ROW.match(row).groups() for row in rows()):
            with self.subTest(fck=fck):
                factors = [second.depth_factor(int(fck)), second.strength_factor(int(fck))]
                self.assertEqual([Fraction(int(depth), 80), Fraction(int(strength), 1_000)], factors)
                self.assertEqual(printed, [str(float(factor)) for factor in factors])

    def test_figures_and_decimals_are_the_partial_factors(self):
        for situation, name in ((second.PERSISTENT, "PERSISTENT"), (second.ACCIDENTAL, "ACCIDENTAL")):
            with self.subTest(name=name):
                factors = second.FACTORS[situation]
                concrete, printed_concrete, steel, printed_steel = PARTIAL.fullmatch(constant(name, "{}")).groups()
                self.assertEqual((Fraction(int(concrete), 10), Fraction(int(steel), 100)), factors)
                self.assertEqual((printed_concrete, printed_steel), tuple(str(float(factor)) for factor in factors))
