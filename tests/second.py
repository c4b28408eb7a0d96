#!/usr/bin/env python3
"""Second implementation of the rectangular section engine, EN 1992-1-1.

Written from document 01 (papers/01-scope.md), heading by heading and in its
order, with whole numbers and exact fractions only; where a request of document
02 (papers/02-change-requests.md) changes a sentence, the request is named. It
shares no code with the engine and takes no care of speed, but for the search
beyond 10h: it is here to be read beside the papers.

Run by itself it answers every row of "Reference cases" and prints 'ok' or
'DIFFERS' for each; the expected values there are the papers', and the project's
own for the section that no M suits, for the links, for the accidental situation,
for αcc below 1, for most depths beyond 10h, for the trials of the halving rule, some
of which are worked out by hand, for the same bars in another sequence, for the one
sequence of layers on disk and for most layers that are tried before they are placed.
Both searches answer beside the plain look at every depth, for random sections whose
seed is printed.
"""

import random
import sys
from fractions import Fraction
from functools import lru_cache
from itertools import combinations, permutations
from math import ceil, floor  # exact on fractions, and floor is "toward minus infinity"
from typing import NamedTuple, Optional

# --------------------------------------------------------------------------
# What the engine covers
# --------------------------------------------------------------------------

PLACES = 16  # "1 to 16 layers"


class Layer(NamedTuple):
    """A layer of reinforcement: depth d from the top face, area A."""

    depth: int  # mm
    area: int   # mm²


class Links(NamedTuple):
    """Vertical links (02, request 3): 'present or absent as a whole'."""

    present: int  # 0 is absent, and then the other two are never read; any other number is present
    area: int     # mm²
    spacing: int  # mm


NO_LINKS = Links(0, 0, 0)

PERSISTENT, ACCIDENTAL = 1, 2  # "a design situation: 1 persistent ... or 2 accidental" (02, request 8)
ALPHAS = range(80, 101)  # αcc "is given in hundredths, 80 to 100" (02, request 10)
UNREDUCED = 100          # "missing means 100, and the writer omits 100"


class Section(NamedTuple):
    """Width b, height h, concrete class, steel, situation, αcc, the counted layers, and links."""

    width: int   # b, mm
    height: int  # h, mm
    fck: int     # N/mm²
    fyk: int     # N/mm²
    situation: int
    alpha_cc: int  # hundredths
    count: int
    layers: tuple  # the places; those beyond the count are never read
    links: Links


class Load(NamedTuple):
    """N (positive in compression), M about mid-height, V."""

    n: int  # N
    m: int  # N·mm
    v: int  # N


def section_of(width, height, fck, fyk, layers, links=NO_LINKS, situation=PERSISTENT, alpha_cc=UNREDUCED):
    """A section whose places beyond its layers hold zeros, as a read one has."""
    given = tuple(Layer(*layer) for layer in layers)
    empty = (Layer(0, 0),) * (PLACES - len(given))
    return Section(width, height, fck, fyk, situation, alpha_cc, len(given), given + empty, links)


def links_of(area, spacing):
    """Links that are there, as a read section has them."""
    return Links(1, area, spacing)


NO_SECTION = section_of(0, 0, 0, 0, (), situation=0, alpha_cc=0)
NO_LOAD = Load(0, 0, 0)


def counted(section):
    """'Places beyond the counted layers are never read.'"""
    return section.layers[:section.count]


def has_links(section):
    """'Links are present or absent as a whole.'"""
    return section.links.present != 0


# --------------------------------------------------------------------------
# Materials
# --------------------------------------------------------------------------

CLASSES = (12, 16, 20, 25, 30, 35, 40, 45, 50, 55, 60, 70, 80, 90)
T_ROW = (16, 19, 22, 26, 29, 32, 35, 38, 41, 42, 44, 46, 48, 50)
E_ROW = (700, 700, 700, 700, 700, 700, 700, 700, 700, 620, 580, 540, 520, 520)
# "D is 350 up to fck 50, then 360, 380, 400, 440 and 460 for 55, 60, 70, 80 and 90" (02, request 11)
D_ROW = (350, 350, 350, 350, 350, 350, 350, 350, 350, 360, 380, 400, 440, 460)


class Factors(NamedTuple):
    """A row of Table 2.1N."""

    concrete: Fraction  # γc
    steel: Fraction     # γs


# "1 persistent, with 1.5 and 1.15, or 2 accidental, with 1.2 and 1.0" (02, request 8)
FACTORS = {
    PERSISTENT: Factors(Fraction(15, 10), Fraction(115, 100)),
    ACCIDENTAL: Factors(Fraction(12, 10), Fraction(10, 10)),
}


class Materials(NamedTuple):
    """The letters of the heading 'Materials'."""

    T: int  # fctm in tenths of N/mm²
    E: int  # 200,000 N/mm² times εcu3 of Table 3.1
    L: int  # 80 times the depth factor of the stress block
    f: int  # strength of the block, hundredths of N/mm²
    g: int  # the same without the strength factor
    s: int  # strength of the steel, hundredths of N/mm²
    D: int  # of the strain line beyond 10h (02, request 11)


def depth_factor(fck):
    """3.1.7(3): 0.8 up to fck 50, above it 0.8 − (fck−50)/400."""
    return Fraction(8, 10) - Fraction(max(fck - 50, 0), 400)


def strength_factor(fck):
    """3.1.7(3): 1 up to fck 50, above it 1 − (fck−50)/200."""
    return 1 - Fraction(max(fck - 50, 0), 200)


@lru_cache(maxsize=None)
def materials(fck, fyk, situation, alpha_cc=UNREDUCED):
    """'Strengths are in hundredths of N/mm², rounded down once'; 'in the accidental
    case f, g and s use the new factors' (02, request 8); 'f and g are both multiplied
    by αcc before their one rounding down' (request 10)."""
    factors = FACTORS[situation]
    long_term = Fraction(alpha_cc, 100)                  # "in hundredths"
    concrete = long_term * 100 * fck / factors.concrete  # αcc·100·fck/1.5, or 1.2
    steel = 100 * fyk / factors.steel                    # 100·fyk/1.15, or 1.0
    block_depth = 80 * depth_factor(fck)
    assert block_depth.denominator == 1                  # "L ... always whole"
    return Materials(
        T=T_ROW[CLASSES.index(fck)],
        E=E_ROW[CLASSES.index(fck)],
        L=int(block_depth),
        f=floor(strength_factor(fck) * concrete),
        g=floor(concrete),
        s=floor(steel),
        D=D_ROW[CLASSES.index(fck)],
    )


def materials_of(section):
    """The materials of a section that passed tests 3, 4, 32 and 34."""
    return materials(section.fck, section.fyk, section.situation, section.alpha_cc)


# --------------------------------------------------------------------------
# Equilibrium. A depth u is in tenths of a millimetre and may be a fraction:
# "The same formulas give force and unrounded moment at a depth that is a
# fraction of two whole numbers."
# --------------------------------------------------------------------------


def turned_over(section):
    """'For M < 0 the section is turned over: every d becomes h−d.'"""
    turned = tuple(Layer(section.height - layer.depth, layer.area)
                   for layer in counted(section))
    return section._replace(layers=turned)


def upright(section):
    """As the top sees it: the counted layers with their depths as given."""
    return section._replace(layers=counted(section))


def as_compressed(section, m):
    """'The face that M compresses is the top for M ≥ 0.'"""
    return upright(section) if m >= 0 else turned_over(section)


def as_other_face(section, m):
    """As the face sees it that M does not compress: the bottom for M ≥ 0."""
    return turned_over(section) if m >= 0 else upright(section)


def greatest_depth(section):
    """'Depth u runs from 1 to 10h tenths of a millimetre.'"""
    return 10 * section.height


def concrete_force(section, u):
    """'Concrete force: f·L·b·u/80,000 newtons.'"""
    mat = materials_of(section)
    return Fraction(mat.f * mat.L * section.width) * u / 80_000


def steel_stress(mat, layer, u):
    """'E·(u−10d)/u, held between −s/100 and +s/100.' (3.2.7, flat branch)"""
    limit = Fraction(mat.s, 100)
    elastic = mat.E * Fraction(u - 10 * layer.depth) / u
    return max(-limit, min(limit, elastic))


def layer_force(mat, layer, u):
    """'area times stress', compression positive, for one layer."""
    return layer.area * steel_stress(mat, layer, u)


def internal_force(section, u):
    """'Internal force at u: concrete force plus the sum over all layers.'"""
    mat = materials_of(section)
    steel = sum(layer_force(mat, layer, u) for layer in counted(section))
    return concrete_force(section, u) + steel


@lru_cache(maxsize=None)
def force_at_end(section, u):
    """The same at depth 1 or 10h, kept: every test of N asks for it."""
    return internal_force(section, u)


def greatest(holds, least, beyond):
    """The greatest whole number from least to beyond−1 at which holds.

    Halving is enough wherever holds, once false, stays false; it must be
    true at least and is not asked at beyond.
    """
    while beyond - least > 1:
        middle = (least + beyond) // 2
        if holds(middle):
            least = middle
        else:
            beyond = middle
    return least


def is_depth_returned(section, n, u):
    """u is in the range, its force at most N, and the next tenth's above N."""
    last = greatest_depth(section)
    return (1 <= u <= last
            and internal_force(section, u) <= n
            and (u == last or internal_force(section, u + 1) > n))


class Halving(NamedTuple):
    """The depths that the halving rule of request 12 of 02 tried, in turn, and the candidate that remains."""

    tried: tuple
    remaining: int


@lru_cache(maxsize=None)
def halving(section, n):
    """'The rule keeps a least and a greatest candidate, first 1 and 10h. It tries their
    mean rounded up, keeping it and what lies above where the internal force there is at
    most N, else what lies below, until one remains.' (02, request 12)"""
    least, most, tried = 1, greatest_depth(section), []
    while least < most:  # "until one remains"
        mean = ceil(Fraction(least + most, 2))
        tried.append(mean)
        if internal_force(section, mean) <= n:
            least = mean     # "keeping it and what lies above"
        else:
            most = mean - 1  # "else what lies below"
    return Halving(tuple(tried), least)


@lru_cache(maxsize=None)
def depth_returned(section, n):
    """'the greatest u of the range at which the internal force is at most N'

    The concrete force grows with u, the elastic stress E·(1 − 10d/u) grows
    with u, and holding it between two limits keeps the order. So the force
    rises strictly with u: the halving rule finds the greatest u, and a look at
    the neighbour shows that there is no greater one.
    """
    u = halving(section, n).remaining
    assert is_depth_returned(section, n, u)
    return u


def concrete_moment(section, u):
    """'Concrete moment: f·L·b·u·(800h−L·u)/128,000,000', not rounded here."""
    mat = materials_of(section)
    arm = 800 * section.height - mat.L * u
    return Fraction(mat.f * mat.L * section.width) * u * arm / 128_000_000


def layer_moment(section, layer, u):
    """'Each layer's moment: force times (h/2−d)', not rounded here."""
    arm = Fraction(section.height, 2) - layer.depth
    return layer_force(materials_of(section), layer, u) * arm


def moments(section, u):
    """The concrete moment, then each layer's, nothing rounded."""
    return [concrete_moment(section, u)] + [
        layer_moment(section, layer, u) for layer in counted(section)]


def rounded_down(moment):
    """'Rounded down' always means toward minus infinity.'"""
    return floor(moment)


def moment_resistance(section, u):
    """'Their sum is the moment resistance MRd', each rounded down by itself."""
    return sum(rounded_down(moment) for moment in moments(section, u))


def unrounded_moment(section, u):
    """The concrete moment plus each layer's, at any fraction depth."""
    return sum(moments(section, u))


# --------------------------------------------------------------------------
# Beyond 10h, up to 30h: request 11 of 02. "Clause 6.1 turns the strain line
# about the point at (1 − D/E)·h from the compressed face." A depth u is whole
# here, and so is every other number: a part's force, or its moment, is one
# division of whole numbers, rounded down.
# --------------------------------------------------------------------------


def last_depth(section):
    """'Beyond 10h, up to 30h'"""
    return 30 * section.height


def depths_beyond(section):
    """The whole depths beyond 10h."""
    return range(greatest_depth(section) + 1, last_depth(section) + 1)


def stress_beyond(mat, height, depth, u):
    """'D·E·(x−d)/(E·x − (E−D)·h) with x = u/10, held within ±s/100': as numerator and
    denominator, both taken ten times."""
    numerator = mat.D * mat.E * (u - 10 * depth)
    denominator = mat.E * u - 10 * (mat.E - mat.D) * height  # at least 10·D·h from u = 10h on
    if 100 * numerator > mat.s * denominator:
        return mat.s, 100
    if 100 * numerator < -mat.s * denominator:
        return -mat.s, 100
    return numerator, denominator


def layer_force_beyond(mat, height, layer, u):
    """'each part's force is rounded down to a whole newton': area times stress."""
    numerator, denominator = stress_beyond(mat, height, layer.depth, u)
    return layer.area * numerator // denominator


def layer_moment_beyond(mat, height, layer, u):
    """'its moment, from the unrounded force, to whole N·mm': that force times (h/2−d)."""
    numerator, denominator = stress_beyond(mat, height, layer.depth, u)
    return layer.area * numerator * (height - 2 * layer.depth) // (2 * denominator)


def block_depth_beyond(mat, height, u):
    """'The block's depth is L·x/80, at most h': in 800ths of a millimetre."""
    return min(mat.L * u, 800 * height)


def concrete_force_beyond(mat, section, u):
    """f/100 times b times the block's depth, rounded down to a whole newton."""
    return mat.f * section.width * block_depth_beyond(mat, section.height, u) // 80_000


def concrete_moment_beyond(mat, section, u):
    """The unrounded force times (h/2 − half the block's depth), rounded down to whole N·mm."""
    block = block_depth_beyond(mat, section.height, u)
    return mat.f * section.width * block * (800 * section.height - block) // 128_000_000


def force_beyond(section, u):
    """The internal force at a depth beyond 10h: the sum of the parts so rounded."""
    mat = materials_of(section)
    return concrete_force_beyond(mat, section, u) + sum(
        layer_force_beyond(mat, section.height, layer, u) for layer in counted(section))


def moment_beyond(section, u):
    """The moment resistance at a depth beyond 10h: the sum of the parts' moments."""
    mat = materials_of(section)
    return concrete_moment_beyond(mat, section, u) + sum(
        layer_moment_beyond(mat, section.height, layer, u) for layer in counted(section))


@lru_cache(maxsize=1)
def forces_beyond(section):
    """The force at each depth beyond 10h, in turn."""
    return tuple(force_beyond(section, u) for u in depths_beyond(section))


def plain_depth_beyond(section, n):
    """'the answer is the least u beyond 10h whose force is at least N', or None. This is
    the definition, a look at each depth in turn; depth_beyond gives the same sooner."""
    return next((u for u, force in zip(depths_beyond(section), forces_beyond(section)) if force >= n), None)


def never_falls(mat, height, layer):
    """A layer whose stress never falls with u: d ≥ (1 − D/E)·h. Any other's never rises.

    With c for (1 − D/E)·h the stress is D·(x−d)/(x−c), which is D + D·(c−d)/(x−c), and
    x−c grows with u. Limits and rounding down keep the order.
    """
    return mat.E * layer.depth >= (mat.E - mat.D) * height


def most_force_between(section, a, b):
    """No force of the whole depths from a to b is above this, and for a = b it is the force.

    Every part is taken where it is greatest: the concrete and the layers that
    never fall at b, the layers that never rise at a.
    """
    mat, height = materials_of(section), section.height
    return concrete_force_beyond(mat, section, b) + sum(
        layer_force_beyond(mat, height, layer, b if never_falls(mat, height, layer) else a)
        for layer in counted(section))


def least_reaching(section, n, a, b):
    """The least whole depth from a to b whose force is at least N, or None.

    An interval that cannot reach N is left out whole; any other is halved, and
    its lower half is asked first.
    """
    if most_force_between(section, a, b) < n:
        return None
    if a == b:
        return a
    middle = (a + b) // 2
    lower = least_reaching(section, n, a, middle)
    return least_reaching(section, n, middle + 1, b) if lower is None else lower


@lru_cache(maxsize=None)
def depth_beyond(section, n):
    """What plain_depth_beyond answers."""
    return least_reaching(section, n, greatest_depth(section) + 1, last_depth(section))


@lru_cache(maxsize=None)
def greatest_force_beyond(section):
    """The greatest force of all depths beyond 10h: no depth there reaches a larger N.

    An interval that cannot exceed what was met is left out whole.
    """
    waiting = [(greatest_depth(section) + 1, last_depth(section))]
    most = force_beyond(section, last_depth(section))
    while waiting:
        a, b = waiting.pop()
        if most_force_between(section, a, b) > most:
            most = max(most, force_beyond(section, a), force_beyond(section, b))
            middle = (a + b) // 2
            waiting += [(a, middle), (middle + 1, b)] if b - a > 1 else []
    return most


# A depth of either page


def reached_by_10h(section, n):
    """'for N above the force at 10h' the depth lies beyond; that force is not rounded."""
    return n <= force_at_end(section, greatest_depth(section))


def depth_under(section, n):
    """The depth under an N that is neither 11 nor 12, of whichever page."""
    return depth_returned(section, n) if reached_by_10h(section, n) else depth_beyond(section, n)


MOST_TRIALS = 15  # "never exceeds 15" (02, request 12)


def trials_under(section, n):
    """'The number equals the trials of that rule'; 'depths beyond 10h report 0' (02, request 12)."""
    trials = len(halving(section, n).tried) if reached_by_10h(section, n) else 0
    assert trials <= MOST_TRIALS
    return trials


def force_at(section, u):
    """The internal force at a whole depth: exact up to 10h, of rounded parts beyond."""
    return internal_force(section, u) if u <= greatest_depth(section) else force_beyond(section, u)


def resistance_at(section, u):
    """MRd at a whole depth, by the page that it belongs to."""
    return moment_resistance(section, u) if u <= greatest_depth(section) else moment_beyond(section, u)


# --------------------------------------------------------------------------
# The accuracy statement
# --------------------------------------------------------------------------


def allowance(section, growth):
    """'h/2 times the growth, plus 1 N·mm, plus 1 N·mm for each counted layer'"""
    return Fraction(section.height, 2) * growth + 1 + section.count


def force_accurate(seen, n, u, depth):
    """The force is below n where the depth is less than u, at most n at u, above n from u + 1 on."""
    force = internal_force(seen, depth)
    if depth < u:
        return force < n
    if depth == u:
        return force <= n
    return depth < u + 1 or force > n


def moment_accurate(seen, u, moment_reported, depth):
    """From u to u + 1 the difference is no more than the allowance."""
    if not u <= depth <= u + 1:
        return True
    growth = internal_force(seen, depth) - internal_force(seen, u)
    return abs(unrounded_moment(seen, depth) - moment_reported) <= allowance(seen, growth)


def accuracy_holds(seen, n, u, moment_reported, p, q):
    """Demand 3 at the one depth of p/q tenths, for one face of an accepted call.

    Find a depth has the top alone. Of Check the statement 'covers the depths of
    both faces, each with the resistance that the first verdict takes for it'
    (02, request 1). A depth outside the range is not compared, and of a u beyond
    10h nothing is said: it 'keeps to depths up to 10h' (request 11).
    """
    depth = Fraction(p, q)
    if u > greatest_depth(seen) or not 1 <= depth <= greatest_depth(seen):
        return True
    return force_accurate(seen, n, u, depth) and moment_accurate(seen, u, moment_reported, depth)


# --------------------------------------------------------------------------
# Verdicts, five in this sequence, and the sixth of request 3 of 02
# --------------------------------------------------------------------------

PASS, FAIL, NOT_REACHED = 0, 1, 2
VERDICTS = 6  # "Verdicts, five in this sequence", and "a sixth verdict"


def verdict(passed):
    """'0 is pass, 1 fail'"""
    return PASS if passed else FAIL


def tension_layers(section, u):
    """'Tension layers are those with 10d > u.'"""
    return [layer for layer in counted(section) if 10 * layer.depth > u]


def tension_reinforcement(section, u):
    """As and dm: 'their area-weighted mean depth rounded down', or 0 and 0."""
    layers = tension_layers(section, u)
    area = sum(layer.area for layer in layers)
    if not layers:
        return 0, 0
    return area, floor(Fraction(sum(layer.area * layer.depth for layer in layers), area))


def bending_verdict(m, top, bottom):
    """1. 6.1, as request 1 of 02 has it: 'M is at most the resistance with the top
    compressed and at least minus the resistance with the bottom compressed'."""
    return verdict(-bottom <= m <= top)


def depth_limit(fck):
    """5.6.3(2): 45 up to fck 50, else 35 (hundredths of dm)."""
    return 45 if fck <= 50 else 35


def rotation_verdict(section, u, dm):
    """2. 5.6.3(2): '10u ≤ 45·dm up to fck 50, else 10u ≤ 35·dm'."""
    return verdict(10 * u <= depth_limit(section.fck) * dm)


def size_factor(dm):
    """K: '1,000 plus the greatest k with k²·dm ≤ 200,000,000, never above 2,000'"""
    k = greatest(lambda number: number**2 * dm <= 200_000_000, 0, 200_000_001)
    return min(1_000 + k, 2_000)


def reinforcement_root(section, area, dm):
    """r: 'greatest whole number with r³·b·dm ≤ 10¹¹·As·fck', or the capped one.

    'where 50·As > b·dm, with r³ ≤ 2·10⁹·fck instead' (ratio above 0.02).
    """
    if 50 * area > section.width * dm:
        bound = Fraction(2 * 10**9 * section.fck)
    else:
        bound = Fraction(10**11 * area * section.fck, section.width * dm)
    return greatest(lambda r: r**3 <= bound, 0, floor(bound) + 1)


def least_shear_root(size, fck):
    """q: 'the greatest with 1,000·q² ≤ K³·fck'"""
    return greatest(lambda q: 1_000 * q**2 <= size**3 * fck, 0, size**3 * fck + 1)


def axial_force_for_shear(section, n):
    """c: 'the lesser of N and g·b·h/500 rounded down' (0.2·fcd, no block factor)"""
    mat = materials_of(section)
    return min(n, floor(Fraction(mat.g * section.width * section.height, 500)))


def shear_factor(situation):
    """100·0.18/γc of 6.2.2(1): 12, and '15·K·r/100 replaces 12·K·r/100' (02, request 8)."""
    factor = 100 * Fraction(18, 100) / FACTORS[situation].concrete
    assert factor.denominator == 1
    return int(factor)


def reinforced_stress(section, area, dm):
    """'12·K·r/100 rounded down', with 15 in the accidental situation."""
    root = reinforcement_root(section, area, dm)
    return floor(Fraction(shear_factor(section.situation) * size_factor(dm) * root, 100))


def least_stress(section, dm):
    """'35·q', the same in both situations."""
    return 35 * least_shear_root(size_factor(dm), section.fck)


def shear_stress(section, area, dm):
    """v: 'the greater of 12·K·r/100 rounded down and 35·q'"""
    return max(reinforced_stress(section, area, dm), least_stress(section, dm))


def shear_resistance(section, n, area, dm):
    """VRd,c of 6.2.2: two terms, each rounded down, 'or 0 if that is negative'."""
    if area == 0:
        return 0
    stress = shear_stress(section, area, dm)
    axial = axial_force_for_shear(section, n)
    return max(0, floor(Fraction(stress * section.width * dm, 1_000_000))
               + floor(Fraction(15 * axial * dm, 100 * section.height)))


def shear_verdict(load, vrd):
    """3. 6.2.2: 'pass when |V| ≤ VRd,c'."""
    return verdict(abs(load.v) <= vrd)


def least_steel_verdict(section, area, dm):
    """4. 9.2.1.1(1): '26·T·b·dm ≤ 1,000·As·fyk and 13·b·dm ≤ 10,000·As'."""
    tensile = materials_of(section).T
    return verdict(26 * tensile * section.width * dm <= 1_000 * area * section.fyk
                   and 13 * section.width * dm <= 10_000 * area)


def most_steel_verdict(section):
    """5. 9.2.1.1(3): '25 times the area of all layers ≤ b·h'."""
    area = sum(layer.area for layer in counted(section))
    return verdict(25 * area <= section.width * section.height)


# Request 3 of 02: vertical links, 'steel as fyk', by clause 6.2.3

COTANGENTS = range(10, 26)  # "each tenth from 1.0 to 2.5"


def lever_arm(dm):
    """'lever arm 0.9·dm'"""
    return Fraction(9, 10) * dm


def cracked_factor(fck):
    """'ν = 0.6·(1 − fck/250)'"""
    return Fraction(6, 10) * (1 - Fraction(fck, 250))


def steel_resistance(section, dm, tenths):
    """'area/spacing times lever arm times s/100 times the cotangent', rounded down once."""
    links = section.links
    strength = Fraction(materials_of(section).s, 100)
    return floor(Fraction(links.area, links.spacing) * lever_arm(dm) * strength * Fraction(tenths, 10))


def strut_resistance(section, dm, tenths):
    """'b times lever arm times ν times g/100, divided by the sum of cotangent and
    its reciprocal', rounded down once; the 'factor αcw 1' leaves no trace."""
    cotangent = Fraction(tenths, 10)
    strength = cracked_factor(section.fck) * Fraction(materials_of(section).g, 100)
    return floor(section.width * lever_arm(dm) * strength / (cotangent + 1 / cotangent))


def lesser_resistance(section, dm, tenths):
    """The lesser of the two at one cotangent, 'compared so rounded'."""
    return min(steel_resistance(section, dm, tenths), strut_resistance(section, dm, tenths))


def link_resistance(section, dm):
    """'the cotangent whose lesser resistance is greatest, the smallest cotangent on
    a tie, and no tenth does better': in tenths, with that resistance."""
    lesser = {tenths: lesser_resistance(section, dm, tenths) for tenths in COTANGENTS}
    most = max(lesser.values())
    return min(tenths for tenths in COTANGENTS if lesser[tenths] == most), most


def spacing_suits(section, dm):
    """'the spacing is at most 0.75·dm'"""
    return section.links.spacing <= Fraction(3, 4) * dm


def link_ratio_suits(section):
    """'area/(spacing·b) is at least 0.08·√fck/fyk, compared by squares'"""
    links = section.links
    return (Fraction(links.area, links.spacing * section.width)**2
            >= Fraction(8, 100)**2 * section.fck / section.fyk**2)


def link_verdict(section, load, dm, resistance):
    """6. 6.2.3: 'passes when |V| is at most that resistance', and spacing and ratio suit."""
    return verdict(abs(load.v) <= resistance and spacing_suits(section, dm) and link_ratio_suits(section))


class Report(NamedTuple):
    """The answer of Check; a refusal 'returns zeros and verdicts 2'."""

    refusal: int
    u: int
    mrd: int
    other_u: int    # of the face that M does not compress
    other_mrd: int
    vrd: int
    dm: int
    area: int  # As
    cotangent: int        # of the strut, in tenths
    link_resistance: int  # N
    verdicts: tuple


def refused(number):
    """'A refusal returns zeros and verdicts 2.'"""
    return Report(number, 0, 0, 0, 0, 0, 0, 0, 0, 0, (NOT_REACHED,) * VERDICTS)


def resistance_under(seen, n):
    """The depth of a compressed face under N, and the moment resistance there."""
    u = depth_under(seen, n)
    return u, resistance_at(seen, u)


def report_of(section, load):
    """The numbers and the six verdicts.

    'The depth and the resistance shown are still those of the face that M
    compresses' (02, request 1); so are As, dm, VRd,c and what the links resist.
    """
    seen = as_compressed(section, load.m)
    u, mrd = resistance_under(seen, load.n)
    other_u, other_mrd = resistance_under(as_other_face(section, load.m), load.n)
    top, bottom = (mrd, other_mrd) if load.m >= 0 else (other_mrd, mrd)
    area, dm = tension_reinforcement(seen, u)
    vrd = shear_resistance(seen, load.n, area, dm)
    if area == 0:  # "the second, third and fourth verdicts are 2"
        middle = (NOT_REACHED,) * 3
    else:
        middle = (rotation_verdict(seen, u, dm), shear_verdict(load, vrd),
                  least_steel_verdict(seen, area, dm))
    if not has_links(seen) or area == 0:  # "it is 2, and cotangent and resistance are 0"
        cotangent, resistance, sixth = 0, 0, NOT_REACHED
    else:
        cotangent, resistance = link_resistance(seen, dm)
        sixth = link_verdict(seen, load, dm, resistance)
    verdicts = (bending_verdict(load.m, top, bottom), *middle, most_steel_verdict(seen), sixth)
    return Report(0, u, mrd, other_u, other_mrd, vrd, dm, area, cotangent, resistance, verdicts)


# --------------------------------------------------------------------------
# The record
# --------------------------------------------------------------------------

class Field(NamedTuple):
    """A signed number of a section or a load, and the bit that says it is there."""

    bit: int
    name: str                # of Section or of Load
    missing: Optional[int]   # what it is then; None: "must stand"


# "Bits 0 to 6: b, h, fck, fyk, N, M, V"; "Bits 0 to 3 must stand"; "N, M or V
# may be missing and is then 0"; of the situation "a missing value means 1", and
# "it is a signed 8-byte field at bit 24" (02, request 8); αcc is "a signed field at
# bit 25 after the situation; missing means 100" (request 10)
SITUATION_BIT, ALPHA_CC_BIT = 24, 25
FIELDS = (
    Field(0, "width", None),
    Field(1, "height", None),
    Field(2, "fck", None),
    Field(3, "fyk", None),
    Field(4, "n", 0),
    Field(5, "m", 0),
    Field(6, "v", 0),
    Field(SITUATION_BIT, "situation", PERSISTENT),
    Field(ALPHA_CC_BIT, "alpha_cc", UNREDUCED),
)
LINK_BIT = 7  # "Bit 7 of the record becomes a field of link area in mm² (4 bytes) and spacing" (02, request 3)
LAYER_BITS = range(8, 24)  # "Bits 8 to 23: layers"

SIGNED_BITS = tuple(field.bit for field in FIELDS)
MANDATORY_BITS = tuple(field.bit for field in FIELDS if field.missing is None)
OPTIONAL_FIELDS = tuple(field for field in FIELDS if field.missing is not None)
KNOWN_BITS = (*SIGNED_BITS, LINK_BIT, *LAYER_BITS)
FORBIDDEN_BITS = tuple(bit for bit in range(32) if bit not in KNOWN_BITS)  # "no longer 21": bits 7, 24 and 25


def record_length(bits):
    """'The length is 4 plus 8 times the number of bits that stand.'"""
    return 4 + 8 * len(bits)


LONGEST_RECORD = record_length(KNOWN_BITS)


def bits_that_stand(data):
    """The bits of the 4-byte map that comes first, lowest bit first."""
    bit_map = int.from_bytes(data[:4], "big")
    return [bit for bit in range(32) if bit_map >> bit & 1]


def assemble(fields):
    """'A 4-byte bit map comes first, then 8 bytes for each bit that stands,
    lowest bit first.' fields gives the 8 bytes of each bit."""
    bit_map = sum(1 << bit for bit in fields)
    return bit_map.to_bytes(4, "big") + b"".join(fields[bit] for bit in sorted(fields))


def signed_bytes(number):
    """Bits 0 to 6, 'each signed', 24 and 25: big-endian."""
    return number.to_bytes(8, "big", signed=True)


def pair_bytes(first, then):
    """Two unsigned numbers of 4 bytes each."""
    return first.to_bytes(4, "big") + then.to_bytes(4, "big")


def pair_of(field):
    """The two numbers of such a field."""
    return int.from_bytes(field[:4], "big"), int.from_bytes(field[4:], "big")


def layer_bytes(layer):
    """'an unsigned 4-byte depth and then 4-byte area'"""
    return pair_bytes(layer.depth, layer.area)


def link_bytes(links):
    """'link area in mm² (4 bytes) and spacing in mm (4 bytes)'"""
    return pair_bytes(links.area, links.spacing)


def numbers_of(section, load):
    """The number of each field, by its bit."""
    named = {**section._asdict(), **load._asdict()}
    return {field.bit: named[field.name] for field in FIELDS}


def fields_as_given(section, load):
    """'The writer omits a zero N, M or V and uses the lowest layer bits'; it 'sets
    bit 7 when they are present' (02, request 3), 'omits 1' of the situation (request
    8) and 'omits 100' of αcc (request 10). The layers are in the section's own sequence."""
    numbers = numbers_of(section, load)
    fields = {field.bit: signed_bytes(numbers[field.bit]) for field in FIELDS
              if numbers[field.bit] != field.missing}
    if has_links(section):
        fields[LINK_BIT] = link_bytes(section.links)
    for bit, layer in zip(LAYER_BITS, counted(section)):
        fields[bit] = layer_bytes(layer)
    return fields


def in_sequence(section):
    """'by rising depth, and equal depths by rising area' (02, request 6): a copy of the
    section with its counted layers so ordered."""
    ordered = sorted(counted(section), key=lambda layer: (layer.depth, layer.area))
    return section._replace(layers=(*ordered, *section.layers[section.count:]))


def fields_written(section, load):
    """'The writer now writes layers' in that sequence (02, request 6)."""
    return fields_as_given(in_sequence(section), load)


def fields_read(data, bits):
    """The 8 bytes of each bit that stands, taken 'lowest bit first'."""
    return {bit: data[4 + 8 * place:12 + 8 * place] for place, bit in enumerate(bits)}


def meaning(fields):
    """'N, M or V may be missing and is then 0', the situation 1, αcc 100; 'layers are taken by rising bit'."""
    numbers = {field.name: int.from_bytes(fields[field.bit], "big", signed=True)
               if field.bit in fields else field.missing for field in FIELDS}
    load = Load(**{name: numbers.pop(name) for name in Load._fields})
    layers = [pair_of(fields[bit]) for bit in LAYER_BITS if bit in fields]
    links = links_of(*pair_of(fields[LINK_BIT])) if LINK_BIT in fields else NO_LINKS
    return section_of(**numbers, layers=layers, links=links), load


# --------------------------------------------------------------------------
# When a call is turned down
# --------------------------------------------------------------------------


# The numbers in the paper's sequence, which need not be a rising one.
SECTION_TESTS = (1, 2, 3, 4, 32, 34, 5, 6, 7)  # of 02, 32 of request 8 "after 4", 34 of request 10 "after 32"
LOAD_TESTS = (8, 9, 10)
LINK_TESTS = (27, 28, 29)  # of request 3 of 02, "directly after 10"
FACE_TESTS = (11, 12)
MAP_TESTS = (20, 21, 22, 23)
SEQUENCE_TEST = 31  # of request 6 of 02, "in the reader only, after 7"
PLACE_TEST = 33  # of request 9 of 02, "tested first"

SEQUENCES = {
    "Find a depth": (*SECTION_TESTS, 8, *FACE_TESTS),
    "Moment at a depth": (*SECTION_TESTS, 13),
    "Check": (*SECTION_TESTS, *LOAD_TESTS, *LINK_TESTS, *FACE_TESTS),
    "Read a record": (*MAP_TESTS, *SECTION_TESTS, SEQUENCE_TEST, *LOAD_TESTS, *LINK_TESTS),
    "Write a record": (*SECTION_TESTS, *LOAD_TESTS, *LINK_TESTS, 25),
    "List program": (26,),
    "Try a layer": (PLACE_TEST, *SECTION_TESTS, *LOAD_TESTS, *LINK_TESTS, *FACE_TESTS),
}


def outside(number, least, most):
    """'each means outside the range above'"""
    return not least <= number <= most


def first_failing(tests):
    """'The first test of a call's sequence that fails gives the refusal.'"""
    return next((number for number, fails in tests if fails), 0)


def section_tests(section):
    """The section tests, with '32 situation other than 1 or 2, after 4' (02, request
    8) and '34 αcc outside 80 to 100, after 32' (request 10); 'a test over layers asks
    about all of them'."""
    layers = counted(section)
    return (
        (1, outside(section.width, 50, 2_000)),
        (2, outside(section.height, 50, 2_000)),
        (3, section.fck not in CLASSES),
        (4, outside(section.fyk, 400, 600)),
        (32, section.situation not in FACTORS),
        (34, section.alpha_cc not in ALPHAS),
        (5, outside(section.count, 1, PLACES)),
        (6, any(outside(layer.depth, 1, section.height - 1) for layer in layers)),
        (7, any(outside(layer.area, 1, 20_000) for layer in layers)),
    )


def axial_test(n):
    """'8 N out of range'"""
    return ((8, outside(n, -500_000_000, 500_000_000)),)


def load_tests(load):
    """8 N, '9 M out of range, 10 V out of range'."""
    return axial_test(load.n) + (
        (9, outside(load.m, -10**12, 10**12)),
        (10, outside(load.v, -500_000_000, 500_000_000)),
    )


def link_tests(section, load):
    """'27 area outside 1 to 5,000, 28 spacing outside 25 to 1,000, 29 links present
    with N not 0' (02, request 3); absent links fail none."""
    there, links = has_links(section), section.links
    return (
        (27, there and outside(links.area, 1, 5_000)),
        (28, there and outside(links.spacing, 25, 1_000)),
        (29, there and load.n != 0),
    )


def tests_by_value(section, load):
    """What Check and writer both ask: the section, load and link tests."""
    return section_tests(section) + load_tests(load) + link_tests(section, load)


def comes_too_late(before, after):
    """A layer whose follower is less deep, or as deep and of a lesser area; of equal layers
    neither comes too late."""
    return after.depth < before.depth or (after.depth == before.depth and after.area < before.area)


def out_of_sequence(layers):
    """'31 layers of a record not in that sequence' (02, request 6)."""
    return any(comes_too_late(before, after) for before, after in zip(layers, layers[1:]))


def tests_of_record(section, load):
    """What the reader asks of a record's meaning: 31 'in the reader only, after 7'."""
    return (section_tests(section) + ((SEQUENCE_TEST, out_of_sequence(counted(section))),)
            + load_tests(load) + link_tests(section, load))


def below_range(seen, n):
    """'11 N below the internal force at depth 1'"""
    return n < force_at_end(seen, 1)


def above_range(seen, n):
    """'12 is now given where no u up to 30h reaches N' (02, request 11)."""
    return not reached_by_10h(seen, n) and depth_beyond(seen, n) is None


def top_tests(section, n):
    """11 and 12 of Find a depth: 'the compressed face is always the top here'."""
    top = upright(section)
    return (11, below_range(top, n)), (12, above_range(top, n))


def face_tests(section, load):
    """11 and 12 of Check: 11 'for the face compressed', and 12 'in Check for either
    face' (02, requests 1 and 11)."""
    seen, other = as_compressed(section, load.m), as_other_face(section, load.m)
    return ((11, below_range(seen, load.n)),
            (12, above_range(seen, load.n) or above_range(other, load.n)))


class Depth(NamedTuple):
    """The answer of Find a depth; a refusal 'returns zeros'."""

    refusal: int
    u: int
    trials: int  # of the halving rule (02, request 12)


def find_depth(section, n):
    """Find a depth: the section tests, 8, 11, 12 of the top. 'Finding a depth answers also
    the number of trials', and 'refused calls ... report 0' (02, request 12)."""
    refusal = (first_failing(section_tests(section) + axial_test(n))
               or first_failing(top_tests(section, n)))
    if refusal:
        return Depth(refusal, 0, 0)
    top = upright(section)
    return Depth(0, depth_under(top, n), trials_under(top, n))


def moment_at_depth(section, u):
    """Moment at a depth: the section tests, 13; 'the top is compressed here too'.
    'Now 13 begins above 30h' (02, request 11)."""
    refusal = first_failing(section_tests(section)
                            + ((13, outside(u, 1, last_depth(section))),))
    return (refusal, 0) if refusal else (0, resistance_at(section, u))


def check(section, load):
    """Check: section, load and link tests, then 11, and 12 of either face."""
    refusal = (first_failing(tests_by_value(section, load))
               or first_failing(face_tests(section, load)))
    return refused(refusal) if refusal else report_of(section, load)


def place_test(section, place):
    """'33 place beyond the number of layers, tested first' (02, request 9)."""
    return ((PLACE_TEST, place > section.count),)


def altered(section, place, layer):
    """The copy of request 9 of 02: 'replacing one layer, named by its place from 0, with another
    depth and area'; 'a place equal to the number of layers adds one'.

    The number may be one that 5 refuses, and the place one that no section has: the copy has
    that number, or one more, and no test of Check that comes before 5 looks at a layer.
    """
    layers, number = counted(section), section.count
    if place == number:  # "adds one"
        return section._replace(layers=(*layers, layer), count=number + 1)
    return section._replace(layers=(*layers[:place], layer, *layers[place + 1:]))


def try_layer(section, load, place, layer):
    """Try a layer (02, request 9): 33, then 'the one that Check gives for a copy so altered,
    refusals included, and the section in hand is unchanged'."""
    refusal = first_failing(place_test(section, place))
    return refused(refusal) if refusal else check(altered(section, place, layer), load)


UNREADABLE = (20, 21, 22)  # refusals after which no length is known


class Reading(NamedTuple):
    """The answer of Read a record."""

    refusal: int
    length: int
    section: Section
    load: Load


def refused_reading(number, length):
    """Zeros but for the length: 'the length is answered, for 20 to 22 as 0'."""
    return Reading(number, 0 if number in UNREADABLE else length, NO_SECTION, NO_LOAD)


def read_record(data):
    """Read a record: 20, 21, 22, 23, then the section tests, 31, the load and link tests."""
    if len(data) < 4:
        return refused_reading(20, 0)
    bits = bits_that_stand(data)
    length = record_length(bits)
    refusal = first_failing((
        (21, any(bit in bits for bit in FORBIDDEN_BITS)),
        (22, len(data) < length),
        (23, any(bit not in bits for bit in MANDATORY_BITS)),
    ))
    if refusal:
        return refused_reading(refusal, length)
    section, load = meaning(fields_read(data, bits))
    refusal = first_failing(tests_of_record(section, load))
    if refusal:
        return refused_reading(refusal, length)
    return Reading(0, length, section, load)


def write_record(section, load, buffer):
    """Write a record: section, load and link tests, 25. Answers refusal and length.

    'A success ... changes that many first bytes and no others.'
    """
    refusal = first_failing(tests_by_value(section, load))
    if refusal:
        return refusal, 0
    record = assemble(fields_written(section, load))
    if len(buffer) < len(record):
        return 25, 0
    buffer[:len(record)] = record
    return 0, len(record)


# --------------------------------------------------------------------------
# The list
# --------------------------------------------------------------------------

HEADER = "rec ref u mrd vrd dm as v1 v2 v3 v4 v5 v6\n"
INPUT_ROOM = 65_536


def list_line(number, report):
    """'number from 1, refusal or 0, u, MRd, VRd,c, dm, As, five verdicts', and the
    sixth; 'neither cotangent nor link resistance is printed' (02, request 3)."""
    values = (number, report.refusal, report.u, report.mrd, report.vrd, report.dm, report.area,
              *report.verdicts)
    return " ".join(str(value) for value in values) + "\n"


def list_answers(data):
    """Number, bytes and report of each record; 'records back to back'."""
    if len(data) > INPUT_ROOM:
        yield 0, b"", refused(26)  # "the one further line has number 0"
        return
    number, start = 0, 0
    while start < len(data):
        number += 1
        reading = read_record(data[start:])
        if reading.refusal:
            report = refused(reading.refusal)
        else:
            report = check(reading.section, reading.load)
        ended = reading.refusal in UNREADABLE  # "after 20, 21 or 22 the list ends"
        stop = len(data) if ended else start + reading.length
        yield number, data[start:stop], report
        start = stop


def list_text(data):
    """The whole of what the check list program prints."""
    return HEADER + "".join(list_line(number, report)
                            for number, _, report in list_answers(data))


# --------------------------------------------------------------------------
# Reference cases: expected values written out from the papers
# --------------------------------------------------------------------------

SECTION_A = section_of(300, 500, 30, 500, [(450, 1_500)])
NO_MOMENT_SUITS = section_of(50, 50, 25, 400, [(1, 1_500)])  # under N 0 verdict one has an empty interval
TIE = section_of(200, 300, 35, 500, [(250, 1_500)], links_of(312, 365))  # cotangents 23 and 24 resist the same
ACCIDENTAL_TIE = TIE._replace(links=links_of(204, 161), situation=ACCIDENTAL)  # 19 and 20 here
REDUCED_TIE = TIE._replace(links=links_of(305, 283), alpha_cc=85)  # 18 and 19 here
BOTH_TIE = TIE._replace(links=links_of(124, 157), situation=ACCIDENTAL, alpha_cc=85)  # 23 and 24 again
TURNED_A = section_of(300, 500, 30, 500, [(50, 1_500)])  # A turned over by hand
HUMP = TURNED_A._replace(fyk=600)  # its force falls again soon, below many an N that it reached
COLUMN = section_of(300, 300, 30, 500, [(50, 628), (150, 402), (250, 628)])  # level from 5,629 on but for the rounding
FALLING = section_of(50, 500, 12, 600, [(150, 20_000)], situation=ACCIDENTAL)  # its force falls from 10h on
MIXED = section_of(50, 500, 12, 600, [(150, 20_000), (450, 100)], situation=ACCIDENTAL)  # and a layer in tension
SMALL = section_of(50, 50, 30, 500, [(10, 100), (40, 150)])
LARGE = section_of(2_000, 2_000, 90, 600, [(50, 20_000), (1_950, 20_000)] * 8)
LOW = section_of(75, 50, 90, 463, [(7, 37), (43, 111)])  # its force is whole at 10h, and neither at 1 nor at the first mean
TALL = section_of(300, 2_000, 30, 500, [(1_950, 1_500)])  # A made higher: the same force where the layer of both yields
SIXTEEN = section_of(  # layers near both faces and inside, some equal depths, sixteen in all
    400, 700, 40, 500, [(50 + 40 * (place // 2), 100 + 10 * place) for place in range(PLACES)])
EXAMPLE = bytes.fromhex(
    "0000016F" "000000000000012C" "00000000000001F4" "000000000000001E"
    "00000000000001F4" "000000000BEBC200" "0000000000013880" "000001C2000005DC")
EXAMPLE_LIST = ("rec ref u mrd vrd dm as v1 v2 v3 v4 v5 v6\n"
                "1 0 1358 257986051 86851 450 1500 0 0 0 0 0 2\n")
LINKED_EXAMPLE = bytes.fromhex(  # the same with links 101/200 at bit 7
    "000001EF" "000000000000012C" "00000000000001F4" "000000000000001E"
    "00000000000001F4" "000000000BEBC200" "0000000000013880" "00000065000000C8" "000001C2000005DC")
LINKED_LIST = ("rec ref u mrd vrd dm as v1 v2 v3 v4 v5 v6\n"
               "1 0 1358 257986051 86851 450 1500 0 0 0 0 0 0\n")
ACCIDENTAL_A = SECTION_A._replace(situation=ACCIDENTAL)
ACCIDENTAL_EXAMPLE = bytes.fromhex(  # the same without links, and 2 at bit 24
    "0100016F" "000000000000012C" "00000000000001F4" "000000000000001E"
    "00000000000001F4" "000000000BEBC200" "0000000000013880" "000001C2000005DC" "0000000000000002")
ACCIDENTAL_LIST = ("rec ref u mrd vrd dm as v1 v2 v3 v4 v5 v6\n"
                   "1 0 1250 300000000 108564 450 1500 0 0 0 0 0 2\n")
REDUCED_A = SECTION_A._replace(alpha_cc=85)  # "as source document 004 does with 0.85" (02, request 10)
REDUCED_EXAMPLE = bytes.fromhex(  # the first again, and 85 at bit 25
    "0200016F" "000000000000012C" "00000000000001F4" "000000000000001E"
    "00000000000001F4" "000000000BEBC200" "0000000000013880" "000001C2000005DC" "0000000000000055")
REDUCED_LIST = ("rec ref u mrd vrd dm as v1 v2 v3 v4 v5 v6\n"
                "1 0 1598 251755182 86851 450 1500 0 0 0 0 0 2\n")
BOTH_A = ACCIDENTAL_A._replace(alpha_cc=85)
BOTH_EXAMPLE = bytes.fromhex(  # 2 at bit 24, and 85 at bit 25 "after the situation"
    "0300016F" "000000000000012C" "00000000000001F4" "000000000000001E" "00000000000001F4"
    "000000000BEBC200" "0000000000013880" "000001C2000005DC" "0000000000000002" "0000000000000055")
BOTH_LIST = ("rec ref u mrd vrd dm as v1 v2 v3 v4 v5 v6\n"
             "1 0 1470 293342640 108564 450 1500 0 0 0 0 0 2\n")
TWO_LAYERS = section_of(300, 500, 30, 500, [(50, 600), (450, 1_500)])  # A and a layer at the top
TWO_EXAMPLE = bytes.fromhex(  # the first with both layers, the lesser depth at bit 8 (02, request 6)
    "0000036F" "000000000000012C" "00000000000001F4" "000000000000001E" "00000000000001F4"
    "000000000BEBC200" "0000000000013880" "0000003200000258" "000001C2000005DC")
SWAPPED_EXAMPLE = bytes.fromhex(  # and out of sequence
    "0000036F" "000000000000012C" "00000000000001F4" "000000000000001E" "00000000000001F4"
    "000000000BEBC200" "0000000000013880" "000001C2000005DC" "0000003200000258")
# By hand: 480u + 420,000·(u−500)/u − 652,170 is −77.3 at 946 and 637.1 at 947. At 946 the concrete has
# 454,080·212.16, the layer at the top 420,000·446/946·200 and the other 652,170·200, each rounded down:
# 96,337,612 + 39,602,536 + 130,434,000. As, dm and VRd,c are those of A.
TWO_LIST = ("rec ref u mrd vrd dm as v1 v2 v3 v4 v5 v6\n"
            "1 0 946 266374148 86851 450 1500 0 0 0 0 0 2\n")
EXAMPLE_LOAD = Load(0, 200_000_000, 80_000)  # of all seven examples
BEYOND_EXAMPLE = bytes.fromhex(  # A under N 2,505,001 alone (02, request 11)
    "0000011F" "000000000000012C" "00000000000001F4" "000000000000001E"
    "00000000000001F4" "0000000000263929" "000001C2000005DC")
BEYOND_LIST = ("rec ref u mrd vrd dm as v1 v2 v3 v4 v5 v6\n"
               "1 0 5001 98894393 0 0 0 0 2 2 2 0 2\n")


def equilibrium_rows():
    """The cases of A under N and M: (what it says, computed, expected)."""
    turned = turned_over(SECTION_A)
    bottom = check(SECTION_A, Load(0, -1, 0))
    at_end = check(SECTION_A, Load(2_505_000, 0, 0))
    return [
        ("A, N 0 from the top: u", find_depth(SECTION_A, 0)[:2], (0, 1_358)),
        ("A, internal force at 1,358", internal_force(SECTION_A, 1_358), -330),
        ("A, internal force at 1,359", internal_force(SECTION_A, 1_359), 150),
        ("A, N 0: MRd", check(SECTION_A, NO_LOAD).mrd, 257_986_051),
        ("A, N 0: Moment at depth 1,358", moment_at_depth(SECTION_A, 1_358), (0, 257_986_051)),
        ("A, M -1: u and MRd", (bottom.u, bottom.mrd), (419, 6_312_569)),
        ("A, M -1: the layer alone",
         rounded_down(layer_moment(turned, counted(turned)[0], 419)), -40_596_659),
        ("A, N -651,690: u 1", find_depth(SECTION_A, -651_690)[:2], (0, 1)),
        ("A, N -651,691: refusal 11", find_depth(SECTION_A, -651_691)[:2], (11, 0)),
        ("A, N 2,505,000: u 5,000", find_depth(SECTION_A, 2_505_000)[:2], (0, 5_000)),
        ("A, N 2,505,000: MRd", at_end.mrd, 99_000_000),
        ("A, N 2,505,000: verdicts two to four", at_end.verdicts[1:4], (2, 2, 2)),
        ("A, N 2,505,001: u 5,001, no longer 12", find_depth(SECTION_A, 2_505_001)[:2], (0, 5_001)),
    ]


def both_faces_rows():
    """Request 1 of 02: verdict one of both faces, and 11."""
    def first_verdicts(section, n, *ms):
        return [check(section, Load(n, m, 0)).verdicts[0] for m in ms]

    def refusals(m, *ns):
        return [check(SECTION_A, Load(n, m, 0)).refusal for n in ns]

    def faces(section, n, m):
        report = check(section, Load(n, m, 0))
        return report.u, report.mrd, report.other_u, report.other_mrd

    a, narrow = SECTION_A, NO_MOMENT_SUITS
    most = 10**12
    return [
        ("A, N -651,690: M 0 fails", first_verdicts(a, -651_690, 0), [FAIL]),
        ("A, N -651,690: from 130,314,020", first_verdicts(a, -651_690, 130_314_019, 130_314_020), [FAIL, PASS]),
        ("A, N -651,690: to 130,553,980", first_verdicts(a, -651_690, 130_553_980, 130_553_981), [PASS, FAIL]),
        ("A, N -651,690: both faces", faces(a, -651_690, 0), (1, 130_553_980, 1, -130_314_020)),
        ("A, N 0: both faces", faces(a, 0, 0), (1_358, 257_986_051, 419, 6_312_569)),
        ("A, M -1: both faces", faces(a, 0, -1), (419, 6_312_569, 1_358, 257_986_051)),
        ("A, force at depth 1 of both faces",
         internal_force(turned_over(a), 1), internal_force(a, 1)),
        ("A, N -651,691: 11 for either M", refusals(0, -651_691) + refusals(-1, -651_691), [11, 11]),
        ("A from the bottom: last N up to 10h",
         [reached_by_10h(turned_over(a), n) for n in (3_052_170, 3_052_171)], [True, False]),
        ("50 x 50, N 0: both faces", faces(narrow, 0, 0), (9, -2_785_222, 475, 985_713)),
        ("50 x 50, N 0: M at and about both ends, and the farthest fail",
         set(first_verdicts(narrow, 0, -most, -2_785_223, -2_785_222, -2_785_221, -985_714, -985_713, -985_712, -1, 0, 1,
                            985_713, 2_785_222, most)), {FAIL}),
    ]


def clause_rows():
    """The cases of shear and materials."""
    return [
        ("A, N 0: K", size_factor(450), 1_666),
        ("A, N 0: r", reinforcement_root(SECTION_A, 1_500, 450), 3_218),
        ("A, N 0: q", least_shear_root(1_666, 30), 11_778),
        ("K at 200", size_factor(200), 2_000),
        ("K at 201", size_factor(201), 1_997),
        ("K at 1,999", size_factor(1_999), 1_316),
        ("f for fck 55", materials(55, 500, PERSISTENT).f, 3_575),
        ("f for fck 80", materials(80, 500, PERSISTENT).f, 4_533),
        ("s for fyk 500", materials(30, 500, PERSISTENT).s, 43_478),
    ]


def with_links(section, area, spacing):
    """The section with these links."""
    return section._replace(links=links_of(area, spacing))


def link_answer(section, links, m=0):
    """Cotangent and resistance of the section with these links."""
    report = check(with_links(section, *links), Load(0, m, 0))
    return report.cotangent, report.link_resistance


def verdicts_under(section, place, *loads):
    """One of the section's verdicts under each load."""
    return [check(section, Load(*load)).verdicts[place - 1] for load in loads]


def shear_resistances(section, *ns):
    """VRd,c of the section under each N."""
    return [check(section, Load(n, 0, 0)).vrd for n in ns]


def link_rows():
    """Request 3 of 02: cotangent and resistance."""
    def both(tenths):
        return steel_resistance(TIE, 250, tenths), strut_resistance(TIE, 250, tenths)

    a, high, at_1 = SECTION_A, SECTION_A._replace(fck=90), section_of(50, 50, 12, 400, [(1, 20_000)])
    return [
        ("A, links 101/200: cotangent and resistance", link_answer(a, (101, 200)), (25, 222_308)),
        ("A, links 500/50", link_answer(a, (500, 50)), (10, 641_520)),
        ("A, links 200/100", link_answer(a, (200, 100)), (16, 563_474)),
        ("a tie: links and strut at 23", both(23), (192_327, 198_086)),
        ("a tie: links and strut at 24", both(24), (200_689, 192_327)),
        ("a tie: the smallest", link_answer(TIE, (312, 365)), (23, 192_327)),
        ("a tie of two struts, dm 1", link_answer(at_1, (5_000, 25)), (10, 102)),
        ("a tie of all links at 0 newtons, dm 1", link_answer(at_1, (1, 1_000)), (10, 0)),
        ("A, M -1, links 101/37: dm 50", link_answer(a, (101, 37), -1), (13, 68_895)),
        ("A with fck 90, links 500/50: g and not f", link_answer(high, (500, 50)), (10, 1_399_680)),
        ("A without links", check(a, NO_LOAD)[-3:], (0, 0, (0, 0, 0, 0, 0, 2))),
    ]


def link_verdict_rows():
    """Request 3 of 02: where verdict six turns, by V, by spacing and by ratio."""
    def sixth(section, area, spacing, v=0, m=0):
        return check(with_links(section, area, spacing), Load(0, m, v)).verdicts[5]

    def verdicts(v):
        return check(with_links(SECTION_A, 101, 200), Load(0, 0, v)).verdicts

    a, at_400 = SECTION_A, section_of(300, 500, 30, 500, [(400, 1_500)])
    of_25 = section_of(250, 500, 25, 500, [(450, 1_500)])  # 0.08·√25/500 is 20/(100·250)
    of_16 = section_of(250, 500, 16, 400, [(450, 1_500)])  # and 0.08·√16/400 too
    return [
        ("A, links 101/200: V to 222,308", [sixth(a, 101, 200, v) for v in (222_308, 222_309)], [PASS, FAIL]),
        ("A, links 101/200: V from -222,308", [sixth(a, 101, 200, v) for v in (-222_308, -222_309)], [PASS, FAIL]),
        ("A, links 101/200: verdict three as ever", verdicts(86_852), (0, 0, 1, 0, 0, 0)),
        ("A: spacing to 337", [sixth(a, 101, spacing) for spacing in (337, 338)], [PASS, FAIL]),
        ("dm 400: spacing to 300", [sixth(at_400, 101, spacing) for spacing in (300, 301)], [PASS, FAIL]),
        ("A, M -1: spacing to 37", [sixth(a, 101, spacing, m=-1) for spacing in (37, 38)], [PASS, FAIL]),
        ("A, spacing 200: area from 53", [sixth(a, area, 200) for area in (52, 53)], [FAIL, PASS]),
        ("fck 25: the least ratio itself passes", [sixth(of_25, area, 100) for area in (19, 20)], [FAIL, PASS]),
        ("fck 16: the least ratio itself passes", [sixth(of_16, area, 100) for area in (19, 20)], [FAIL, PASS]),
    ]


def refusals_of(section, load, room=LONGEST_RECORD):
    """The refusals of Check, reader and writer."""
    reading = read_record(assemble(fields_written(section, load)))
    return check(section, load).refusal, reading.refusal, write_record(section, load, bytearray(room))[0]


def link_refusal_rows():
    """Request 3 of 02: 27, 28 and 29 at both ends and in their sequence."""
    def refusals(area=101, spacing=200, n=0, v=0, room=LONGEST_RECORD, present=1):
        return refusals_of(SECTION_A._replace(links=Links(present, area, spacing)), Load(n, 0, v), room)

    def in_all(number):
        return (number,) * 3

    return [
        ("27: area 0, 1, 5,000 and 5,001", [refusals(area=area) for area in (0, 1, 5_000, 5_001)],
         [in_all(27), in_all(0), in_all(0), in_all(27)]),
        ("28: spacing 24, 25, 1,000 and 1,001", [refusals(spacing=spacing) for spacing in (24, 25, 1_000, 1_001)],
         [in_all(28), in_all(0), in_all(0), in_all(28)]),
        ("29: N -1, 0 and 1", [refusals(n=n) for n in (-1, 0, 1)], [in_all(29), in_all(0), in_all(29)]),
        ("10 before 27", refusals(area=0, v=500_000_001), in_all(10)),
        ("27 before 28", refusals(area=0, spacing=0), in_all(27)),
        ("28 before 29", refusals(spacing=0, n=1), in_all(28)),
        ("29 before 11", refusals(n=-651_691), in_all(29)),
        ("29 before a depth beyond 10h", refusals(n=2_505_001), in_all(29)),
        ("29 before 12", refusals(n=3_441_001), in_all(29)),
        ("29 before 25", refusals(n=1, room=0)[2], 29),
        ("absent links, whatever their numbers", refusals(area=0, spacing=0, n=1, present=0), in_all(0)),
        ("Find a depth ignores links", find_depth(with_links(SECTION_A, 0, 0), 1), find_depth(SECTION_A, 1)),
        ("Moment at a depth ignores links", moment_at_depth(with_links(SECTION_A, 0, 0), 1_358), (0, 257_986_051)),
    ]


def link_record_rows():
    """Request 3 of 02: links in the record."""
    full = section_of(300, 500, 30, 500, [(450, 100)] * PLACES, links_of(101, 200), ACCIDENTAL, 85)
    load = Load(0, -1, 1)
    written = bytearray(LONGEST_RECORD)
    refusal, length = write_record(full._replace(links=Links(2**63, 101, 200)), load, written)

    def longest(n):  # the writer omits N 0, so no record that it writes has all 26 fields
        reading = read_record(assemble({**fields_written(full, load), 4: signed_bytes(n)}))
        return reading.refusal, reading.length, reading.section.links

    def bare(area):
        return read_record(assemble(fields_written(with_links(SECTION_A, area, 200), NO_LOAD)))[:2]

    return [
        ("a record with links: its length", len(LINKED_EXAMPLE), 68),
        ("a record with links: what it means", read_record(LINKED_EXAMPLE)[2:],
         (with_links(SECTION_A, 101, 200), EXAMPLE_LOAD)),
        ("a record with links: what it prints", list_text(LINKED_EXAMPLE), LINKED_LIST),
        ("a record with links: the writer's bytes",
         assemble(fields_written(with_links(SECTION_A, 101, 200), EXAMPLE_LOAD)), LINKED_EXAMPLE),
        ("the longest that is written", (refusal, length), (0, 204)),
        ("the round trip carries links, situation and αcc", read_record(written)[2:], (full, load)),
        ("the longest, N present as 0", longest(0), (0, 212, links_of(101, 200))),
        ("the longest, N 1", longest(1), (29, 212, NO_LINKS)),
        ("bit 7 with area 0", bare(0), (27, 52)),
        ("bit 7 alone is 23 and no longer 21", read_record(assemble({LINK_BIT: bytes(8)}))[:2], (23, 12)),
    ]


def strength_rows():
    """Request 8 of 02: f, g and s for fyk 500; 'rounded down once', so that 5,250 is not 0.9 times 5,833."""
    strengths = {
        30: ((2_000, 2_000, 43_478), (2_500, 2_500, 50_000)),
        55: ((3_575, 3_666, 43_478), (4_468, 4_583, 50_000)),
        70: ((4_200, 4_666, 43_478), (5_250, 5_833, 50_000)),
        90: ((4_800, 6_000, 43_478), (6_000, 7_500, 50_000)),
    }
    rows = [(f"fck {fck}, situation {situation}: f, g and s", materials(fck, 500, situation)[3:6], expected)
            for fck, both in strengths.items() for situation, expected in zip(FACTORS, both)]
    return rows + [
        ("T, E and L have no factor", materials(55, 500, ACCIDENTAL)[:3], (42, 620, 63)),
        ("12 or 15·K·r/100", [shear_factor(situation) for situation in FACTORS], [12, 15]),
    ]


def accidental_rows():
    """Request 8 of 02: A under N and M in the accidental situation."""
    a, turned = ACCIDENTAL_A, turned_over(ACCIDENTAL_A)
    bottom = check(a, Load(0, -1, 0))
    return [
        ("accidental A, N 0: u", find_depth(a, 0)[:2], (0, 1_250)),
        ("accidental A, internal force at 1,250 and 1,251", [internal_force(a, u) for u in (1_250, 1_251)], [0, 600]),
        ("accidental A, N -1: u", find_depth(a, -1)[:2], (0, 1_249)),
        ("accidental A, N 0: MRd", check(a, NO_LOAD).mrd, 300_000_000),
        ("accidental A: Moment at depth 1,250", moment_at_depth(a, 1_250), (0, 300_000_000)),
        ("accidental A, M -1: u and MRd", (bottom.u, bottom.mrd), (405, 7_554_140)),
        ("accidental A, M -1: the layer alone",
         rounded_down(layer_moment(turned, counted(turned)[0], 405)), -49_259_260),
        ("accidental A, the least N", [find_depth(a, n)[:2] for n in (-749_400, -749_401)], [(0, 1), (11, 0)]),
        ("accidental A, the last N up to 10h",
         [find_depth(a, n)[:2] for n in (3_105_000, 3_105_001)], [(0, 5_000), (0, 5_001)]),
        ("accidental A from the bottom: last N up to 10h",
         [find_depth(turned, n)[:2] for n in (3_750_000, 3_750_001)], [(0, 5_000), (0, 5_001)]),
        ("accidental A: Moment at depth 5,000", moment_at_depth(a, 5_000), (0, 129_000_000)),
    ]


def accidental_verdict_rows():
    """Request 8 of 02: where verdicts one, two, three and six turn in the accidental situation."""
    a, linked = ACCIDENTAL_A, with_links(ACCIDENTAL_A, 101, 200)

    def of_area(area):
        sections = [section_of(300, 500, 30, 500, [(450, area)], situation=situation) for situation in FACTORS]
        return [check(section, NO_LOAD).vrd for section in sections]

    return [
        ("accidental A: M to 300,000,000", verdicts_under(a, 1, (0, 300_000_000, 0), (0, 300_000_001, 0)), [PASS, FAIL]),
        ("accidental A: M from -7,554,140", verdicts_under(a, 1, (0, -7_554_140, 0), (0, -7_554_141, 0)), [PASS, FAIL]),
        ("accidental A: verdict two to u 2,025", verdicts_under(a, 2, (465_599, 0, 0), (465_600, 0, 0)), [PASS, FAIL]),
        ("accidental A: V to 108,564", verdicts_under(a, 3, (0, 0, 108_564), (0, 0, 108_565)), [PASS, FAIL]),
        ("accidental A: V from -108,564", verdicts_under(a, 3, (0, 0, -108_564), (0, 0, -108_565)), [PASS, FAIL]),
        ("accidental A: c to 750,000", shear_resistances(a, 749_999, 750_000, 750_001), [209_813, 209_814, 209_814]),
        ("fck 90: c to 2,250,000, g and not f",
         shear_resistances(a._replace(fck=90), 2_250_000, 2_250_001), [460_320, 460_320]),
        ("area 300: 35·q, or 15·K·r/100", of_area(300), [55_651, 63_491]),
        ("area 100: 35·q in both", of_area(100), [55_651, 55_651]),
        ("accidental A, links 101/200", link_answer(a, (101, 200)), (25, 255_656)),
        ("accidental A, links 500/50", link_answer(a, (500, 50)), (10, 801_900)),
        ("accidental A, links 200/100", link_answer(a, (200, 100)), (17, 688_500)),
        ("an accidental tie: the smallest", link_answer(ACCIDENTAL_TIE, (204, 161)), (19, 270_838)),
        ("accidental A, links 101/200: V to 255,656",
         verdicts_under(linked, 6, (0, 0, 255_656), (0, 0, 255_657)), [PASS, FAIL]),
    ]


def refusals_of_calls(section, load=NO_LOAD):
    """The refusals of every call that takes a section."""
    return {*refusals_of(section, load), find_depth(section, load.n)[0], moment_at_depth(section, 1)[0]}


def situation_refusal_rows():
    """Request 8 of 02: '32 situation other than 1 or 2, after 4', in every call that takes a section."""
    def refusals(situation, **change):
        return refusals_of_calls(SECTION_A._replace(situation=situation, **change))

    return [
        ("situations 1 and 2", [refusals(situation) for situation in (1, 2)], [{0}, {0}]),
        ("32: situations 0, 3 and -1", [refusals(situation) for situation in (0, 3, -1)], [{32}, {32}, {32}]),
        ("4 before 32", refusals(0, fyk=399), {4}),
        ("32 before 5", refusals(3, count=0), {32}),
        ("32 before 25", write_record(SECTION_A._replace(situation=0), NO_LOAD, bytearray())[0], 32),
    ]


def reduced_strength_rows():
    """Request 10 of 02: f and g at αcc 80, 85, 90 and 100, 'multiplied by αcc before their one rounding down'."""
    strengths = {
        (16, 1): ((853, 853), (906, 906), (960, 960), (1_066, 1_066)),
        (16, 2): ((1_066, 1_066), (1_133, 1_133), (1_200, 1_200), (1_333, 1_333)),
        (30, 1): ((1_600, 1_600), (1_700, 1_700), (1_800, 1_800), (2_000, 2_000)),
        (30, 2): ((2_000, 2_000), (2_125, 2_125), (2_250, 2_250), (2_500, 2_500)),
        (55, 1): ((2_860, 2_933), (3_038, 3_116), (3_217, 3_300), (3_575, 3_666)),
        (55, 2): ((3_575, 3_666), (3_798, 3_895), (4_021, 4_125), (4_468, 4_583)),
        (80, 1): ((3_626, 4_266), (3_853, 4_533), (4_080, 4_800), (4_533, 5_333)),
        (80, 2): ((4_533, 5_333), (4_816, 5_666), (5_100, 6_000), (5_666, 6_666)),
        (90, 1): ((3_840, 4_800), (4_080, 5_100), (4_320, 5_400), (4_800, 6_000)),
        (90, 2): ((4_800, 6_000), (5_100, 6_375), (5_400, 6_750), (6_000, 7_500)),
    }
    rows = [(f"fck {fck}, situation {situation}, αcc {alpha_cc}: f and g",
             materials(fck, 500, situation, alpha_cc)[3:5], expected)
            for (fck, situation), of_each in strengths.items() for alpha_cc, expected in zip((80, 85, 90, 100), of_each)]
    twice = [90 * materials(fck, 500, PERSISTENT).f // 100 for fck in (16, 80)]
    return rows + [
        ("one rounding down is not two: 960 and 4,080", twice, [959, 4_079]),
        ("fck 55, αcc 95", materials(55, 500, PERSISTENT, 95), (42, 620, 63, 3_396, 3_483, 43_478, 360)),
        ("no αcc in T, E, L, s and D", {materials(90, 600, ACCIDENTAL, alpha_cc)[:3] + materials(
            90, 600, ACCIDENTAL, alpha_cc)[5:] for alpha_cc in ALPHAS}, {(50, 520, 56, 60_000, 460)}),
        ("80/1.2 is 100/1.5", [materials(fck, 500, ACCIDENTAL, 80)[3:5] for fck in CLASSES],
         [materials(fck, 500, PERSISTENT)[3:5] for fck in CLASSES]),
    ]


def reduced_rows():
    """Request 10 of 02: A under N and M with αcc 85, and with 80."""
    a, turned = REDUCED_A, turned_over(REDUCED_A)

    def faces(section, m=0):
        return check(section, Load(0, m, 0))[1:5]

    return [
        ("αcc 85, N 0: u", find_depth(a, 0)[:2], (0, 1_598)),
        ("αcc 85, internal force at 1,598 and 1,599", [internal_force(a, u) for u in (1_598, 1_599)], [-186, 222]),
        ("αcc 85: Moment at depth 1,598", moment_at_depth(a, 1_598), (0, 251_755_182)),
        ("αcc 85, N 0: both faces", faces(a), (1_598, 251_755_182, 428, 5_339_334)),
        ("αcc 85, M -1: both faces", faces(a, -1), (428, 5_339_334, 1_598, 251_755_182)),
        ("αcc 85, the least N", [find_depth(a, n)[:2] for n in (-651_762, -651_763)], [(0, 1), (11, 0)]),
        ("αcc 85, the last N up to 10h",
         [find_depth(a, n)[:2] for n in (2_145_000, 2_145_001)], [(0, 5_000), (0, 5_001)]),
        ("αcc 85 from the bottom: last N up to 10h",
         [find_depth(turned, n)[:2] for n in (2_692_170, 2_692_171)], [(0, 5_000), (0, 5_001)]),
        ("αcc 80, N 0: both faces", faces(a._replace(alpha_cc=80)), (1_698, 249_155_986, 431, 4_903_221)),
        ("αcc 99, N 0: both faces", faces(a._replace(alpha_cc=99)), (1_372, 257_647_244, 420, 6_542_988)),
        ("accidental, αcc 85, N 0: both faces", faces(BOTH_A), (1_470, 293_342_640, 415, 6_387_061)),
        ("accidental, αcc 80, N 0: both faces", faces(BOTH_A._replace(alpha_cc=80)),
         (1_562, 290_594_995, 419, 6_312_569)),
    ]


def reduced_verdict_rows():
    """Request 10 of 02: where verdicts one, two, three and six turn with αcc 85; c and the strut have g."""
    a, high = REDUCED_A, REDUCED_A._replace(fck=90)
    linked, strut = with_links(a, 101, 200), with_links(a, 500, 50)
    return [
        ("αcc 85: M to 251,755,182", verdicts_under(a, 1, (0, 251_755_182, 0), (0, 251_755_183, 0)), [PASS, FAIL]),
        ("αcc 85: M from -5,339,334", verdicts_under(a, 1, (0, -5_339_334, 0), (0, -5_339_335, 0)), [PASS, FAIL]),
        ("αcc 85: verdict two to u 2,025", verdicts_under(a, 2, (174_437, 0, 0), (174_438, 0, 0)), [PASS, FAIL]),
        ("αcc 85: V to 86,851 as ever", verdicts_under(a, 3, (0, 0, 86_851), (0, 0, -86_852)), [PASS, FAIL]),
        ("αcc 85: c to 510,000", shear_resistances(a, 509_999, 510_000, 510_001), [155_700, 155_701, 155_701]),
        ("αcc 85, N 1,000,000: V to 155,701",
         verdicts_under(a, 3, (1_000_000, 0, 155_701), (1_000_000, 0, 155_702)), [PASS, FAIL]),
        ("fck 90, αcc 85: c to 1,530,000, g and not f",
         shear_resistances(high, 1_529_999, 1_530_000, 1_530_001), [331_805, 331_806, 331_806]),
        ("αcc 85, links 101/200: the links resist, as ever", link_answer(a, (101, 200)), (25, 222_308)),
        ("αcc 85, links 500/50: the strut resists", link_answer(a, (500, 50)), (10, 545_292)),
        ("αcc 85, links 200/100", link_answer(a, (200, 100)), (15, 503_346)),
        ("αcc 85, accidental, links 200/100", link_answer(BOTH_A, (200, 100)), (16, 612_687)),
        ("fck 90, αcc 85, links 500/50: g and not f", link_answer(high, (500, 50)), (10, 1_189_728)),
        ("αcc 85, a tie: the smallest", link_answer(REDUCED_TIE, (305, 283)), (18, 189_774)),
        ("αcc 85, an accidental tie: the smallest", link_answer(BOTH_TIE, (124, 157)), (23, 204_363)),
        ("αcc 85, links 101/200: V to 222,308",
         verdicts_under(linked, 6, (0, 0, 222_308), (0, 0, 222_309)), [PASS, FAIL]),
        ("αcc 85, links 500/50: V to 545,292",
         verdicts_under(strut, 6, (0, 0, 545_292), (0, 0, -545_293)), [PASS, FAIL]),
    ]


def alpha_refusal_rows():
    """Request 10 of 02: '34 αcc outside 80 to 100, after 32', in every call that takes a section."""
    def refusals(alpha_cc, load=NO_LOAD, **change):
        return refusals_of_calls(SECTION_A._replace(alpha_cc=alpha_cc, **change), load)

    return [
        ("αcc 80, 85 and 100", [refusals(alpha_cc) for alpha_cc in (80, 85, 100)], [{0}, {0}, {0}]),
        ("34: αcc 79 and 101", [refusals(alpha_cc) for alpha_cc in (79, 101)], [{34}, {34}]),
        ("34: αcc 0, -1 and 2^32 + 85", [refusals(alpha_cc) for alpha_cc in (0, -1, 2**32 + 85)], [{34}, {34}, {34}]),
        ("32 before 34", refusals(79, situation=3), {32}),
        ("34 in the accidental situation too", refusals(101, situation=ACCIDENTAL), {34}),
        ("34 before 5", refusals(101, count=0), {34}),
        ("34 before 8", refusals(79, Load(500_000_001, 0, 0)), {34}),
        ("34 before 27", refusals(101, links=links_of(0, 200)), {34}),
        ("34 before 25", write_record(SECTION_A._replace(alpha_cc=0), NO_LOAD, bytearray())[0], 34),
    ]


def with_signed(record, **numbers):
    """A record with these signed fields too, by name, in range or not."""
    added = {field.bit: signed_bytes(numbers[field.name]) for field in FIELDS if field.name in numbers}
    return assemble({**fields_read(record, bits_that_stand(record)), **added})


def optional_record_rows(name, example, section, printed, wrong):
    """Requests 8 and 10 of 02: the field of this name in the record, and a wrong number of it with its refusal."""
    def written(section):
        return assemble(fields_written(section, EXAMPLE_LOAD))

    [field] = [field for field in FIELDS if field.name == name]
    value, (number, refusal) = section._asdict()[name], wrong
    present = read_record(with_signed(EXAMPLE, **{name: field.missing}))
    return [
        (f"{name} {value}: the record's length", len(example), 68),
        (f"{name} {value}: what it means", read_record(example), (0, 68, section, EXAMPLE_LOAD)),
        (f"{name} {value}: what it prints", list_text(example), printed),
        (f"{name} {value}: the writer's bytes", written(section), example),
        (f"{name} {value} is the field of bit {field.bit}", with_signed(EXAMPLE, **{name: value}), example),
        (f"{name} missing means {field.missing}", read_record(EXAMPLE), (0, 60, SECTION_A, EXAMPLE_LOAD)),
        (f"{name}: the writer omits {field.missing}", written(SECTION_A), EXAMPLE),
        (f"{name}: a present {field.missing} is read", present, (0, 68, SECTION_A, EXAMPLE_LOAD)),
        (f"{name}: a present {field.missing} is not written again", written(present.section), EXAMPLE),
        (f"{name}: a refused reading has zeros", read_record(with_signed(EXAMPLE, **{name: number})),
         (refusal, 68, (0, 0, 0, 0, 0, 0, 0, ((0, 0),) * PLACES, (0, 0, 0)), (0, 0, 0))),
        (f"{name}: its field, cut", read_record(example[:-1])[:2], (22, 0)),
        (f"bit {field.bit} alone is 23 and no longer 21",
         read_record(assemble({field.bit: signed_bytes(value)}))[:2], (23, 12)),
    ]


def both_record_rows():
    """Requests 8 and 10 of 02: αcc 'at bit 25 after the situation'."""
    return [
        ("situation 2 and αcc 85: the record's length", len(BOTH_EXAMPLE), 76),
        ("situation 2 and αcc 85: what it means", read_record(BOTH_EXAMPLE), (0, 76, BOTH_A, EXAMPLE_LOAD)),
        ("situation 2 and αcc 85: what it prints", list_text(BOTH_EXAMPLE), BOTH_LIST),
        ("situation 2 and αcc 85: the writer's bytes", assemble(fields_written(BOTH_A, EXAMPLE_LOAD)), BOTH_EXAMPLE),
        ("a present 1 and 100", read_record(with_signed(EXAMPLE, situation=1, alpha_cc=100)),
         (0, 76, SECTION_A, EXAMPLE_LOAD)),
        ("a present 1 and 85", read_record(with_signed(EXAMPLE, situation=1, alpha_cc=85))[2], REDUCED_A),
        ("2 and a present 100", read_record(with_signed(EXAMPLE, situation=2, alpha_cc=100))[2], ACCIDENTAL_A),
        ("bits 24 to 26 are 21", read_record(b"\7" + BOTH_EXAMPLE[1:] + bytes(8))[:2], (21, 0)),
    ]


def strain_line_rows():
    """Request 11 of 02: D of each class, and that both pages have the same stress at 10h."""
    above_50 = {55: 360, 60: 380, 70: 400, 80: 440, 90: 460}

    def stresses(fck, situation, height):
        mat = materials(fck, 500, situation)
        layers = [Layer(depth, 1) for depth in range(1, height)]
        return ([Fraction(*stress_beyond(mat, height, layer.depth, 10 * height)) for layer in layers],
                [steel_stress(mat, layer, 10 * height) for layer in layers])

    at_10h = [stresses(fck, situation, height) for fck in CLASSES for situation in FACTORS for height in (50, 211)]
    return [(f"fck {fck}: D", materials(fck, 500, PERSISTENT).D, above_50.get(fck, 350)) for fck in CLASSES] + [
        ("both pages have the same stress at 10h", [beyond for beyond, _ in at_10h], [up_to for _, up_to in at_10h]),
        ("A: both pages have the same force and moment at 10h",
         (force_beyond(SECTION_A, 5_000), moment_beyond(SECTION_A, 5_000)), (2_505_000, 99_000_000)),
    ]


def depths_of(section, *ns):
    """What Find a depth answers for each N: u, or the refusal as a negative number."""
    return [u if refusal == 0 else -refusal for refusal, u, _ in (find_depth(section, n) for n in ns)]


def beyond_rows():
    """Request 11 of 02: A and the same turned over by hand, depth by depth."""
    a, turned, mat = SECTION_A, TURNED_A, materials_of(SECTION_A)
    layer = counted(a)[0]
    return [
        ("A, N 2,505,000 and 2,505,001", depths_of(a, 2_505_000, 2_505_001), [5_000, 5_001]),
        ("A, force at 5,001 and 5,002", [force_beyond(a, u) for u in (5_001, 5_002)], [2_505_647, 2_506_295]),
        ("A, N 2,505,647 and 2,505,648", depths_of(a, 2_505_647, 2_505_648), [5_001, 5_002]),
        ("A at 5,001: the forces of concrete and layer",
         (concrete_force_beyond(mat, a, 5_001), layer_force_beyond(mat, 500, layer, 5_001)), (2_400_480, 105_167)),
        ("A at 5,001: their moments, and not 105,167 times -200",
         (concrete_moment_beyond(mat, a, 5_001), layer_moment_beyond(mat, 500, layer, 5_001)),
         (119_927_980, -21_033_587)),
        ("A: the block to h and no deeper, its force and moment",
         [(concrete_force_beyond(mat, a, u), concrete_moment_beyond(mat, a, u)) for u in (6_249, 6_250, 6_251, 15_000)],
         [(2_999_520, 119_980), (3_000_000, 0), (3_000_000, 0), (3_000_000, 0)]),
        ("A: Moment at 10h, 10h + 1 and 30h",
         [moment_at_depth(a, u) for u in (5_000, 5_001, 15_000)], [(0, 99_000_000), (0, 98_894_393), (0, -88_200_000)]),
        ("A: 13 above 30h, for 0 and far above",
         [moment_at_depth(a, u) for u in (15_001, 0, 2**63, 2**64 - 1)], [(13, 0)] * 4),
        ("A, 30h reached exactly is no 12", depths_of(a, 3_440_993, 3_440_994, 3_441_000, 3_441_001),
         [14_999, 15_000, 15_000, -12]),
        ("A turned, N 3,652,170 and 3,652,171", depths_of(turned, 3_652_170, 3_652_171), [6_250, -12]),
        ("A turned, N at most and above the force at 10h", depths_of(turned, 3_052_170, 3_052_171), [5_000, 5_001]),
        ("A turned: the force rises, is level and falls again",
         [force_beyond(turned, u) for u in (6_249, 6_250, 10_756, 10_757, 15_000)],
         [3_651_690, 3_652_170, 3_652_170, 3_652_164, 3_609_000]),
        ("A turned: Moment at 5,001, 6,250 and 30h", [moment_at_depth(turned, u)[1] for u in (5_001, 6_250, 15_000)],
         [250_361_980, 130_434_000, 121_800_000]),
        ("A turned by hand and by M", check(a, Load(3_052_171, -1, 0))[1:3], (5_001, 250_361_980)),
    ]


def beyond_face_rows():
    """Request 11 of 02: Check with one face or both beyond 10h."""
    def faces(section, n, m=0):
        return check(section, Load(n, m, 0))[:5]

    def refusals(section, *ns):
        return [{check(section, Load(n, m, 0)).refusal for m in (0, -1)} for n in ns]

    a = SECTION_A
    mixed = check(MIXED, Load(4_500_000, 0, 0))
    return [
        ("A, N 2,505,001: one face up to 10h", faces(a, 2_505_001), (0, 5_001, 98_894_393, 3_860, 307_561_680)),
        ("A, N 3,052,170: the bottom at 10h", faces(a, 3_052_170, -1), (0, 5_000, 250_434_000, 5_907, -4_461_057)),
        ("A, N 3,052,171: both faces beyond", faces(a, 3_052_171), (0, 5_908, -4_585_991, 5_001, 250_361_980)),
        ("A, N 3,441,000: both faces", faces(a, 3_441_000), (0, 15_000, -88_200_000, 5_811, 179_413_756)),
        ("A, N 3,441,000, M -1: both faces", faces(a, 3_441_000, -1), (0, 5_811, 179_413_756, 15_000, -88_200_000)),
        ("A, N 3,441,001: 12 for both signs of M", refusals(a, 3_441_000, 3_441_001, 3_652_171), [{0}, {12}, {12}]),
        ("A, N 3,441,000: M from -179,413,756",
         verdicts_under(a, 1, (3_441_000, -179_413_756, 0), (3_441_000, -179_413_757, 0)), [PASS, FAIL]),
        ("A, N 3,441,000: M to -88,200,000",
         verdicts_under(a, 1, (3_441_000, -88_200_000, 0), (3_441_000, -88_199_999, 0)), [PASS, FAIL]),
        ("A, N 3,441,000: all else", check(a, Load(3_441_000, -10**8, 7))[5:], (0, 0, 0, 0, 0, (0, 2, 2, 2, 0, 2))),
        ("tension layers, and the other face beyond", mixed,
         (0, 2_203, 473_019_290, 5_035, -402_077_838, 16_572, 450, 100, 0, 0, (1, 1, 0, 0, 1, 2))),
        ("the same turned over has none", check(MIXED, Load(4_500_000, -1, 0))[1:8],
         (5_035, -402_077_838, 2_203, 473_019_290, 0, 0, 0)),
        ("12 from the force at 10h on", depths_of(FALLING, 10_000_000, 10_000_001), [5_000, -12]),
        ("12 there: the force falls", [force_at(FALLING, u) for u in (5_000, 5_001, 15_000)],
         [10_000_000, 9_998_920, 7_810_000]),
        ("12 for either M by the bottom", refusals(FALLING, 6_690_000, 6_690_001), [{0}, {12}]),
        ("A, N 2,505,001: what it prints", list_text(BEYOND_EXAMPLE), BEYOND_LIST),
        ("accuracy says nothing of a depth beyond 10h", accuracy_holds(a, 0, 5_001, 0, 5_000, 1), True),
    ]


def beyond_case_rows():
    """Request 11 of 02: the lowest and the highest section, both situations and αcc."""
    def faces(section, *ns):
        return [check(section, Load(n, 0, 0))[:5] for n in ns]

    refused_12 = (12, 0, 0, 0, 0)
    return [
        ("50 x 50", faces(SMALL, 104_478, 104_479, 135_400, 135_401),
         [(0, 500, 537_170, 429, 1_176_343), (0, 501, 534_083, 429, 1_176_343),
          (0, 1_500, -105_000, 619, 678_553), refused_12]),
        ("50 x 50: Moment at 30h and above",
         [moment_at_depth(SMALL, u) for u in (1_500, 1_501)], [(0, -105_000), (13, 0)]),
        ("2,000 x 2,000", faces(LARGE, 217_600_000, 217_600_001, 319_573_328, 319_573_329),
         [(0, 20_000, 115_408_000_000, 20_000, 115_408_000_000), (0, 20_001, 115_401_067_892, 20_001, 115_401_067_892),
          (0, 60_000, 23_026_986_664, 60_000, 23_026_986_664), refused_12]),
        ("accidental A", faces(ACCIDENTAL_A, 3_105_001, 3_750_001, 4_191_000, 4_191_001),
         [(0, 5_001, 128_876_389, 3_925, 369_015_000), (0, 5_892, 7_534_441, 5_001, 299_909_976),
          (0, 15_000, -88_200_000, 5_735, 220_884_600), refused_12]),
        ("αcc 85", faces(REDUCED_A, 2_145_001, 2_692_171, 2_991_000, 2_991_001),
         [(0, 5_001, 80_905_196, 3_658, 285_172_667), (0, 6_039, -24_865_787, 5_001, 232_372_783),
          (0, 15_000, -88_200_000, 5_733, 178_805_843), refused_12]),
        ("accidental, αcc 85", faces(BOTH_A, 2_655_001, 3_300_001, 3_628_500, 3_628_501),
         [(0, 5_001, 106_389_892, 3_735, 341_627_910), (0, 6_026, -17_906_019, 5_001, 277_423_479),
          (0, 15_000, -88_200_000, 5_645, 219_670_590), refused_12]),
    ]


def beyond_shape_rows():
    """Request 11 of 02: a force that falls again, one of sixteen layers, one that is level."""
    def faces(section, *ns):
        return [check(section, Load(n, 0, 0))[:5] for n in ns]

    return [
        ("a force that falls again: halving would answer 12 for 3,700,000",
         depths_of(HUMP, 3_700_000, 3_782_595, 3_782_596), [6_078, 6_250, -12]),
        ("a force that falls again: at 6,077, 6,078, 6,250, 6,576, 6,577, 10,000 and 30h",
         [force_beyond(HUMP, u) for u in (6_077, 6_078, 6_250, 6_576, 6_577, 10_000, 15_000)],
         [3_699_555, 3_700_035, 3_782_595, 3_782_595, 3_782_542, 3_665_000, 3_609_000]),
        ("sixteen layers: 10h is passed over, as its force is 7,146,330.8",
         depths_of(SIXTEEN, 7_146_330, 7_146_331), [6_999, 7_001]),
        ("sixteen layers: to the greatest force and above", depths_of(SIXTEEN, 8_619_593, 8_619_594), [8_750, -12]),
        ("sixteen layers: both faces", faces(SIXTEEN, 8_368_640, 8_368_641),
         [(0, 8_453, 248_820_542, 21_000, -118_540_800), (12, 0, 0, 0, 0)]),
        ("a level force: its least depth", depths_of(COLUMN, 2_380_299, 2_380_300, 2_380_301), [5_629, 5_875, -12]),
        ("a level force: its parts are rounded, so that few depths reach the last N, and not 30h",
         [force_beyond(COLUMN, u) for u in (5_628, 5_629, 5_874, 5_875, 5_876, 9_000)],
         [2_380_294, 2_380_299, 2_380_299, 2_380_300, 2_380_299, 2_380_299]),
        ("a level force: both faces", faces(COLUMN, 2_380_300), [(0, 5_875, 10_048_000, 5_875, 10_048_000)]),
    ]


def beyond_class_rows():
    """Request 11 of 02: of each class the greatest N of A, all of 30h, and of A turned over, with the depth."""
    of_class = {
        12: ((1_641_000, -88_200_000), (1_852_170, 6_250)), 16: ((2_040_000, -88_200_000), (2_251_170, 6_250)),
        20: ((2_440_500, -88_200_000), (2_651_670, 6_250)), 25: ((2_940_000, -88_200_000), (3_151_170, 6_250)),
        30: ((3_441_000, -88_200_000), (3_652_170, 6_250)), 35: ((3_940_500, -88_200_000), (4_151_670, 6_250)),
        40: ((4_440_000, -88_200_000), (4_651_170, 6_250)), 45: ((4_941_000, -88_200_000), (5_152_170, 6_250)),
        50: ((5_440_500, -88_200_000), (5_651_670, 6_250)), 55: ((5_801_925, -87_885_000), (6_014_670, 6_350)),
        60: ((6_150_818, -90_163_637), (6_352_170, 6_452)), 70: ((6_759_729, -91_945_946), (6_952_170, 6_667)),
        80: ((7_286_472, -97_394_595), (7_451_670, 6_897)), 90: ((7_702_320, -100_464_000), (7_852_170, 7_143)),
    }
    rows = []
    for fck, ((most, moment), (turned_most, turned_u)) in of_class.items():
        a, turned = SECTION_A._replace(fck=fck), TURNED_A._replace(fck=fck)
        rows += [
            (f"fck {fck}: A to {most}", depths_of(a, most, most + 1), [15_000, -12]),
            (f"fck {fck}: A, force and moment at 30h", (force_beyond(a, 15_000), moment_at_depth(a, 15_000)),
             (most, (0, moment))),
            (f"fck {fck}: A turned to {turned_most}", depths_of(turned, turned_most, turned_most + 1), [turned_u, -12]),
        ]
    return rows


def in_fractions(section, u):
    """Force and moment beyond 10h once more, in fractions and in the words of request 11."""
    mat, height, x = materials_of(section), section.height, Fraction(u, 10)
    limit, block = Fraction(mat.s, 100), min(Fraction(mat.L, 80) * x, Fraction(height))
    parts = [(Fraction(mat.f, 100) * section.width * block, (height - block) / 2)]
    for depth, area in counted(section):
        stress = mat.D * mat.E * (x - depth) / (mat.E * x - (mat.E - mat.D) * height)
        parts.append((area * max(-limit, min(limit, stress)), Fraction(height, 2) - depth))
    return sum(floor(force) for force, _ in parts), sum(floor(force * arm) for force, arm in parts)


def random_column(rng):
    """A section so low that each of its depths can be asked; one in two is symmetric, and its force often level."""
    height = rng.randint(50, 110)
    layers = [(rng.randint(1, height - 1), rng.randint(1, 20_000)) for _ in range(rng.randint(1, 8))]
    if rng.random() < 0.5:
        layers += [(height - depth, area) for depth, area in layers]
    return section_of(rng.randint(50, 400), height, rng.choice(CLASSES), rng.randint(400, 600), layers,
                      situation=rng.choice(tuple(FACTORS)), alpha_cc=rng.choice(ALPHAS))


def searched(rng, column):
    """The column's N, at and about its greatest force, its forces and that at 10h: (N, depth, plain depth)."""
    forces = forces_beyond(column)
    ns = [max(forces) + more for more in (-2, -1, 0, 1, 2)] + [floor(force_at(column, 10 * column.height)) + 1]
    ns += [rng.choice(forces) + more for more in (-1, 0, 1) for _ in range(3)]
    return [(n, depth_beyond(column, n), plain_depth_beyond(column, n)) for n in ns]


def search_rows(rng):
    """Request 11 of 02: the search beyond 10h beside a look at each depth, for random columns."""
    depths, mosts, bounds, parts, met = [], [], [], [], {}
    for column in (random_column(rng) for _ in range(80)):
        found, forces = searched(rng, column), forces_beyond(column)
        depths += [(column, n) for n, u, plain in found if u != plain]
        mosts += [column] if greatest_force_beyond(column) != max(forces) else []
        a, u, b = sorted(rng.sample(depths_beyond(column), 3))
        bounds += [(column, a, u, b)] if force_beyond(column, u) > most_force_between(column, a, b) else []
        parts += [(column, u)] if in_fractions(column, u) != (force_beyond(column, u), moment_beyond(column, u)) else []
        level = len(set(forces[-100:])) < 10  # of the last hundred depths, whose forces differ by rounding alone
        for name, times in (("N reached", sum(u is not None for _, u, _ in found)),
                            ("N not reached", sum(u is None for _, u, _ in found)),
                            ("N reached, and not at 30h", sum(u is not None and forces[-1] < n for n, u, _ in found)),
                            ("level force", level)):
            met[name] = met.get(name, 0) + times
    print("columns at random:", ", ".join(f"{name} {times}" for name, times in met.items()))
    return [
        ("the search finds the depth that a look at each one finds", depths, []),
        ("the greatest force of all depths", mosts, []),
        ("no force above the bound of its interval", bounds, []),
        ("force and moment in whole numbers and in fractions", parts, []),
        ("the columns met all that was meant", [name for name, times in met.items() if not times], []),
    ]


# The depths that the rule tries, worked out by hand from its words: at u = 1 every trial is dropped, at u = 10h every
# one is kept. A under N 0 has u 1,358, and its last trial is the 1,359 whose force the paper has, 150. TALL under N 0
# has that u too: its second trial leaves 1 to 5,000, with which A begins.
TRIED_BY_A = (2_501, 1_251, 1_876, 1_563, 1_407, 1_329, 1_368, 1_348, 1_358, 1_363, 1_360, 1_359)
TRIED_BY_HAND = (
    ("A, N 0", SECTION_A, 0, TRIED_BY_A),
    ("A at 1", SECTION_A, -651_690, (2_501, 1_251, 626, 313, 157, 79, 40, 20, 10, 5, 3, 2)),
    ("A at 10h", SECTION_A, 2_505_000,
     (2_501, 3_751, 4_376, 4_688, 4_844, 4_922, 4_961, 4_981, 4_991, 4_996, 4_998, 4_999, 5_000)),
    ("h 50 at 1", LOW, -59_332, (251, 126, 63, 32, 16, 8, 4, 2)),
    ("h 50 at 10h", LOW, 148_977, (251, 376, 438, 469, 485, 493, 497, 499, 500)),
    ("h 2,000 at 1", TALL, -651_690, (10_001, 5_001, 2_501, 1_251, 626, 313, 157, 79, 40, 20, 10, 5, 3, 2)),
    ("h 2,000 at 10h", TALL, 9_626_250, (10_001, 15_001, 17_501, 18_751, 19_376, 19_688, 19_844, 19_922, 19_961, 19_981,
                                         19_991, 19_996, 19_998, 19_999, 20_000)),
    ("h 2,000, N 0", TALL, 0, (10_001, 5_001, *TRIED_BY_A)),
)


def trial_rows():
    """Request 12 of 02: trials of A, of the lowest and of the highest section, a newton to either side of both ends of
    1 to 10h, of depth 2 and of the first mean, 251 or 10,001."""
    answers = (
        ("A", SECTION_A, {-651_691: (11, 0, 0), -651_690: (0, 1, 12), 0: (0, 1_358, 12), 2_505_000: (0, 5_000, 13),
                          2_505_001: (0, 5_001, 0), 3_441_000: (0, 15_000, 0), 3_441_001: (12, 0, 0)}),
        ("h 50", LOW, {-59_333: (11, 0, 0), -59_332: (0, 1, 8), -59_081: (0, 1, 8), -59_080: (0, 2, 9), 0: (0, 139, 9),
                       35_963: (0, 250, 9), 35_964: (0, 251, 8), 148_976: (0, 499, 9), 148_977: (0, 500, 9),
                       148_978: (0, 501, 0)}),
        ("h 2,000", TALL, {-651_691: (11, 0, 0), -651_690: (0, 1, 14), -651_211: (0, 1, 14), -651_210: (0, 2, 14),
                           0: (0, 1_358, 14), 4_148_309: (0, 10_000, 15), 4_148_310: (0, 10_001, 14),
                           9_626_249: (0, 19_999, 15), 9_626_250: (0, 20_000, 15), 9_626_251: (0, 20_001, 0)}),
        ("sixteen layers, whose N passes 10h over", SIXTEEN, {7_146_330: (0, 6_999, 13), 7_146_331: (0, 7_001, 0)}),
    )
    rows = [(f"{name}, N {n:,}: refusal, u and trials", find_depth(section, n), expected)
            for name, section, of_n in answers for n, expected in of_n.items()]
    return rows + [(f"{name}: the depths tried, by hand", halving(upright(section), n).tried, tried)
                   for name, section, n, tried in TRIED_BY_HAND]


def trial_refusal_rows():
    """Request 12 of 02: 'refused calls ... report 0', whichever test of Find a depth fails."""
    a, most = SECTION_A, 500_000_000
    refused_calls = (
        (1, a._replace(width=49), 0), (2, a._replace(height=2_001), 0), (3, a._replace(fck=31), 0),
        (4, a._replace(fyk=601), 0), (32, a._replace(situation=3), 0), (34, a._replace(alpha_cc=101), 0),
        (5, a._replace(count=0), 0), (6, a._replace(layers=(Layer(500, 1_500),)), 0),
        (7, a._replace(layers=(Layer(450, 0),)), 0), (8, a, most + 1), (8, a, -most - 1), (11, a, -most), (12, a, most),
    )
    return [(f"refusal {number}: no depth, no trials", find_depth(section, n), (number, 0, 0))
            for number, section, n in refused_calls] + [
        ("no other test of Find a depth", {number for number, _, _ in refused_calls}, set(SEQUENCES["Find a depth"]))]


def at_both_ends(height):
    """Of a section so high, whose forces at 1 and at 10h are whole: the trials to depth 1 and to 10h."""
    section = section_of(300, height, 30, 500, [(1, 100)])
    found = [find_depth(section, int(internal_force(section, u))) for u in (1, 10 * height)]
    assert [depth.u for depth in found] == [1, 10 * height]
    return tuple(depth.trials for depth in found)


def trial_count_rows():
    """Request 12 of 02: 'never exceeds 15'. A trial leaves half of the candidates; where they are odd, it leaves the
    greater part where it is kept. So depth 1 takes the k trials with 2^k < 10h < 2^(k+1), depth 10h one more, and no depth
    fewer or more; and in all 2^(k+1) − 10h of the 10h depths take k."""
    ends = {height: at_both_ends(height) for height in range(50, 2_001)}
    most = {height: (10 * height).bit_length() for height in ends}
    of_low = [find_depth(LOW, ceil(internal_force(LOW, u))) for u in range(1, 501)]
    return [
        ("every height: the trials to depth 1 and to 10h", ends, {height: (k - 1, k) for height, k in most.items()}),
        ("of all heights: from 8 to 15", sorted({trials for both in ends.values() for trials in both}), list(range(8, 16))),
        ("h 50: every depth is that of an N", [depth.u for depth in of_low], list(range(1, 501))),
        ("h 50: 512 − 500 depths take 8 trials, the others 9",
         [[depth.trials for depth in of_low].count(trials) for trials in (8, 9)], [12, 488]),
    ]


def plain_depth(forces, n):
    """'the greatest u of the range at which the internal force is at most N', by a look at each; at depth 1 it is."""
    return max(u for u, force in enumerate(forces, 1) if force <= n)


def halving_rows(rng):
    """Request 12 of 02: what remains of the rule is the depth of document 01, for random columns and their forces."""
    found, plain = [], []
    for column in (random_column(rng) for _ in range(12)):
        forces = [internal_force(column, u) for u in range(1, 10 * column.height + 1)]
        ns = {ceil(force) + more for force in (forces[0], forces[-1], *rng.sample(forces, 8)) for more in (-1, 0, 1)}
        for n in sorted(n for n in ns if n >= forces[0]):
            found.append((column, n, halving(upright(column), n).remaining))
            plain.append((column, n, plain_depth(forces, n)))
    return [("the candidate that remains is the depth that a look at each one finds", found, plain)]


THREE_BARS = ((50, 402), (400, 628), (450, 942))


def rearranged_rows():
    """Request 2 of 02: three layers in each of their six sequences, and two layers at fault in either."""
    typed = [section_of(300, 500, 30, 500, bars) for bars in permutations(THREE_BARS)]
    linked = [section._replace(links=links_of(101, 200)) for section in typed]
    faulty = [section_of(300, 500, 30, 500, bars) for bars in permutations(((500, 628), (450, 0), (50, 402)))]

    def answers(sections, call, *given):
        """The answers that a call gives of the sections: one where the sequence makes no difference."""
        return {call(section, *given) for section in sections}

    report = Report(0, 1_101, 262_435_984, 627, 90_133_305, 86_314, 430, 1_570, 25, 212_428, (0, 0, 0, 0, 0, 0))
    hanging = Report(0, 370, -10_564_661, 448, 166_242_811, 19_375, 147, 1_972, 0, 0, (1, 0, 1, 0, 0, 2))
    pressed = Report(0, 5_171, 222_926_160, 5_786, 42_776_742, 0, 0, 0, 0, 0, (0, 2, 2, 2, 0, 2))
    return [
        ("three layers have six sequences", len(set(typed)), 6),
        ("three layers, N 0: u and trials", answers(typed, find_depth, 0), {Depth(0, 1_101, 13)}),
        ("three layers, N 3,000,000: u beyond 10h", answers(typed, find_depth, 3_000_000), {Depth(0, 5_442, 0)}),
        ("three layers: Moment at 1,358", answers(typed, moment_at_depth, 1_358), {(0, 285_377_191)}),
        ("three layers: Moment at 6,000", answers(typed, moment_at_depth, 6_000), {(0, 16_656_312)}),
        ("three layers with links: Check", answers(linked, check, EXAMPLE_LOAD), {report}),
        ("three layers, all in tension: Check", answers(typed, check, Load(-500_000, -20_000_000, 80_000)), {hanging}),
        ("three layers, both faces beyond 10h: Check", answers(typed, check, Load(3_200_000, -20_000_000, 80_000)),
         {pressed}),
        ("a depth and an area at fault: 6 in every call", [refusals_of_calls(section) for section in faulty], [{6}] * 6),
    ]


def laid_out(section, load=NO_LOAD):
    """The record that has the layers in the section's own sequence, in range or not."""
    return assemble(fields_as_given(section, load))


def reading_of(*layers):
    """Refusal and length of A with these layers in place of its own, laid out so."""
    return read_record(laid_out(section_of(300, 500, 30, 500, layers)))[:2]


def writing_of(section, load, room=LONGEST_RECORD):
    """What the writer answers, and the buffer of ones that it was lent."""
    buffer = bytearray(b"\xff" * room)
    return write_record(section, load, buffer), bytes(buffer)


def at_bits(record, *bits):
    """The record with its layers at these bits, as many as there are, in the sequence that it has."""
    fields = fields_read(record, bits_that_stand(record))
    layers = [fields.pop(bit) for bit in LAYER_BITS if bit in fields]
    return assemble({**fields, **dict(zip(bits, layers))})


def swapped_at(section, place):
    """The section with the layer of this place and the next exchanged."""
    layers = list(section.layers)
    layers[place:place + 2] = layers[place + 1], layers[place]
    return section._replace(layers=tuple(layers))


def stored_sequence_rows():
    """Request 6 of 02: 'the reader takes only records so ordered'."""
    def in_each_sequence(*layers):
        return [reading_of(*typed)[0] for typed in permutations(layers)]

    top, low, more = (50, 402), (450, 942), (450, 943)
    return [
        ("two layers in sequence", reading_of((50, 600), (450, 1_500)), (0, 52)),
        ("31: two layers swapped", reading_of((450, 1_500), (50, 600)), (31, 52)),
        ("31: a millimetre less deep, whatever the area",
         [reading_of((450, 600), (449, area))[0] for area in (599, 600, 601)], [31, 31, 31]),
        ("31: as deep and a unit less; equal layers and a unit more are taken",
         [reading_of((450, 600), (450, area))[0] for area in (599, 600, 601)], [31, 0, 0]),
        ("a millimetre deeper, whatever the area",
         [reading_of((450, 600), (451, area))[0] for area in (599, 600, 601)], [0, 0, 0]),
        ("one layer, and the least and the largest of all", [reading_of(*layers)[0] for layers in (
            [low], [(1, 1), (499, 20_000)], [(1, 20_000), (499, 1)], [(499, 1), (1, 20_000)])], [0, 0, 0, 31]),
        ("three layers: one sequence of six", in_each_sequence(*THREE_BARS), [0, 31, 31, 31, 31, 31]),
        ("two equal layers of three: either of both first", in_each_sequence(top, top, low), [0, 31, 0, 31, 31, 31]),
        ("two equal depths of three", in_each_sequence(top, low, more), [0, 31, 31, 31, 31, 31]),
        ("three equal layers", in_each_sequence(low, low, low), [0] * 6),
        ("31: a refused reading has zeros and its length", read_record(SWAPPED_EXAMPLE),
         (31, 68, (0, 0, 0, 0, 0, 0, 0, ((0, 0),) * PLACES, (0, 0, 0)), (0, 0, 0))),
        ("layer bits with gaps: by rising bit",
         [read_record(at_bits(record, *bits))[:2] for record in (TWO_EXAMPLE, SWAPPED_EXAMPLE)
          for bits in ((8, 9), (9, 23), (22, 23), (8, 23))], [(0, 68)] * 4 + [(31, 68)] * 4),
        ("what a record with gaps means", read_record(at_bits(TWO_EXAMPLE, 9, 23))[2:], (TWO_LAYERS, EXAMPLE_LOAD)),
    ]


def stored_sixteen_rows():
    """Request 6 of 02: sixteen layers, and the longest record."""
    def reading(section, load=NO_LOAD, **present):
        return read_record(with_signed(laid_out(section, load), **present))[:2]

    full = SIXTEEN._replace(links=links_of(101, 200), situation=ACCIDENTAL, alpha_cc=85)
    load = Load(0, -1, 1)
    return [
        ("sixteen layers in sequence", reading(SIXTEEN), (0, 164)),
        ("31: each two neighbours of sixteen swapped",
         [reading(swapped_at(SIXTEEN, place)) for place in range(PLACES - 1)], [(31, 164)] * 15),
        ("31: sixteen layers back to front", reading(SIXTEEN._replace(layers=SIXTEEN.layers[::-1])), (31, 164)),
        ("sixteen equal layers", reading_of(*[(450, 100)] * PLACES), (0, 164)),
        ("the longest record in sequence", reading(full, load, n=0), (0, 212)),
        ("31: the longest with its first or last two swapped",
         [reading(swapped_at(full, place), load, n=0) for place in (0, 14)], [(31, 212)] * 2),
        ("sixteen layers back to front with every other field: written and read back in sequence",
         read_record(writing_of(full._replace(layers=full.layers[::-1]), load)[1]), (0, 204, full, load)),
    ]


def stored_refusal_rows():
    """Request 6 of 02: 31 'in the reader only, after 7'."""
    def readings(section, changes):
        return [read_record(laid_out(section._replace(**change), load))[0] for change, load in changes]

    def with_layers(*bags):
        return [reading_of(*layers)[0] for layers in bags]

    def listed(section):
        records = b"".join(laid_out(section, Load(n, 0, 0)) for n in (-most, most))
        return [report.refusal for _, _, report in list_answers(records)]

    swapped, most = swapped_at(TWO_LAYERS, 0), 500_000_000
    earlier = {1: {"width": 49}, 2: {"height": 49}, 3: {"fck": 31}, 4: {"fyk": 399}, 32: {"situation": 3},
               34: {"alpha_cc": 101}, 5: {"count": 0}}
    later = [({}, Load(most + 1, 0, 0)), ({}, Load(0, -10**12 - 1, 0)), ({}, Load(0, 0, most + 1)),
             ({"links": links_of(0, 200)}, NO_LOAD), ({"links": links_of(101, 24)}, NO_LOAD),
             ({"links": links_of(101, 200)}, Load(1, 0, 0))]
    headless = {bit: field for bit, field in fields_as_given(swapped, NO_LOAD).items() if bit != 0}
    return [
        ("1, 2, 3, 4, 32 and 34 before 31, and 5 of no layer",
         readings(swapped, [(change, NO_LOAD) for change in earlier.values()]), list(earlier)),
        ("6 before 31", with_layers(
            [(450, 1_500), (0, 600)], [(500, 1_500), (50, 600)], [(0, 1), (450, 1_500), (50, 600)],
            [(450, 1_500), (50, 600), (500, 1)]), [6] * 4),
        ("7 before 31", with_layers(
            [(450, 0), (50, 600)], [(450, 20_001), (50, 600)], [(450, 1_500), (450, 0)], [(50, 20_001), (50, 600)],
            [(450, 1_500), (50, 600), (499, 0)]), [7] * 5),
        ("31 before 8, 9, 10, 27, 28 and 29", readings(swapped, later), [31] * 6),
        ("the same in sequence", readings(TWO_LAYERS, later), [8, 9, 10, 27, 28, 29]),
        ("31 before 11 and 12 in a list", listed(swapped), [31, 31]),
        ("the same in sequence", listed(TWO_LAYERS), [11, 12]),
        ("20, 21, 22 and 23 before 31", [read_record(record)[:2] for record in (
            SWAPPED_EXAMPLE[:3], b"\4" + SWAPPED_EXAMPLE[1:] + bytes(8), SWAPPED_EXAMPLE[:-1], assemble(headless))],
         [(20, 0), (21, 0), (22, 0), (23, 44)]),
        ("no 31 by value", refusals_of_calls(swapped), {0}),
    ]


def stored_write_rows():
    """Request 6 of 02: 'equal bags of layers with equal other fields now give records of equal bytes'."""
    def of_bag(bag):
        return {writing_of(section_of(300, 500, 30, 500, typed), NO_LOAD, 60) for typed in permutations(bag)}

    def record_of(bag):
        return laid_out(section_of(300, 500, 30, 500, bag))

    swapped = swapped_at(TWO_LAYERS, 0)
    both, rest = (TWO_LAYERS, swapped), b"\xff" * (LONGEST_RECORD - 68)
    bags = (THREE_BARS, ((50, 942), (400, 628), (450, 402)), ((50, 402), (50, 402), (450, 942)),
            ((50, 402), (450, 942), (450, 943)))
    return [
        ("A and a layer 50/600 in both sequences: the writer's bytes",
         [writing_of(section, EXAMPLE_LOAD) for section in both], [((0, 68), TWO_EXAMPLE + rest)] * 2),
        ("the same read back: the layer of 50 first",
         [read_record(writing_of(section, EXAMPLE_LOAD)[1]) for section in both],
         [(0, 68, TWO_LAYERS, EXAMPLE_LOAD)] * 2),
        ("the same: what it prints", list_text(TWO_EXAMPLE), TWO_LIST),
        ("the same into 67 and 68 bytes", [writing_of(swapped, EXAMPLE_LOAD, room) for room in (67, 68)],
         [((25, 0), b"\xff" * 67), ((0, 68), TWO_EXAMPLE)]),
        ("places beyond the count have no part",
         writing_of(swapped._replace(layers=counted(swapped) + (Layer(1, 1),) * 14), EXAMPLE_LOAD, 68),
         ((0, 68), TWO_EXAMPLE)),
        ("absent links by any numbers, present ones by any number but 0", [
            {writing_of(section._replace(links=Links(*links)), EXAMPLE_LOAD, 76) for section in both for links in same}
            for same in (((0, 0, 0), (0, 101, 200), (0, 5_001, 24)), ((1, 101, 200), (2**63, 101, 200)))],
         [{((0, 68), TWO_EXAMPLE + b"\xff" * 8)}, {((0, 76), laid_out(with_links(TWO_LAYERS, 101, 200), EXAMPLE_LOAD))}]),
        ("three layers in each sequence: the bytes of the bag as it stands here",
         [of_bag(bag) for bag in bags], [{((0, 60), record_of(bag))} for bag in bags]),
        ("sixteen layers back to front: the bytes of those in sequence", writing_of(
            SIXTEEN._replace(layers=SIXTEEN.layers[::-1]), NO_LOAD, 164), ((0, 164), laid_out(SIXTEEN))),
        ("a list goes on after 31", list_text(EXAMPLE + SWAPPED_EXAMPLE + TWO_EXAMPLE),
         EXAMPLE_LIST + "2 31 0 0 0 0 0 2 2 2 2 2 2\n" + "3 0 946 266374148 86851 450 1500 0 0 0 0 0 2\n"),
    ]


def random_bag(rng):
    """Layers of few depths and areas, so that many are equal."""
    return tuple(Layer(rng.randint(1, 4), rng.randint(1, 3)) for _ in range(rng.randint(1, 6)))


def stored_random_rows(rng):
    """Request 6 of 02: the sequence that the writer makes and the one that the reader asks for, of random layers."""
    bags = [random_bag(rng) for _ in range(2_000)]
    refused_bags = [bag for bag in bags if out_of_sequence(bag)]
    made = {bag: counted(in_sequence(section_of(300, 500, 30, 500, bag))) for bag in bags}
    print(f"bags of layers at random: in sequence {len(bags) - len(refused_bags)}, out of it {len(refused_bags)}")
    return [
        ("neighbours in sequence: so are any two of them", refused_bags,
         [bag for bag in bags if any(comes_too_late(*two) for two in combinations(bag, 2))]),
        ("what is written is in sequence", [bag for bag in bags if out_of_sequence(made[bag])], []),
        ("it has each layer as often", [bag for bag in bags if any(
            bag.count(layer) != made[bag].count(layer) for layer in (*bag, *made[bag]))], []),
        ("what was in sequence stays as it was", [bag for bag in bags if made[bag] != bag], refused_bags),
    ]


# Request 9 of 02: place and layer, then the answer for A under the load of the examples. By hand: a layer that yields has
# one force at every depth, so at 400 A keeps its u, and MRd is 127,552,051 of the concrete, as at 450, and 652,170·150.
# 1,501 mm² have 652,604.78 N, and 480·1,359 is 652,320: MRd 127,619,884 + 130,520,956. 20,000 mm² do not yield:
# 480u + 14,000,000·(u−4,500)/u is −3,794 at 3,961 and 700 at 3,962. With a layer 50/500 more 480u + 350,000·(u−500)/u −
# 652,170 is −449 at 995 and 207 at 996, and As, dm and VRd,c stay those of A.
TRIED_IN_A = (
    (0, (450, 1_500), (0, 1_358, 257_986_051, 419, 6_312_569, 86_851, 450, 1_500, 0, 0, (0, 0, 0, 0, 0, 2))),
    (0, (400, 1_500), (0, 1_358, 225_377_551, 745, 24_834_124, 82_271, 400, 1_500, 0, 0, (0, 0, 0, 0, 0, 2))),
    (0, (450, 1_501), (0, 1_359, 258_140_840, 419, 6_285_504, 86_878, 450, 1_501, 0, 0, (0, 0, 0, 0, 0, 2))),
    (0, (450, 20_000), (0, 3_961, 555_096_091, 491, 2_967_415, 105_635, 450, 20_000, 0, 0, (0, 1, 0, 0, 1, 2))),
    (0, (50, 1_500), (0, 419, 6_312_569, 1_358, 257_986_051, 14_090, 50, 1_500, 0, 0, (1, 1, 1, 0, 0, 2))),
    (1, (50, 500), (0, 995, 265_649_640, 491, 93_919_956, 86_851, 450, 1_500, 0, 0, (0, 0, 0, 0, 0, 2))),
    (0, (450, 20_001), (7, 0, 0, 0, 0, 0, 0, 0, 0, 0, (2, 2, 2, 2, 2, 2))),
    (0, (500, 1_500), (6, 0, 0, 0, 0, 0, 0, 0, 0, 0, (2, 2, 2, 2, 2, 2))),
    (2, (50, 500), (33, 0, 0, 0, 0, 0, 0, 0, 0, 0, (2, 2, 2, 2, 2, 2))),
)
BARE_A = SECTION_A._replace(layers=(), count=0)
OTHER_A = section_of(300, 500, 30, 500, [(50, 600)])  # A before its own layer is tried
STEEP = section_of(300, 500, 30, 500, [(450 - 10 * place, 200) for place in range(PLACES)])


def tried(section, place, layer, load=EXAMPLE_LOAD):
    """The answer where this depth and area are tried at a place."""
    return try_layer(section, load, place, Layer(*layer))


def refusals_tried(section, layer, *places):
    """The refusals of this layer at each of these places."""
    return [tried(section, place, layer).refusal for place in places]


def tried_rows():
    """Request 9 of 02: other layers in A; then A and other sections of these rows, each reached by a trial."""
    own, top = (450, 1_500), (50, 600)
    line, two_lines = (text.splitlines(keepends=True)[1] for text in (EXAMPLE_LIST, TWO_LIST))
    three = section_of(300, 500, 30, 500, THREE_BARS)
    return [(f"A, layer {layer} tried at place {place}", tried(SECTION_A, place, layer), answer)
            for place, layer, answer in TRIED_IN_A] + [
        ("A by a trial, its line in 01: the layer added to none, in place of another, and in its own place",
         [list_line(1, tried(section, 0, own)) for section in (BARE_A, OTHER_A, SECTION_A)], [line] * 3),
        ("A and a layer 50/600 by a trial: either of both added",
         [list_line(1, tried(SECTION_A, 1, top)), list_line(1, tried(OTHER_A, 1, own))], [two_lines] * 2),
        ("A by a trial, M -1: u and MRd", tried(OTHER_A, 0, own, Load(0, -1, 0))[1:3], (419, 6_312_569)),
        ("A by a trial: the least N, and 11",
         [tried(BARE_A, 0, own, Load(n, 0, 0))[:2] for n in (-651_690, -651_691)], [(0, 1), (11, 0)]),
        ("A by a trial, N -651,690: M from 130,314,020 to 130,553,980",
         [tried(OTHER_A, 0, own, Load(-651_690, m, 0)).verdicts[0]
          for m in (130_314_019, 130_314_020, 130_553_980, 130_553_981)], [FAIL, PASS, PASS, FAIL]),
        ("three layers, each in turn the one that is tried",
         {tried(altered(three, place, Layer(1, 1)), place, bar) for place, bar in enumerate(THREE_BARS)},
         {check(three, EXAMPLE_LOAD)}),
        ("what stands beyond the number of layers has no part", {
            tried(SECTION_A._replace(layers=counted(SECTION_A) + (Layer(*beyond),) * 15), 1, (50, 500))
            for beyond in ((0, 0), own, (2**32 - 1, 2**32 - 1))}, {TRIED_IN_A[5][2]}),
    ]


def tried_verdict_rows():
    """Request 9 of 02: the unit of the tried layer's area or depth at which each verdict turns. By hand: 480·2,026
    is 2,236.7 times 434.78; 26·29·300·450 is 1,000·500 times 203.6; 25·6,000 is 300·500; 0.75·267 is 200.25; a layer at
    the depth u has no force, and 480·4,166.7 is 2,000,000."""
    linked = with_links(SECTION_A, 101, 200)

    def verdicts(number, place, *layers, load=EXAMPLE_LOAD):
        return [tried(linked, place, layer, load).verdicts[number - 1] for layer in layers]

    return [
        ("verdict one, M 200,000,000: area from 1,124", verdicts(1, 0, (450, 1_123), (450, 1_124)), [FAIL, PASS]),
        ("verdict one, M -200,000,000: a layer at 50 added, area from 1,109",
         verdicts(1, 1, (50, 1_108), (50, 1_109), load=Load(0, -200_000_000, 0)), [FAIL, PASS]),
        ("verdict two: area to 2,236", verdicts(2, 0, (450, 2_236), (450, 2_237)), [PASS, FAIL]),
        ("verdict two: a layer at 430 added, area to 701", verdicts(2, 1, (430, 701), (430, 702)), [PASS, FAIL]),
        ("verdict three, V 80,000: area from 1,173", verdicts(3, 0, (450, 1_172), (450, 1_173)), [FAIL, PASS]),
        ("verdict four: area from 204", verdicts(4, 0, (450, 203), (450, 204)), [FAIL, PASS]),
        ("verdict five: area to 6,000", verdicts(5, 0, (450, 6_000), (450, 6_001)), [PASS, FAIL]),
        ("verdict five: a layer added, area to 4,500", verdicts(5, 1, (50, 4_500), (50, 4_501)), [PASS, FAIL]),
        ("verdict six, spacing 200: depth from 267", verdicts(6, 0, (266, 1_500), (267, 1_500)), [FAIL, PASS]),
        ("verdict six, V 200,000: depth from 405",
         verdicts(6, 0, (404, 1_500), (405, 1_500), load=Load(0, 0, 200_000)), [FAIL, PASS]),
        ("the cotangent and what the links resist at 405", tried(linked, 0, (405, 1_500))[8:10], (25, 200_077)),
        ("a layer with dm 50: two and six fail", tried(linked, 0, (50, 1_500), NO_LOAD).verdicts, (0, 1, 0, 0, 0, 1)),
        ("N 2,000,000: in tension from depth 417, where u is 4,167; at 416 it is 4,164", [
            (answer.u, answer.verdicts[1:4]) for answer in (
                tried(SECTION_A, 0, (depth, 1_500), Load(2_000_000, 0, 0)) for depth in (416, 417))],
         [(4_164, (2, 2, 2)), (4_167, (1, 0, 0))]),
    ]


def tried_column_rows():
    """Request 9 of 02: depths beyond 10h. By hand: at 250, where the strain line turns, the layer has 350 N/mm² at every
    depth, 525,000 N, and the concrete 480u. So u is 6,076 under N 3,441,001, which A does not reach, and MRd is that of
    2,916,480 N at 6.96 mm; under 3,000,000 it is 5,157, with 2,475,360 N at 43.72 mm."""
    a, middle, last = SECTION_A, (250, 1_500), Load(3_441_001, 0, 0)
    return [
        ("A by a trial, N 2,505,001: both faces", tried(OTHER_A, 0, (450, 1_500), Load(2_505_001, 0, 0))[:5],
         (0, 5_001, 98_894_393, 3_860, 307_561_680)),
        ("A, N 3,000,000: its layer tried at 250", tried(a, 0, middle, Load(3_000_000, 1, 2)),
         (0, 5_157, 108_222_739, 5_157, 108_222_739, 0, 0, 0, 0, 0, (0, 2, 2, 2, 0, 2))),
        ("A, N 3,441,001: 12 of A, and its layer tried at 250", (check(a, last).refusal, tried(a, 0, middle, last)),
         (12, (0, 6_076, 20_298_700, 6_076, 20_298_700, 0, 0, 0, 0, 0, (0, 2, 2, 2, 0, 2)))),
        ("the same: M to 20,298,700 of either sign",
         [tried(a, 0, middle, Load(3_441_001, m, 0)).verdicts[0]
          for m in (20_298_700, 20_298_701, -20_298_700, -20_298_701)], [PASS, FAIL, PASS, FAIL]),
        ("A, N 3,441,001, M -1: a layer 50/500 added", tried(a, 1, (50, 500), Load(3_441_001, -1, 0)),
         (0, 5_676, 180_028_362, 6_212, -416_450, 0, 0, 0, 0, 0, (1, 2, 2, 2, 0, 2))),
        ("A by a trial: the last N of all, and 12",
         [tried(OTHER_A, 0, (450, 1_500), Load(n, 0, 0))[:2] for n in (3_441_000, 3_441_001)], [(0, 15_000), (12, 0)]),
    ]


def tried_sixteen_rows():
    """Request 9 of 02: 'which with sixteen layers meets refusal 5'; and numbers of layers that no section has."""
    most, layer = 2**64 - 1, (40, 300)
    beyond = (17, 2**32, 2**63, most)
    answer = (0, 2_233, 361_644_195, 997, 116_815_993, 92_362, 380, 3_000, 0, 0, (0, 1, 0, 0, 0, 2))

    def refusals(count, *places):
        return refusals_tried(STEEP._replace(count=count), layer, *places)

    return [
        ("sixteen layers, the last replaced", tried(STEEP, 15, layer), answer),
        ("fifteen layers, the same one added", tried(STEEP._replace(count=15), 15, layer), answer),
        ("sixteen layers: each place, the one that adds, and the next",
         refusals(PLACES, *range(18)), [0] * 16 + [5, 33]),
        ("fewer layers: the first place, the one that adds, and the next",
         [refusals(count, 0, count, count + 1) for count in range(PLACES)], [[0, 0, 33]] * PLACES),
        ("17, 2^32, 2^63 and 2^64 - 1 layers: places 0, 15 and 16, the last one, and the one that adds",
         [refusals(count, 0, 15, 16, count - 1, count) for count in beyond], [[5] * 5] * 4),
        ("17, 2^32 and 2^63 layers: the place after that, and 2^64 - 1",
         [refusals(count, count + 1, most) for count in beyond[:-1]], [[33, 33]] * 3),
        ("0, 1, 15 and 16 layers: places 17, 2^32, 2^63 and 2^64 - 1",
         [refusals(count, *beyond) for count in (0, 1, 15, 16)], [[33] * 4] * 4),
    ]


def failing_each(section):
    """By the number of each test of Check: the section and a load of which it is the first to fail, 6 and 7 by the last
    layer."""
    most, layers = 500_000_000, counted(section)

    def with_last(depth, area):
        return section._replace(layers=(*layers[:-1], Layer(depth, area)))

    return {
        1: (section._replace(width=49), NO_LOAD), 2: (section._replace(height=49), NO_LOAD),
        3: (section._replace(fck=31), NO_LOAD), 4: (section._replace(fyk=601), NO_LOAD),
        32: (section._replace(situation=0), NO_LOAD), 34: (section._replace(alpha_cc=79), NO_LOAD),
        5: (section._replace(count=17), NO_LOAD), 6: (with_last(500, 200), NO_LOAD), 7: (with_last(450, 0), NO_LOAD),
        8: (section, Load(most + 1, 0, 0)), 9: (section, Load(0, 10**12 + 1, 0)), 10: (section, Load(0, 0, -most - 1)),
        27: (with_links(section, 0, 200), NO_LOAD), 28: (with_links(section, 101, 24), NO_LOAD),
        29: (with_links(section, 101, 200), Load(1, 0, 0)),
        11: (section, Load(-most, 0, 0)), 12: (section, Load(most, 0, 0)),
    }


def tried_refusal_rows():
    """Request 9 of 02: 33 'tested first', and 5 'at its place in Check's sequence'."""
    def refusals(section, from_count, layer=(40, 300)):
        return {number: tried(there, there.count + from_count, layer, load).refusal
                for number, (there, load) in failing_each(section).items()}

    two, each = STEEP._replace(count=2), SEQUENCES["Check"]
    as_they_are, before_5 = {number: number for number in each}, (1, 2, 3, 4, 32, 34)
    return [
        ("33 before every other", refusals(two, 1), dict.fromkeys(each, 33)),
        ("33 before every other, and the layer out of range too", refusals(two, 1, (0, 0)), dict.fromkeys(each, 33)),
        ("every other where a layer is added", refusals(two, 0), as_they_are),
        ("every other where the first of two layers is replaced", refusals(two, -2), as_they_are),
        ("6 and 7 mended where the last is replaced", refusals(two, -1), {**as_they_are, 6: 0, 7: 0}),
        ("sixteen layers and one more: 1, 2, 3, 4, 32 and 34 before 5, and 5 before the others",
         refusals(STEEP, 0), {number: number if number in before_5 else 5 for number in each}),
        ("sixteen layers and one more out of range: 5 before 6 and 7",
         [tried(STEEP, 16, layer).refusal for layer in ((0, 200), (500, 200), (450, 0), (450, 20_001))], [5] * 4),
        ("h 49 with one layer: places 2 and 1", refusals_tried(SECTION_A._replace(height=49), (40, 300), 2, 1), [33, 2]),
    ]


def tried_range_rows():
    """Request 9 of 02: 6 and 7 of the layer that is tried, and of the one that it replaces."""
    failing = failing_each(STEEP._replace(count=2))
    (deep, _), (empty, _) = failing[6], failing[7]

    def at_both(layer):
        return refusals_tried(SECTION_A, layer, 0, 1)

    return [
        ("depths 0, 1, 499, 500 and 2^32 - 1: replaced and added",
         [at_both((depth, 1_500)) for depth in (0, 1, 499, 500, 2**32 - 1)], [[6, 6], [0, 0], [0, 0], [6, 6], [6, 6]]),
        ("areas 0, 1, 20,000, 20,001 and 2^32 - 1: added to A",
         [at_both((450, area))[1] for area in (0, 1, 20_000, 20_001, 2**32 - 1)], [7, 0, 0, 7, 7]),
        ("areas 0, 1, 20,000, 20,001 and 2^32 - 1: in place of its own; at depth 1 the concrete has 480 N, 1 mm² 434.78",
         [at_both((450, area))[0] for area in (0, 1, 20_000, 20_001, 2**32 - 1)], [7, 11, 0, 7, 7]),
        ("a section that 6 refuses: mended at that place alone", refusals_tried(deep, (40, 300), 0, 1, 2), [6, 0, 6]),
        ("a section that 7 refuses: mended at that place alone", refusals_tried(empty, (40, 300), 0, 1, 2), [7, 0, 7]),
        ("6 before 7, whichever layer is tried",
         [tried(*trial).refusal for trial in ((deep, 0, (450, 0)), (empty, 0, (0, 200)), (empty, 2, (0, 0)))], [6, 6, 6]),
        ("a section without layers: one added",
         [check(BARE_A, EXAMPLE_LOAD).refusal, tried(BARE_A, 0, (450, 1_500)).refusal], [5, 0]),
    ]


def block_rows():
    """Ticket 5: 80 times the depth factor and 1,000 times the strength factor of each class."""
    above_50 = {55: (63, 975), 60: (62, 950), 70: (60, 900), 80: (58, 850), 90: (56, 800)}
    return [(f"fck {fck}: the block's figures", (80 * depth_factor(fck), 1_000 * strength_factor(fck)),
             above_50.get(fck, (64, 1_000))) for fck in CLASSES]


def refusal_rows():
    """The cases of the section tests, and the list printed in 'The list'."""
    def refusal(**change):
        return first_failing(section_tests(SECTION_A._replace(**change)))

    def at_depth(depth):
        return refusal(layers=(Layer(depth, 1_500),))

    return [
        ("h 50 passes its test", refusal(height=50) == 2, False),
        ("h 49 is refusal 2", refusal(height=49), 2),
        ("a depth of 500 in A is refusal 6", at_depth(500), 6),
        ("a depth of 499 in A is accepted", at_depth(499), 0),
        ("width 49 with fck 31 is refusal 1", refusal(width=49, fck=31), 1),
        ("the input of 60 bytes: its length", len(EXAMPLE), 60),
        ("the input of 60 bytes: what it prints", list_text(EXAMPLE), EXAMPLE_LIST),
    ]


def sequence_rows():
    """The tests stand in the sequence that the paper lists; lengths follow from the table of fields."""
    def numbers(tests):
        return tuple(number for number, _ in tests)

    section = numbers(section_tests(SECTION_A))
    load = numbers(load_tests(NO_LOAD))
    links = numbers(link_tests(SECTION_A, NO_LOAD))
    face, top = numbers(face_tests(SECTION_A, NO_LOAD)), numbers(top_tests(SECTION_A, 0))
    of_record = numbers(tests_of_record(SECTION_A, NO_LOAD))
    return [
        ("section tests", section, (1, 2, 3, 4, 32, 34, 5, 6, 7)),
        ("load tests", load, (8, 9, 10)),
        ("link tests", links, (27, 28, 29)),
        ("tests of Check", section + load + links + face, SEQUENCES["Check"]),
        ("tests of Find a depth", section + numbers(axial_test(0)) + top, SEQUENCES["Find a depth"]),
        ("tests of Read a record", MAP_TESTS + of_record, SEQUENCES["Read a record"]),
        ("tests of Read a record, written out", SEQUENCES["Read a record"],
         (20, 21, 22, 23, 1, 2, 3, 4, 32, 34, 5, 6, 7, 31, 8, 9, 10, 27, 28, 29)),
        ("tests of Try a layer", numbers(place_test(SECTION_A, 0)) + SEQUENCES["Check"], SEQUENCES["Try a layer"]),
        ("tests of Write a record", numbers(tests_by_value(SECTION_A, NO_LOAD)) + (25,), SEQUENCES["Write a record"]),
        ("bits of no field", FORBIDDEN_BITS, (26, 27, 28, 29, 30, 31)),
        ("bytes of the longest record", LONGEST_RECORD, 212),
    ]


def main():
    """Print every reference case; exit status 1 where one differs. A seed can be given, so that it is repeated."""
    failed = 0
    seed = int(sys.argv[1]) if len(sys.argv) > 1 else random.SystemRandom().randrange(10**9)
    print(f"seed {seed}")
    rows = (equilibrium_rows() + both_faces_rows() + clause_rows() + link_rows() + link_verdict_rows()
            + link_refusal_rows() + link_record_rows() + strength_rows() + accidental_rows()
            + accidental_verdict_rows() + situation_refusal_rows()
            + optional_record_rows("situation", ACCIDENTAL_EXAMPLE, ACCIDENTAL_A, ACCIDENTAL_LIST, (3, 32))
            + reduced_strength_rows() + reduced_rows() + reduced_verdict_rows() + alpha_refusal_rows()
            + optional_record_rows("alpha_cc", REDUCED_EXAMPLE, REDUCED_A, REDUCED_LIST, (79, 34))
            + both_record_rows() + strain_line_rows() + beyond_rows() + beyond_face_rows() + beyond_case_rows()
            + beyond_shape_rows() + beyond_class_rows() + search_rows(random.Random(seed))
            + trial_rows() + trial_refusal_rows() + trial_count_rows() + halving_rows(random.Random(seed))
            + rearranged_rows() + stored_sequence_rows() + stored_sixteen_rows() + stored_refusal_rows()
            + stored_write_rows() + stored_random_rows(random.Random(seed))
            + tried_rows() + tried_verdict_rows() + tried_column_rows() + tried_sixteen_rows() + tried_refusal_rows()
            + tried_range_rows() + block_rows() + refusal_rows() + sequence_rows())
    for name, computed, expected in rows:
        same = computed == expected
        failed += not same
        print(f"{'ok' if same else 'DIFFERS':8}{name}"
              + ("" if same else f": {computed}, the paper says {expected}"))
    print(f"{len(rows) - failed} passed, {failed} failed")
    return 1 if failed else 0


if __name__ == "__main__":
    sys.exit(main())
