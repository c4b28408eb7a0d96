"""Random sections and loads, placed where an answer turns.

N is taken at the internal force of a whole depth, M at the moment resistance
of either face, V at the shear resistance, each a unit to either side, and areas
at the limits of 9.2.1.1. Links have V, spacing or ratio at the turn of verdict
six, or two cotangents that resist the same. Columns have N at the force of a
depth beyond 10h, or where 12 turns. Their records are in sequence, but for those
of the runs in any sequence, where 31 turns. The generator is handed in, so a seed
repeats a run.
"""

from math import ceil, floor

import second
from damaged import Run, fields_of
from samples import (FAILINGS, I64_MAX, I64_MIN, M_MOST, N_MOST, U32_MAX, Sample, faces_of, last_force, last_of_both,
                     last_spacing, last_up_to_10h, least_link_area, linked, passes, record, with_layer)
from second import (ACCIDENTAL, ALPHA_CC_BIT, FAIL, LAYER_BITS, LINK_BIT, NOT_REACHED, PERSISTENT, SITUATION_BIT,
                    UNREDUCED, Layer, Links, Load)


def edged(rng, least, most):
    """A whole number of the range; one time in five at or beside an end."""
    if rng.random() < 0.2:
        return rng.choice((least, min(least + 1, most), max(most - 1, least), most))
    return rng.randint(least, most)


def beside(rng, value):
    """The value, or a unit to either side."""
    return value + rng.choice((-1, 0, 0, 1))


def held(number, least, most):
    """The number of the range that is nearest."""
    return max(least, min(number, most))


def any_layer(rng):
    """Any bytes, or a layer that could be sorted in before others."""
    return Layer(*rng.choice(((0, 0), (1, 1), (rng.randint(1, 2_000), rng.randint(1, 20_000)),
                              (rng.getrandbits(32), rng.getrandbits(32)))))


# --- sections ---------------------------------------------------------------


def random_layers(rng, height):
    """Mostly few layers; depths anywhere, now and then equal, or some layers equal."""
    count = rng.choice((1, 1, 1, 2, 2, 3, 4, rng.randint(1, 16), 16))
    most = rng.choice((50, 500, 3_000, 20_000))
    layers = [Layer(edged(rng, 1, height - 1), edged(rng, 1, most)) for _ in range(count)]
    if rng.random() < 0.1:
        layers = [layer._replace(depth=layers[0].depth) for layer in layers]
    if rng.random() < 0.1:
        layers = rng.choices(layers, k=count)
    return layers


def least_area(rng, section, layers):
    """The area at one of the two limits of 9.2.1.1(1), for the last layer."""
    tensile = second.materials_of(section).T
    depth = layers[-1].depth
    return ceil(second.Fraction(*rng.choice((
        (13 * section.width * depth, 10_000),
        (26 * tensile * section.width * depth, 1_000 * section.fyk)))))


def most_area(rng, section, layers):
    """The area that brings all layers to the limit of 9.2.1.1(3)."""
    others = sum(layer.area for layer in layers[:-1])
    return section.width * section.height // 25 - others


def own_area(rng, section, layers):
    """The area as it was drawn."""
    return layers[-1].area


def any_case(rng):
    """Accidental one time in three; αcc below 100 one time in two, and then often 85."""
    return {"situation": rng.choice((PERSISTENT, PERSISTENT, ACCIDENTAL)),
            "alpha_cc": rng.choice((UNREDUCED, UNREDUCED, 85, rng.choice(second.ALPHAS[:-1])))}


# Numbers of a situation and of αcc at both sides of their bounds
CASE_NUMBERS = {"situation": (-1, 0, 1, 2, 2, 3), "alpha_cc": (0, 1, 79, 80, 85, 100, 101)}


def any_number(rng, name):
    """A situation or an αcc of any number, in range or not."""
    return rng.choice((*CASE_NUMBERS[name], rng.randint(I64_MIN, I64_MAX)))


def random_section(rng):
    """A section that passes the section tests, often at a limit of its steel."""
    width, height = edged(rng, 50, 2_000), edged(rng, 50, 2_000)
    if rng.random() < 0.4:  # so that 25 times an area can equal b·h
        width = 25 * rng.randint(2, 80)
    fyk = rng.choice((400, 500, 500, 600, rng.randint(400, 600)))
    layers = random_layers(rng, height)
    section = second.section_of(width, height, rng.choice(second.CLASSES), fyk, layers, **any_case(rng))
    turn = rng.choice((own_area, own_area, least_area, most_area))
    area = held(beside(rng, turn(rng, section, layers)), 1, 20_000)
    return with_layer(section, len(layers) - 1, area=area)


def lopsided_section(rng):
    """A small section with one layer close to a face: often no M suits it."""
    width, height = rng.randint(50, 300), rng.randint(50, 400)
    cover = rng.randint(1, 3)
    layer = Layer(rng.choice((cover, height - cover)), rng.randint(1, 20_000))
    return second.section_of(width, height, rng.choice(second.CLASSES), rng.randint(400, 600), [layer],
                             **any_case(rng))


# --- loads ------------------------------------------------------------------


def turning_depth(rng, seen):
    """A whole depth at a layer, at the limit of 5.6.3(2), at an end, at the first mean of the halving rule, or any."""
    depth = rng.choice(second.counted(seen)).depth
    last = second.greatest_depth(seen)
    limit = second.depth_limit(seen.fck)
    u = rng.choice((10 * depth, limit * depth // 10, 4 * depth, 1, last, last // 2 + 1,
                    rng.randint(1, last), rng.randint(1, last)))
    return held(beside(rng, u), 1, last)


def turning_axial_force(rng, seen):
    """N at the internal force of a whole depth, or none at all."""
    force = second.internal_force(seen, turning_depth(rng, seen))
    return rng.choice((0, beside(rng, floor(force)), beside(rng, floor(force)),
                       beside(rng, ceil(force))))


def turning_moment(rng, section, n, sign):
    """M at an end of verdict one: MRd of the top, or minus MRd of the bottom.

    Where that resistance is negative, M compresses the face of the other end.
    """
    end = second.check(section, Load(n, sign, 0)).mrd
    return held(beside(rng, sign * end), -M_MOST, M_MOST)


def with_turning_shear(rng, section, n, m):
    """N, M, and V at the resistance that belongs to both."""
    shear = max(0, beside(rng, second.check(section, Load(n, m, 0)).vrd))
    return Load(n, m, rng.choice((1, -1)) * shear)


def turning_load(rng, section):
    """N, then M at an end of verdict one, and V at the resistance that belongs to both."""
    sign = rng.choice((1, -1))
    n = turning_axial_force(rng, second.as_compressed(section, sign))
    return with_turning_shear(rng, section, n, turning_moment(rng, section, n, sign))


# --- links: request 3 of 02 ---------------------------------------------------


def any_links(rng):
    """Links of any numbers, in range or not."""
    return Links(1, rng.choice((0, 1, 5_000, 5_001, rng.randint(1, 5_000), rng.getrandbits(32))),
                 rng.choice((0, 24, 25, 1_000, 1_001, rng.randint(25, 1_000), rng.getrandbits(32))))


def spacing_within(rng, dm):
    """A spacing that suits dm."""
    return rng.randint(25, min(last_spacing(dm), 1_000))


def links_within(rng, section, dm):
    """Links of a spacing and a ratio that suit; their area brings the cotangent to any tenth."""
    spacing = spacing_within(rng, dm)
    there = linked(section, area=1, spacing=spacing)
    tenths = rng.choice(second.COTANGENTS)
    balanced = second.strut_resistance(there, dm, tenths) // max(1, second.steel_resistance(there, dm, tenths))
    area = rng.choice((balanced, balanced, rng.randint(1, 5_000)))
    return linked(there, area=held(area, least_link_area(section, spacing), 5_000))


def at_shear_turn(rng, section, m, dm):
    """|V| at the link resistance: links, V, and whether verdict six passes."""
    there = links_within(rng, section, dm)
    most = second.check(there, Load(0, m, 0)).link_resistance
    shear = max(0, beside(rng, most))
    return there, rng.choice((1, -1)) * shear, shear <= most


def at_spacing_turn(rng, section, m, dm):
    """The spacing at 0.75·dm."""
    spacing = held(beside(rng, last_spacing(dm)), 25, 1_000)
    area = rng.randint(least_link_area(section, spacing), 5_000)
    return linked(section, area=area, spacing=spacing), 0, spacing <= last_spacing(dm)


def at_ratio_turn(rng, section, m, dm):
    """The area at the least of its ratio."""
    spacing = spacing_within(rng, dm)
    least = least_link_area(section, spacing)
    area = held(beside(rng, least), 1, 5_000)
    return linked(section, area=area, spacing=spacing), 0, area >= least


def linked_sample(rng, label, section):
    """Links under N 0, one condition of verdict six at its turn and the other two within.

    No spacing suits where dm is below 34; where 11 is given it is 0.
    """
    m = turning_moment(rng, section, 0, rng.choice((1, -1)))
    bare = second.check(section, Load(0, m, 0))
    if last_spacing(bare.dm) < 25:
        there = linked(section, area=rng.randint(1, 5_000), spacing=rng.randint(25, 1_000))
        return Sample(label, there, Load(0, m, 0), bare.refusal, NOT_REACHED if bare.refusal else FAIL)
    turn = rng.choice((at_shear_turn, at_shear_turn, at_spacing_turn, at_ratio_turn))
    there, v, holds = turn(rng, section, m, bare.dm)
    return Sample(label, there, Load(0, m, v), 0, passes(holds))


def tie_links(rng, section, dm):
    """Links whose resistance at a cotangent is the strut's at the next tenth, by search; or none."""
    tenths = rng.choice(second.COTANGENTS[:-1])
    strut = second.strut_resistance(section, dm, tenths + 1)
    for spacing in rng.sample(range(25, 1_001), 300):
        per_area = second.Fraction(9 * dm * second.materials_of(section).s * tenths, 10_000 * spacing)
        area = ceil(strut / per_area)
        if 1 <= area <= 5_000 and floor(area * per_area) == strut:
            return tenths, second.links_of(area, spacing)
    return None


def tie_sample(rng, label):
    """Two cotangents next to each other resist the same: the answer is the smaller one."""
    while True:
        width, height, sign = rng.randint(50, 400), rng.randint(60, 500), rng.choice((1, -1))
        depth = rng.randint(20, height - 20)
        section = second.section_of(width, height, rng.choice(second.CLASSES), rng.randint(400, 600),
                                    [(depth, rng.randint(100, 3_000))], **any_case(rng))
        dm = depth if sign > 0 else height - depth
        found = tie_links(rng, section, dm)
        if found:
            tenths, links = found
            return Sample(label, section._replace(links=links), Load(0, sign, 0), 0, None, tenths)


# --- columns: request 11 of 02 ------------------------------------------------


def symmetric_section(rng):
    """The same layers at both faces: a force that is often level, and then so long to search that h is small."""
    height = rng.randint(50, 120)
    layers = [Layer(rng.randint(1, height - 1), rng.randint(1, 3_000)) for _ in range(rng.choice((1, 1, 2, 4)))]
    mirrored = [layer._replace(depth=height - layer.depth) for layer in layers]
    return second.section_of(rng.randint(50, 400), height, rng.choice(second.CLASSES), rng.randint(400, 600),
                             layers + mirrored, **any_case(rng))


def top_heavy_section(rng):
    """A narrow section with much steel on one side of the point where the strain line turns: the force falls again."""
    height = rng.randint(100, 1_000)
    layers = [Layer(rng.randint(height // 8, height // 2), rng.randint(5_000, 20_000)) for _ in range(rng.randint(1, 4))]
    layers += [Layer(rng.randint(height // 2, height - 1), rng.randint(1, 500)) for _ in range(rng.randint(0, 2))]
    section = second.section_of(rng.randint(50, 200), height, rng.choice(second.CLASSES), rng.choice((500, 600)),
                                layers, **any_case(rng))
    return rng.choice((second.upright, second.turned_over))(section)


def depth_beyond_10h(rng, seen):
    """A whole depth beyond 10h, at an end or any; more of them near 10h, where the force changes most."""
    first, last = second.greatest_depth(seen) + 1, second.last_depth(seen)
    return rng.choice((first, first + 1, last - 1, last, *[first + int((last - first) * rng.random()**3)] * 12))


def weaker_face(section):
    """The face with the lesser force at 30h: what it reaches the other mostly reaches too."""
    return min(faces_of(section), key=lambda seen: second.force_beyond(seen, second.last_depth(seen)))


def column_axial_force(rng, section):
    """N at the force of a depth beyond 10h of a face, at that at 10h, or at the greatest of one face or of both."""
    seen = rng.choice((weaker_face(section), weaker_face(section), *faces_of(section)))
    kind = rng.random()
    if kind < 0.1:
        force = last_up_to_10h(seen)
    elif kind < 0.15:
        force = rng.choice((last_of_both(section), last_force(seen)))
    else:
        force = second.force_beyond(seen, depth_beyond_10h(rng, seen))
    return held(beside(rng, force), -N_MOST, N_MOST)


def column_sample(rng, label):
    """Any section under an N that mostly asks for a depth beyond 10h; M is at an end of verdict one, or 1, or -1."""
    section = rng.choice((random_section, random_section, random_section, top_heavy_section, symmetric_section))(rng)
    n, sign = column_axial_force(rng, section), rng.choice((1, -1))
    m = rng.choice((sign, turning_moment(rng, section, n, sign), turning_moment(rng, section, n, sign)))
    return Sample(label, section, with_turning_shear(rng, section, n, m))


def spoiled(rng, section, load):
    """One test made to fail, any links, any situation or αcc, or one field replaced by any 64-bit number."""
    kind = rng.random()
    if kind < 0.5:
        return rng.choice(list(FAILINGS.values()))(section, load)
    if kind < 0.6:
        return section._replace(links=any_links(rng)), load
    if kind < 0.7:
        name = rng.choice(list(CASE_NUMBERS))
        return section._replace(**{name: any_number(rng, name)}), load
    value = rng.choice((rng.randint(I64_MIN, I64_MAX), rng.randint(-2_100, 2_100)))
    field = rng.choice([field.name for field in second.FIELDS])
    if field in load._fields:
        return section, load._replace(**{field: value})
    return section._replace(**{field: value}), load


def random_sample(rng, label):
    """One in fifty is a tie; of the others one in ten is lopsided, one in four has links, one in twelve is spoiled."""
    if rng.random() < 1 / 50:
        return tie_sample(rng, label)
    section = lopsided_section(rng) if rng.random() < 1 / 10 else random_section(rng)
    if rng.random() < 1 / 4:
        sample = linked_sample(rng, label, section)
    else:
        sample = Sample(label, section, turning_load(rng, section))
    if rng.random() < 1 / 12:
        return Sample(label, *spoiled(rng, sample.section, sample.load))
    return sample


def random_samples(rng, number):
    """As many random samples, and as many columns."""
    for place in range(number):
        yield random_sample(rng, f"random {place + 1}")
        yield column_sample(rng, f"column {place + 1}")


# --- records and runs -------------------------------------------------------


def spread(rng, data):
    """The record with gaps between its layer bits, and with values that could be missing."""
    bits = second.bits_that_stand(data)
    there = [bit for bit in bits if bit in LAYER_BITS]
    added = {field.name: field.missing for field in second.OPTIONAL_FIELDS
             if field.bit not in bits and rng.random() < 0.5}
    return second.with_signed(second.at_bits(data, *sorted(rng.sample(LAYER_BITS, len(there)))), **added)


def any_layout(rng, data):
    """The record, or one that means the same."""
    return rng.choice((data, spread(rng, data)))


def any_record(rng, section, load):
    """The record as the writer writes it, or one that means the same."""
    return any_layout(rng, record(section, load))


def damaged_run(rng, records):
    """Some records with a few bits turned, bytes lost, or bytes put in."""
    data = bytearray(b"".join(records))
    for _ in range(rng.randint(1, 3)):
        place = rng.randrange(len(data))
        kind = rng.randrange(3)
        if kind == 0:
            data[place] ^= 1 << rng.randrange(8)
        elif kind == 1:
            del data[place:place + rng.choice((1, 4, 8))]
        else:
            data[place:place] = rng.randbytes(rng.choice((1, 4, 8)))
    return Run("damaged at random", bytes(data))


# Bits whose field comes or goes in a record that stays whole, and the bytes of such a field
TURNED_BITS = {
    LINK_BIT: lambda rng: second.link_bytes(any_links(rng)),
    SITUATION_BIT: lambda rng: second.signed_bytes(any_number(rng, "situation")),
    ALPHA_CC_BIT: lambda rng: second.signed_bytes(any_number(rng, "alpha_cc")),
}


def with_bit_turned(rng, data, bit):
    """The record with a bit of its map turned; one time in two its field comes or goes with it."""
    if rng.random() < 0.5:
        return (int.from_bytes(data[:4], "big") ^ 1 << bit).to_bytes(4, "big") + data[4:]
    fields = fields_of(data)
    if fields.pop(bit, None) is None:
        fields[bit] = TURNED_BITS[bit](rng)
    return second.assemble(fields)


def bit_turned_run(rng, records):
    """Some records, one of them with the bit of its links, of its situation or of its αcc turned."""
    place, bit = rng.randrange(len(records)), rng.choice(list(TURNED_BITS))
    turned = with_bit_turned(rng, records[place], bit)
    return Run(f"bit {bit} turned at random", b"".join((*records[:place], turned, *records[place + 1:])))


def damaged_runs(rng, samples, number):
    """Runs over three to six of the samples each, damaged at random."""
    for _ in range(number):
        chosen = rng.choices(samples, k=rng.randint(3, 6))
        records = [any_record(rng, sample.section, sample.load) for sample in chosen]
        yield rng.choice((damaged_run, bit_turned_run))(rng, records)


# --- runs in any sequence: request 6 of 02 ------------------------------------


def shuffled(rng, section):
    """Its layers in any sequence."""
    return section._replace(layers=tuple(rng.sample(second.counted(section), section.count)))


def but_for_two(rng, section):
    """Its layers in sequence, but for two neighbours."""
    return second.swapped_at(second.in_sequence(section), rng.randrange(section.count - 1))


def with_neighbour(rng, section):
    """Its layers in sequence, but for one that is beside the one before it in depth and in area."""
    ordered, place = second.in_sequence(section), rng.randrange(1, section.count)
    depth, area = (held(beside(rng, value), 0, U32_MAX) for value in ordered.layers[place - 1])
    return with_layer(ordered, place, depth=depth, area=area)


def in_any_sequence(rng, section):
    """The section with its layers moved in one of these ways, or the only one as it is."""
    return rng.choice((shuffled, but_for_two, with_neighbour))(rng, section) if section.count > 1 else section


def sequence_runs(rng, samples, number):
    """Runs over ten to twenty of the samples each, their layers laid out in any sequence."""
    for _ in range(number):
        chosen = rng.choices(samples, k=rng.randint(10, 20))
        records = [second.laid_out(in_any_sequence(rng, sample.section), sample.load) for sample in chosen]
        yield Run("in any sequence at random", b"".join(any_layout(rng, data) for data in records))
