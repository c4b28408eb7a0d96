"""The text form: lines of cells to sections, and sections to lines. RULES says all of it, for whoever writes such a text."""

import re
import unicodedata
from typing import NamedTuple, Optional

import units
from records import ALPHA_CC_COLUMN, COLUMNS, I64, LAYER_BITS, SITUATION_COLUMN, U32, Column, Section, packed
from streams import Complaint, shown

RULES = """\
The text has a section a line, and everything from a '#' on is a remark:

  b h fck fyk N M V d/A d/A ...
  b h fck fyk N M V situation=S alphacc=F links=A/s d/A d/A ...

  b h          width and height of the section               mm, cm, m
  fck fyk      strength of concrete and steel                N/mm2, MPa
  N            axial force, positive in compression          N, kN, MN
  M            moment about mid-height, positive where it    Nmm, kNm, MNm
               compresses the top
  V            shear force                                   N, kN, MN
  situation=S  design situation of Table 2.1N: persistent    no unit
               or 1, with factors 1.5 and 1.15; accidental
               or 2, with 1.2 and 1.0
  alphacc=F    long-term factor αcc of the concrete          no unit
               strength by 3.1.6(1), 0.80 to 1.00; some
               national annexes have 0.85
  links=A/s    vertical links: the area of all legs of a     mm2, cm2 / mm, cm, m
               link / the spacing along the member
  d/A          a layer: its depth from the top face / its    mm, cm, m / mm2, cm2
               area; 450/1500, 45cm/15cm2

Situation, factor and links may be left out: the situation is persistent then,
αcc is 1.00, and there are no links. Each stands once, after V or anywhere among
the layers.

Layers may stand in any sequence: the record has them by rising depth, and equal
depths by rising area.

Bars may stand for an area: 450/3x16 is a layer of three bars of 16 mm, and
links=2x8/200 are links of two legs of 8 mm every 200 mm; their area is by
π·d²/4, the sum rounded down to whole mm².

Numbers. A plain number is whole and in the first unit of its row. With a unit
directly after it, as in 200kNm, 1.5kN or 45cm, it may have decimals; it is
converted exactly, and refused where it is not whole in the first unit.
200_000_000 may stand for 200000000. αcc is the factor itself, with decimals or
without: 0.85, 0.9, 1, and not 85; it is refused where it is not whole in
hundredths.

Cells. A line with a ';' is parted by ';', else one with a tab by tabs, else one
with commas and no blank between two words by commas, else by blanks. An empty
cell (';;', ',,', two tabs) and a '-' leave a value out, and nothing after it
moves. A missing N, M or V counts as 0. Cells may stand in double quotes.

Titles. A line that names the columns, as b h fck fyk N M V layers, gives their
sequence and what parts the lines below. All seven stand in it, and at least one
of layers, layer 1, layer 2 ... or d/A; a cell there may hold several layers
parted by blanks. A title may give the unit of its plain numbers: M [kNm]. Other
titles are not read; their cells are the name of the line in messages.

Situation, factor and links stand below titles in one column each: situation
(design situation), each cell persistent, accidental, 1 or 2; alphacc (alpha cc,
αcc, long-term factor), each cell a factor such as 0.85; and links (stirrups,
A/s), each cell A/s such as 101/200 or 2x8/200. A cell that is empty or '-'
leaves it out. Or they stand among the layers by their names, as above or as in
αcc=0.85, and must where blanks part the cells. A title such as 'link area',
'accidental' or 'alpha' is refused.
"""

ABSENT = "-"
SEPARATORS = (";", "\t", ",", " ")
CELLS = {sign: re.compile(rf' *(?:"((?:[^"]|"")*)" *|([^"{sign}]*))({sign}|$)') for sign in ";\t,"}
TITLE = re.compile(r"([A-Za-z]+) *(?:\[ *(.+?) *\]|\( *(.+?) *\))?")
LAYERS = re.compile(r"layers?(?: *[0-9]+)?|d/A", re.IGNORECASE)
LINKS = re.compile(r"(?:(?:shear|vertical) )?(?:links?|stirrups?)|A(?:sw)?/s", re.IGNORECASE)
ABOUT_LINKS = re.compile(r"(?<![A-Za-z])(?:links?|stirrups?|Asw)(?![A-Za-z])", re.IGNORECASE)
SITUATION = re.compile(r"(?:design )?situation", re.IGNORECASE)
ABOUT_SITUATION = re.compile(r"situations?(?![A-Za-z])|(?<![A-Za-z])(?:persistent|accidental)(?![A-Za-z])", re.IGNORECASE)
ALPHA_CC = re.compile(r"(?:α[ _-]?cc|long[ -]term factor)(?: *(?:\[-\]|\(-\)))?", re.IGNORECASE)
ABOUT_ALPHA_CC = re.compile(r"""
      α c,?c? (?![a-z])                                                       # αcc, αc,c, αc
    | α (?![a-z]) (?! [^a-z]* (?: ° | (?: c[tw] | e | deg | rad) (?![a-z])))  # α, but no angle and no other index
    | ^a[ ._-]c,?c (?![a-z]) | ^acc [ ]* (?: [\[(].* )? $                     # a_cc, acc
    | long[^a-z]*term (?: [^a-z]*$ | .*(?: factor | coeff | reduc | effect))  # what is said of a long term, but its loads
    """, re.IGNORECASE | re.VERBOSE)
ALPHAS = re.compile("alpha|alfa|ɑ", re.IGNORECASE)
BY_NAME = {column.name.lower(): column for column in COLUMNS}
ENOUGH_TITLES = 3  # a line that names as many columns is one of titles; two could be units that stand alone


class Place(NamedTuple):
    """What the cells of one column hold: a number of the record, layers, links, or the name of the line."""

    title: str
    column: Optional[Column] = None
    unit: str = ""
    layers: bool = False
    links: bool = False

    @property
    def is_name(self):
        """Cells here are no part of the record."""
        return not (self.column or self.layers or self.links)


class Extra(NamedTuple):
    """What a line may have once: below titles in a column of its own, or anywhere by its name among the layers."""

    place: Place
    titles: re.Pattern
    about: re.Pattern  # of a title that speaks of it
    cells: str         # what its column holds
    example: str       # what follows its name and a '='


EXTRAS = {
    "situation": Extra(Place("situation", SITUATION_COLUMN), SITUATION, ABOUT_SITUATION, units.SITUATION.expected, "accidental"),
    "alphacc": Extra(Place("alphacc", ALPHA_CC_COLUMN), ALPHA_CC, ABOUT_ALPHA_CC, "such as 0.85 or 1.00", units.ALPHA_CC.example),
    "links": Extra(Place("links", links=True), LINKS, ABOUT_LINKS, "area/spacing such as 101/200 or 2x8/200", "101/200"),
}
BY_THEIR_NAMES = " or ".join(f"{name}={extra.example}" for name, extra in EXTRAS.items())


class Titles(NamedTuple):
    """The columns in their sequence, and what parts a line into cells (nothing: as the line shows)."""

    places: tuple
    separator: str = ""

    def place(self, number):
        """What the cell of that number holds, from 1; cells beyond a last column of layers hold layers too."""
        if number <= len(self.places):
            return self.places[number - 1]
        return self.places[-1] if self.places[-1].layers else Place("")


# --- a line to cells --------------------------------------------------------


def separator_of(text):
    """What parts a line that no titles stand above."""
    for sign in ";\t":
        if sign in text:
            return sign
    tight = re.sub(" *, *", ",", text.strip(" "))
    return "," if "," in tight and " " not in tight else " "


def cells_of(text, separator):
    """The cells of a line, empty ones too."""
    if separator == " ":
        return [word for word in text.split(" ") if word]
    cells, at, more = [], 0, True
    while more:
        match = CELLS[separator].match(text, at)
        if not match:
            raise Complaint(f"column {len(cells) + 1}: its quotes do not match; expected a cell, or a cell within two '\"'")
        quoted, plain, more = match.groups()
        cells.append((plain if quoted is None else quoted.replace('""', '"')).strip(" "))
        at = match.end()
    return cells


# --- titles -----------------------------------------------------------------


def column_named(title):
    """The column of the record that a title names and the unit that it gives, or None."""
    match = TITLE.fullmatch(title)
    column = match and BY_NAME.get(match[1].lower())
    return (column, match[2] or match[3] or "") if column else None


def spelled(title):
    """A title with one spelling for α, and plain letters for those of a formula's typeface."""
    return ALPHAS.sub("α", unicodedata.normalize("NFKC", title))


def place_of(title, left):
    """What a title stands for; one without a title, or '...', goes on with the layers to its left.

    A title that speaks of situation, factor or links and is none of theirs is not taken as a name: its cells would be lost.
    """
    plain = spelled(title)
    for name, extra in EXTRAS.items():
        if extra.titles.fullmatch(plain):
            return extra.place
        if extra.about.search(plain):
            raise Complaint(f"'{shown(title)}' is no title of {name}; expected '{name}', with cells {extra.cells}")
    known = column_named(title)
    if not known:
        goes_on = not title.strip(".") and left.layers
        return Place(left.title if goes_on else title, layers=goes_on or bool(LAYERS.fullmatch(title)))
    column, unit = known
    if unit and column.quantity.factor(unit) is None:
        raise Complaint(f"'{shown(title)}' has no unit of {column.name}; expected one of {', '.join(column.quantity.units)}")
    return Place(column.name, column, unit)


def places_of(cells):
    """What each title stands for."""
    places = []
    for number, cell in enumerate(cells, 1):
        try:
            places.append(place_of(cell, places[-1] if places else Place("")))
        except Complaint as complaint:
            raise Complaint(f"column {number}: {complaint}") from None
    return tuple(places)


def demand_titles(titles):
    """Each number of the record has one title, and layers have one; what has none would be lost."""
    after = len(titles.places) + 1
    names = " ".join(column.name for column in COLUMNS)
    for column in COLUMNS:
        found = [number for number, place in enumerate(titles.places, 1) if place.column is column]
        if len(found) != 1:
            raise Complaint(f"column {found[1] if found else after}: {len(found)} titles '{column.name}'; "
                            f"expected each of {names} once (its cells may be empty)")
    if not any(place.layers for place in titles.places):
        raise Complaint(f"column {after}: no title 'layers'; expected one")
    if titles.separator == " " and not titles.places[-1].layers:
        raise Complaint(f"column {after - 1}: '{shown(titles.places[-1].title)}' follows the layers; "
                        "expected the layers last, where blanks part the cells")


def demand_one_of_each(titles):
    """Each of EXTRAS has at most one title, and none where a line without it would give its first layer in its place."""
    for name, extra in EXTRAS.items():
        found = [number for number, place in enumerate(titles.places, 1) if place is extra.place]
        if len(found) > 1:
            raise Complaint(f"column {found[1]}: {len(found)} titles '{name}'; expected one at most")
        if found and titles.separator == " ":
            raise Complaint(f"column {found[0]}: '{name}' is no column where blanks part the cells; expected it among the layers, "
                            f"as in {name}={extra.example}")


def titles_of(text):
    """The titles, if the line is one of titles."""
    for separator in SEPARATORS:
        cells = cells_of(text, separator) if separator in text else []
        if sum(column_named(cell) is not None for cell in cells) >= ENOUGH_TITLES:
            titles = Titles(places_of(cells), separator)
            demand_titles(titles)
            demand_one_of_each(titles)
            return titles
    return None


UNTITLED = Titles((*(Place(column.name, column) for column in COLUMNS), Place("layer", layers=True)))


# --- cells to a section -----------------------------------------------------


def name_of(word):
    """The name of what a line may have that a word begins with, as links=101/200 does, or none; a title of one word is such a name too."""
    title, sign, _ = word.partition("=")
    plain = spelled(title)
    return next((name for name, extra in EXTRAS.items() if sign and extra.titles.fullmatch(plain)), "")


class Reader:
    """Goes through the lines of one input; keeps records, complaints and at most one note."""

    def __init__(self, name):
        self.name = name
        self.titles = UNTITLED
        self.records, self.complaints, self.notes = [], [], []

    def take_number(self, section, cell, place, where):
        """A number of the record; a note where another unit was likely meant."""
        quantity = place.column.quantity
        number = units.whole(cell, quantity, I64, place.unit)
        if not place.unit and not self.notes and units.is_doubtful(cell, quantity, number):
            self.notes.append(f"{where}: {quantity.doubt(cell)}")
        section.numbers[place.column.name] = number

    def take_links(self, section, cell, where):
        """The links; a note where a diameter was likely meant."""
        area, spacing = units.link_of(cell, U32)
        if not self.notes and units.is_diameter(cell, area):
            self.notes.append(f"{where}: {area} is taken as {area} mm² of links; two legs of {area} mm are links=2x{area}/{spacing}")
        section.links.append((area, spacing))

    def take_extra(self, section, word, place, where):
        """Situation, factor or links, once, with the name before it or without."""
        if section.links if place.links else place.column.name in section.numbers:
            raise Complaint(f"'{shown(word)}' gives the {place.title} again; expected once in a line")
        cell = word.partition("=")[2] if name_of(word) == place.title else word
        if place.links:
            self.take_links(section, cell, where)
        else:
            self.take_number(section, cell, place, where)

    def take_layers(self, section, cell, where):
        """Layers, and by their names situation, factor and links."""
        for word in filter(None, cell.split(" ")):
            name = name_of(word)
            if name:
                self.take_extra(section, word, EXTRAS[name].place, where)
            else:
                section.layers.append(units.layer_of(word, U32, BY_THEIR_NAMES))
        if len(section.layers) > len(LAYER_BITS):
            raise Complaint(f"layer {len(section.layers)}; expected at most {len(LAYER_BITS)} in a record")

    def take(self, section, cell, place, where):
        """Put the cell where it belongs."""
        if place.layers:
            self.take_layers(section, cell, where)
        elif place.title in EXTRAS:
            self.take_extra(section, cell, place, where)
        elif place.column:
            self.take_number(section, cell, place, where)
        elif not place.title:
            raise Complaint(f"'{shown(cell)}' has no title above it; expected an empty cell")

    def named(self, line, cells):
        """The line with its name, which is what stands below titles of no column."""
        names = [cell for number, cell in enumerate(cells, 1) if self.titles.place(number).is_name and cell]
        return f"{line} '{shown(' '.join(names))}'" if names else line

    def demand_cells(self, line, count):
        """A line that ends before the last of the seven numbers has likely lost one."""
        needed = max(number for number, place in enumerate(self.titles.places, 1) if place.column in COLUMNS)
        if count < needed:
            title = shown(self.titles.place(count + 1).title)
            raise Complaint(f"{line}, column {count + 1} ({title}): the line ends before it; expected "
                            f"{needed} cells and the layers, with '{ABSENT}' or an empty cell for no value")

    def section(self, line, cells, separator):
        """The section of a line; a complaint names the column and what is wrong there."""
        section = Section({}, [], [])
        for number, cell in enumerate(cells, 1):
            place = self.titles.place(number)
            where = f"{line}, column {number} ({shown(place.title)})"
            try:
                if cell not in ("", ABSENT):
                    self.take(section, cell, place, where)
            except Complaint as complaint:
                comma = "; commas part this line, so one within a number moves what follows" if separator == "," else ""
                raise Complaint(f"{where}: {complaint}{comma}") from None
        self.demand_cells(line, len(cells))
        return section

    def line(self, line, text):
        """One line: titles, a section, or nothing."""
        try:
            titles = titles_of(text) if self.titles is UNTITLED else None
            separator = self.titles.separator or separator_of(text)
            cells = [] if titles else cells_of(text, separator)
        except Complaint as complaint:
            raise Complaint(f"{line}, {complaint}") from None
        if titles:
            self.titles = titles
        elif any(cells):
            self.records.append(packed(self.section(self.named(line, cells), cells, separator)))

    def read(self, data):
        """All lines of the input."""
        if data[:1] in (b"\0", b"\1", b"\2", b"\3", b"\xff", b"\xfe"):  # of records, and of text in UTF-16
            self.complaints.append(f"{self.name}, line 1, column 1: this is no text in UTF-8; expected a section a line "
                                   "(records are shown as text by show-record)")
            return
        for number, line in enumerate(data.removeprefix(b"\xef\xbb\xbf").split(b"\n"), 1):
            text, remark, _ = line.removesuffix(b"\r").decode("utf-8", "surrogateescape").partition("#")
            try:
                self.line(f"{self.name}, line {number}", text.rstrip(" \t") if remark else text)
            except Complaint as complaint:
                self.complaints.append(str(complaint))


def records_of_texts(texts):
    """The records of all lines of (name, bytes), and the notes about them; a complaint where a line has none."""
    readers = []
    for name, data in texts:
        readers.append(Reader(name))
        readers[-1].read(data)
    complaints = [complaint for reader in readers for complaint in reader.complaints]
    if complaints:
        raise Complaint(*complaints)
    records = [record for reader in readers for record in reader.records]
    return records, [note for reader in readers for note in reader.notes]


# --- a section to a line ----------------------------------------------------


def line_of(section):
    """The line of text that make-record turns back into such a record."""
    numbers = [section.numbers.get(column.name, column.missing) for column in COLUMNS]
    columns = [(ABSENT if number is None else str(number)).rjust(column.width) for number, column in zip(numbers, COLUMNS)]
    return "  ".join(columns + extras_of(section) + [f"{depth}/{area}" for depth, area in section.layers])


def extras_of(section):
    """Situation, factor and links by their names; what a missing one means is left out, as in a record."""
    columns = section.written((SITUATION_COLUMN, ALPHA_CC_COLUMN))
    words = [f"{column.name}={column.quantity.written(section.numbers[column.name])}" for column in columns]
    return words + [f"links={area}/{spacing}" for area, spacing in section.links]


def title_line():
    """The titles above such lines, as a remark: records follow one another without titles."""
    return "#" + "  ".join(column.name.rjust(column.width) for column in COLUMNS)[1:] + "  d/A ..."
