/* include/salwoerk.h against the library: where each field lies, and what each call answers where every field differs from the others.
 * Compiled as C11 for the static assertions. The last line is 'N passed, M failed'. */
#include <stdio.h>
#include <string.h>
#include "salwoerk.h"

/* ---- sizes and offsets, in bytes, as the engine's structs (`repr(C)`) have them on x86-64 */
#define LIES(type, field, offset, size) \
    _Static_assert(offsetof(type, field) == (offset) && sizeof ((type *)0)->field == (size), #type "." #field)
#define TAKES(type, size) _Static_assert(sizeof(type) == (size), #type)

TAKES(salwoerk_layer, 8);
LIES(salwoerk_layer, depth, 0, 4);
LIES(salwoerk_layer, area, 4, 4);
TAKES(salwoerk_grade, 32);
LIES(salwoerk_grade, fck, 0, 8);
LIES(salwoerk_grade, fyk, 8, 8);
LIES(salwoerk_grade, situation, 16, 8);
LIES(salwoerk_grade, alpha_cc, 24, 8);
TAKES(salwoerk_links, 16);
LIES(salwoerk_links, present, 0, 8);
LIES(salwoerk_links, area, 8, 4);
LIES(salwoerk_links, spacing, 12, 4);
TAKES(salwoerk_section, 200);
LIES(salwoerk_section, layers, 0, 128);
LIES(salwoerk_section, width, 128, 8);
LIES(salwoerk_section, height, 136, 8);
LIES(salwoerk_section, grade, 144, 32);
LIES(salwoerk_section, links, 176, 16);
LIES(salwoerk_section, count, 192, 8);
TAKES(salwoerk_load, 24);
LIES(salwoerk_load, n, 0, 8);
LIES(salwoerk_load, m, 8, 8);
LIES(salwoerk_load, v, 16, 8);
TAKES(salwoerk_depth, 24);
LIES(salwoerk_depth, refusal, 0, 8);
LIES(salwoerk_depth, depth, 8, 8);
LIES(salwoerk_depth, trials, 16, 8);
TAKES(salwoerk_moment, 16);
LIES(salwoerk_moment, refusal, 0, 8);
LIES(salwoerk_moment, moment, 8, 8);
TAKES(salwoerk_report, 128);
LIES(salwoerk_report, refusal, 0, 8);
LIES(salwoerk_report, u, 8, 8);
LIES(salwoerk_report, mrd, 16, 8);
LIES(salwoerk_report, other_u, 24, 8);
LIES(salwoerk_report, other_mrd, 32, 8);
LIES(salwoerk_report, vrd, 40, 8);
LIES(salwoerk_report, dm, 48, 8);
LIES(salwoerk_report, area, 56, 8);
LIES(salwoerk_report, cotangent, 64, 8);
LIES(salwoerk_report, link_resistance, 72, 8);
LIES(salwoerk_report, verdicts, 80, 48);
TAKES(salwoerk_reading, 240);
LIES(salwoerk_reading, refusal, 0, 8);
LIES(salwoerk_reading, length, 8, 8);
LIES(salwoerk_reading, section, 16, 200);
LIES(salwoerk_reading, load, 216, 24);
TAKES(salwoerk_written, 16);
LIES(salwoerk_written, refusal, 0, 8);
LIES(salwoerk_written, length, 8, 8);

_Static_assert(SALWOERK_VERSION == 60200, "6.2.0");
_Static_assert(SALWOERK_MOST_TRIALS == 15, "20,000 candidates, halved and rounded up, are one after 15 trials");
_Static_assert(SALWOERK_RECORD_ROOM == 212, "a map, seven numbers, the links, sixteen layers, the situation and alpha_cc");
_Static_assert(SALWOERK_RECOMMENDED_ALPHA_CC == 100, "the recommended value of 3.1.6(1) is 1.0");

/* ---- the calls */
static int passed, failed;

static void require(const char *what, int holds)
{
    if (holds) {
        passed++;
    } else {
        failed++;
        printf("FAILS %s\n", what);
    }
}

static salwoerk_section section_a(void)
{
    salwoerk_section a = SALWOERK_SECTION_INIT;
    a.width = 300;
    a.height = 500;
    a.grade.fck = 30;
    a.grade.fyk = 500;
    a.count = 1;
    a.layers[0].depth = 450;
    a.layers[0].area = 1500;
    return a;
}

static salwoerk_section linked_a(uint32_t area, uint32_t spacing)
{
    salwoerk_section a = section_a();
    a.links.present = 1;
    a.links.area = area;
    a.links.spacing = spacing;
    return a;
}

static salwoerk_section a_in(int64_t situation)
{
    salwoerk_section a = section_a();
    a.grade.situation = situation;
    return a;
}

static salwoerk_section a_by(int64_t alpha_cc)
{
    salwoerk_section a = section_a();
    a.grade.alpha_cc = alpha_cc;
    return a;
}

/* Sixteen layers, and no two numbers alike; the links are there for whoever sets present. */
static salwoerk_section distinct_section(void)
{
    salwoerk_section s = section_a();
    s.width = 1301;
    s.height = 1702;
    s.grade.fck = 35;
    s.grade.fyk = 503;
    s.grade.situation = SALWOERK_ACCIDENTAL;
    s.grade.alpha_cc = 87;
    s.links.area = 907;
    s.links.spacing = 311;
    s.count = SALWOERK_LAYERS;
    for (uint32_t i = 0; i < SALWOERK_LAYERS; i++) {
        s.layers[i].depth = 101 + 7 * i;
        s.layers[i].area = 2003 + 11 * i;
    }
    return s;
}

static const salwoerk_load distinct_load = { -601, 700001, -80003 };

static uint8_t *put(uint8_t *at, uint64_t number, int bytes)
{
    for (int i = bytes - 1; i >= 0; i--) *at++ = (uint8_t)(number >> 8 * i);
    return at;
}

/* Map and fields of a record, its layers as they stand, written here by the scope document and requests 3, 8 and 10 alone; its length. */
static size_t record_of(uint32_t map, const salwoerk_section *s, salwoerk_load load, uint8_t *bytes)
{
    int64_t fields[] = { s->width, s->height, s->grade.fck, s->grade.fyk, load.n, load.m, load.v };
    uint8_t *at = put(bytes, map, 4);
    for (int i = 0; i < 7; i++)
        if (map >> i & 1) at = put(at, (uint64_t)fields[i], 8);
    if (map >> 7 & 1) at = put(put(at, s->links.area, 4), s->links.spacing, 4);
    for (size_t i = 0; i < s->count; i++) at = put(put(at, s->layers[i].depth, 4), s->layers[i].area, 4);
    if (map >> 24 & 1) at = put(at, (uint64_t)s->grade.situation, 8);
    if (map >> 25 & 1) at = put(at, (uint64_t)s->grade.alpha_cc, 8);
    return (size_t)(at - bytes);
}

/* The reading is of these numbers. */
static void require_read(salwoerk_reading r, size_t length, const salwoerk_section *s, salwoerk_load load)
{
    require("read", r.refusal == 0 && r.length == length);
    require("layers", !memcmp(r.section.layers, s->layers, sizeof s->layers) && r.section.count == s->count);
    require("width, height", r.section.width == s->width && r.section.height == s->height);
    require("fck, fyk, situation, alpha_cc", r.section.grade.fck == s->grade.fck && r.section.grade.fyk == s->grade.fyk
        && r.section.grade.situation == s->grade.situation && r.section.grade.alpha_cc == s->grade.alpha_cc);
    require("N, M, V", r.load.n == load.n && r.load.m == load.m && r.load.v == load.v);
    if (s->links.present)
        require("links", r.section.links.present == 1 && r.section.links.area == s->links.area && r.section.links.spacing == s->links.spacing);
    else
        require("no links, and zeros", !r.section.links.present && !r.section.links.area && !r.section.links.spacing);
}

static void round_trip(const salwoerk_section *s, salwoerk_load load, uint32_t map)
{
    uint8_t expected[SALWOERK_RECORD_ROOM], buffer[SALWOERK_RECORD_ROOM + 1];
    size_t length = record_of(map, s, load, expected);
    memset(buffer, 0xA5, sizeof buffer);

    salwoerk_written short_by_one = salwoerk_write(*s, load, buffer, length - 1);
    require("25 for a buffer one byte short", short_by_one.refusal == SALWOERK_SHORT_BUFFER && short_by_one.length == 0 && buffer[0] == 0xA5);
    salwoerk_written written = salwoerk_write(*s, load, buffer, sizeof buffer);
    require("the record's length", written.refusal == 0 && written.length == length);
    require("each field in its place of the record", !memcmp(buffer, expected, length));
    require("no byte beyond the record", buffer[length] == 0xA5);
    require_read(salwoerk_read(buffer, sizeof buffer), length, s, load);
}

/* With N and without links, with links and without N, and with links and a present 0 for N, which is the longest record that is read. `bits` are
 * those of situation and alpha_cc that the writer sets. */
static void records_of(salwoerk_section s, uint32_t bits)
{
    uint8_t longest[SALWOERK_RECORD_ROOM];
    salwoerk_load load = distinct_load;
    s.links.present = 0;
    round_trip(&s, load, 0x00FFFF7F | bits);
    s.links.present = 1;
    load.n = 0;
    round_trip(&s, load, 0x00FFFFEF | bits);
    require("the longest record", record_of(0x03FFFFFF, &s, load, longest) == sizeof longest);
    require_read(salwoerk_read(longest, sizeof longest), sizeof longest, &s, load);
}

/* The accidental situation and an alpha_cc below 100 stand in the record; the persistent one and 100 do not, but are read where they do. */
static void records(void)
{
    salwoerk_section s = distinct_section();
    records_of(s, 0x03000000);
    s.grade.situation = SALWOERK_PERSISTENT;
    records_of(s, 0x02000000);
    s.grade.alpha_cc = SALWOERK_RECOMMENDED_ALPHA_CC;
    records_of(s, 0);
    s.grade.situation = SALWOERK_ACCIDENTAL;
    records_of(s, 0x01000000);
}

static const salwoerk_section zeros; /* static, so 0 in every field, situation and alpha_cc too */

static int all_zeros(const salwoerk_reading *r)
{
    return !memcmp(&r->section, &zeros, sizeof zeros) && !r->load.n && !r->load.m && !r->load.v;
}

static void refused_reading(void)
{
    uint8_t bytes[SALWOERK_RECORD_ROOM];
    salwoerk_section s = distinct_section();
    salwoerk_load load = { 0, 700001, -80003 };
    record_of(0x03FFFFFF, &s, load, bytes);
    salwoerk_reading r = salwoerk_read(bytes, sizeof bytes - 1);
    require("22 and zeros", r.refusal == SALWOERK_CUT_RECORD && r.length == 0 && all_zeros(&r));
    bytes[0] = 4;
    r = salwoerk_read(bytes, sizeof bytes);
    require("21 and zeros", r.refusal == SALWOERK_UNKNOWN_BIT && r.length == 0 && all_zeros(&r));
    s.links.area = 0;
    r = salwoerk_read(bytes, record_of(0x03FFFFFF, &s, load, bytes));
    require("27 of a present area of 0, with its length and zeros", r.refusal == SALWOERK_LINK_AREA && r.length == sizeof bytes && all_zeros(&r));
    s.grade.alpha_cc = 0;
    r = salwoerk_read(bytes, record_of(0x03FFFFFF, &s, load, bytes));
    require("34 of a present 0, with its length and zeros", r.refusal == SALWOERK_ALPHA_CC && r.length == sizeof bytes && all_zeros(&r));
    s.grade.situation = 0;
    r = salwoerk_read(bytes, record_of(0x03FFFFFF, &s, load, bytes));
    require("32 of a present 0, with its length and zeros", r.refusal == SALWOERK_SITUATION && r.length == sizeof bytes && all_zeros(&r));
    s.width = 49;
    r = salwoerk_read(bytes, record_of(0x03FFFFFF, &s, load, bytes));
    require("1 with its length and zeros", r.refusal == SALWOERK_WIDTH && r.length == sizeof bytes && all_zeros(&r));
}

/* The section with layer i in place of layer order[i]. */
static salwoerk_section rearranged(const salwoerk_section *s, const size_t *order)
{
    salwoerk_section moved = *s;
    for (size_t i = 0; i < s->count; i++) moved.layers[order[i]] = s->layers[i];
    return moved;
}

/* Sixteen layers, of which four are equal and four more of one depth: whatever their sequence, the bytes are those of the layers by rising depth, and
 * equal depths by rising area, and so they are read back. */
static void sequence_written(void)
{
    static const size_t orders[][SALWOERK_LAYERS] = {
        { 15, 14, 13, 12, 11, 10, 9, 8, 7, 6, 5, 4, 3, 2, 1, 0 }, { 8, 9, 10, 11, 12, 13, 14, 15, 0, 1, 2, 3, 4, 5, 6, 7 },
        { 0, 8, 1, 9, 2, 10, 3, 11, 4, 12, 5, 13, 6, 14, 7, 15 }, { 0, 1, 2, 3, 4, 5, 6, 7, 8, 9, 10, 11, 12, 13, 15, 14 },
        { 1, 0, 2, 3, 4, 5, 6, 7, 8, 9, 10, 11, 12, 13, 14, 15 },
    };
    salwoerk_section s = distinct_section();
    for (size_t i = 4; i < 8; i++) s.layers[i] = s.layers[4];
    for (size_t i = 8; i < 12; i++) s.layers[i].depth = s.layers[8].depth;
    for (size_t i = 0; i < sizeof orders / sizeof *orders; i++) {
        uint8_t expected[SALWOERK_RECORD_ROOM], buffer[SALWOERK_RECORD_ROOM];
        salwoerk_section moved = rearranged(&s, orders[i]);
        size_t length = record_of(0x03FFFF7F, &s, distinct_load, expected);
        salwoerk_written written = salwoerk_write(moved, distinct_load, buffer, sizeof buffer);
        require("one sequence of layers on disk", written.refusal == 0 && written.length == length && !memcmp(buffer, expected, length));
        require_read(salwoerk_read(buffer, length), length, &s, distinct_load);
    }
}

/* A second layer after 450/1500, at each side of its bounds; 31 has the length and zeros. */
static void sequence_read(void)
{
    static const struct { uint32_t depth, area; int64_t n; uint64_t refusal; } cases[] = {
        { 450, 1500, 0, 0 }, { 450, 1501, 0, 0 }, { 451, 1499, 0, 0 }, { 450, 1499, 0, SALWOERK_LAYER_SEQUENCE }, { 449, 1501, 0, SALWOERK_LAYER_SEQUENCE },
        { 50, 600, 0, SALWOERK_LAYER_SEQUENCE }, { 0, 600, 0, SALWOERK_LAYER_DEPTH }, { 50, 0, 0, SALWOERK_LAYER_AREA },
        { 450, 1500, 500000001, SALWOERK_AXIAL_FORCE }, { 50, 600, 500000001, SALWOERK_LAYER_SEQUENCE },
    };
    for (size_t i = 0; i < sizeof cases / sizeof *cases; i++) {
        uint8_t record[SALWOERK_RECORD_ROOM];
        salwoerk_load load = { cases[i].n, 0, 0 };
        salwoerk_section a = section_a();
        a.count = 2;
        a.layers[1].depth = cases[i].depth;
        a.layers[1].area = cases[i].area;
        salwoerk_reading r = salwoerk_read(record, record_of(0x0000031F, &a, load, record));
        require("31, where it stands", r.refusal == cases[i].refusal && r.length == 60 && all_zeros(&r) == (cases[i].refusal != 0));
        require("by value any sequence", salwoerk_check(a, load).refusal != SALWOERK_LAYER_SEQUENCE);
    }
}

/* A record with 31 has its line, and the list goes on. */
static void sequence_in_a_list(void)
{
    static const char lines[] = "1 31 0 0 0 0 0 2 2 2 2 2 2\n2 0 1358 257986051 86851 450 1500 0 0 0 0 0 2\n";
    uint8_t records[2 * SALWOERK_RECORD_ROOM], text[SALWOERK_LIST_ROOM(sizeof records)];
    salwoerk_section a = section_a(), two = section_a();
    salwoerk_load load = { 0, 200000000, 80000 };
    two.count = 2;
    two.layers[1].depth = 50;
    two.layers[1].area = 600;
    size_t length = record_of(0x0000036F, &two, load, records);
    length += record_of(0x0000016F, &a, load, records + length);
    salwoerk_written w = salwoerk_list(records, length, text, sizeof text);
    require("a list goes on after 31", w.refusal == 0 && w.length == sizeof lines - 1 && !memcmp(text, lines, sizeof lines - 1));
}

static void answers(void)
{
    salwoerk_load load = { 0, 200000000, 80000 }, over = { 0, 257986052, 86851 };
    salwoerk_depth depth = salwoerk_find_depth(section_a(), 0);
    require("Find a depth", depth.refusal == 0 && depth.depth == 1358 && depth.trials == 12);
    salwoerk_moment moment = salwoerk_moment_at(section_a(), 1358);
    require("Moment at a depth", moment.refusal == 0 && moment.moment == 257986051);
    moment = salwoerk_moment_at(section_a(), 0);
    require("Moment at a depth, 13", moment.refusal == SALWOERK_DEPTH && moment.moment == 0);

    salwoerk_report r = salwoerk_check(section_a(), load);
    require("Check", r.refusal == 0 && r.u == 1358 && r.mrd == 257986051 && r.vrd == 86851 && r.dm == 450 && r.area == 1500);
    require("Check, the other face", r.other_u == 419 && r.other_mrd == 6312569);
    r = salwoerk_check(section_a(), over);
    require("verdict one fails alone", r.verdicts[0] == SALWOERK_FAIL && !r.verdicts[1] && !r.verdicts[2] && !r.verdicts[3] && !r.verdicts[4]);
    require("verdict six is not reached without links", r.verdicts[5] == SALWOERK_NOT_REACHED && !r.cotangent && !r.link_resistance);
    load.n = 2505000;
    r = salwoerk_check(section_a(), load);
    require("verdicts two to four are not reached", r.verdicts[0] == SALWOERK_FAIL && r.verdicts[1] == SALWOERK_NOT_REACHED
        && r.verdicts[2] == SALWOERK_NOT_REACHED && r.verdicts[3] == SALWOERK_NOT_REACHED && r.verdicts[4] == SALWOERK_PASS);
    load.n = 500000001;
    r = salwoerk_check(section_a(), load);
    require("a refusal has zeros", r.refusal == SALWOERK_AXIAL_FORCE && !r.u && !r.mrd && !r.other_u && !r.other_mrd && !r.vrd && !r.dm
        && !r.area && !r.cotangent && !r.link_resistance);
    for (size_t i = 0; i < SALWOERK_VERDICTS; i++) require("and verdicts 2", r.verdicts[i] == SALWOERK_NOT_REACHED);
}

/* Section A hung on its one layer stands for M from 130,314,020 to 130,553,980 only. */
static void both_faces(void)
{
    static const struct { int64_t m; uint64_t verdict; } ends[] = {
        { 0, SALWOERK_FAIL }, { 130314019, SALWOERK_FAIL }, { 130314020, SALWOERK_PASS }, { 130553980, SALWOERK_PASS }, { 130553981, SALWOERK_FAIL },
    };
    salwoerk_load load = { -651690, 0, 0 };
    for (size_t i = 0; i < sizeof ends / sizeof *ends; i++) {
        load.m = ends[i].m;
        salwoerk_report r = salwoerk_check(section_a(), load);
        require("verdict one of both faces", r.refusal == 0 && r.verdicts[0] == ends[i].verdict && r.u == 1 && r.other_u == 1
            && r.mrd == 130553980 && r.other_mrd == -130314020);
    }
    load.n = 0;
    load.m = -1;
    salwoerk_report turned = salwoerk_check(section_a(), load);
    require("the bottom shown, the top other", turned.u == 419 && turned.mrd == 6312569 && turned.other_u == 1358 && turned.other_mrd == 257986051);
    load.n = 3441001; /* the bottom reaches it, the top does not */
    turned = salwoerk_check(section_a(), load);
    require("12 of the other face, and zeros", turned.refusal == SALWOERK_ABOVE_RANGE && !turned.u && !turned.mrd && !turned.other_u
        && !turned.other_mrd);
}

/* Section A with its layer at 50: A turned over by hand. */
static salwoerk_section a_turned(void)
{
    salwoerk_section a = section_a();
    a.layers[0].depth = 50;
    return a;
}

/* Find a depth up to 10h, beyond, and above every force: that of A rises up to 30h, that of A turned over is greatest at 6,250. */
static void depths_beyond(void)
{
    static const struct { int turned; int64_t n; uint64_t refusal, depth; int beyond; } cases[] = {
        { 0, 2505000, SALWOERK_ACCEPTED, 5000, 0 }, { 0, 2505001, SALWOERK_ACCEPTED, 5001, 1 }, { 0, 2505647, SALWOERK_ACCEPTED, 5001, 1 },
        { 0, 2505648, SALWOERK_ACCEPTED, 5002, 1 }, { 0, 3441000, SALWOERK_ACCEPTED, 15000, 1 }, { 0, 3441001, SALWOERK_ABOVE_RANGE, 0, 0 },
        { 0, 500000000, SALWOERK_ABOVE_RANGE, 0, 0 }, { 1, 3052170, SALWOERK_ACCEPTED, 5000, 0 }, { 1, 3052171, SALWOERK_ACCEPTED, 5001, 1 },
        { 1, 3609001, SALWOERK_ACCEPTED, 6161, 1 }, /* more than the force at 30h */
        { 1, 3652170, SALWOERK_ACCEPTED, 6250, 1 }, { 1, 3652171, SALWOERK_ABOVE_RANGE, 0, 0 },
    };
    for (size_t i = 0; i < sizeof cases / sizeof *cases; i++) {
        salwoerk_section a = cases[i].turned ? a_turned() : section_a();
        salwoerk_depth depth = salwoerk_find_depth(a, cases[i].n);
        require("Find a depth beyond 10h", depth.refusal == cases[i].refusal && depth.depth == cases[i].depth);
        require("the kind of depth", salwoerk_is_beyond(a.height, depth.depth) == cases[i].beyond);
        require("trials up to 10h alone", depth.trials == (depth.depth == 5000 ? 13 : 0));
    }
}

/* How many trials the halving rule takes (request 12): of A, of a section of 50 mm and of A made 2,000 mm high, at both ends of 1 to 10h and about
 * the first mean. To 1 every trial is dropped and to 10h every one is kept: 10h, halved and rounded down, or up, is one after so many. */
static void trials(void)
{
    static const struct { int64_t height, n; uint64_t refusal, depth, trials; } cases[] = {
        { 500, -651691, SALWOERK_BELOW_RANGE, 0, 0 }, { 500, -651690, SALWOERK_ACCEPTED, 1, 12 }, { 500, 0, SALWOERK_ACCEPTED, 1358, 12 },
        { 500, 2505000, SALWOERK_ACCEPTED, 5000, 13 }, { 500, 2505001, SALWOERK_ACCEPTED, 5001, 0 }, { 500, 3441001, SALWOERK_ABOVE_RANGE, 0, 0 },
        { 50, -59333, SALWOERK_BELOW_RANGE, 0, 0 }, { 50, -59332, SALWOERK_ACCEPTED, 1, 8 }, { 50, 35963, SALWOERK_ACCEPTED, 250, 9 },
        { 50, 35964, SALWOERK_ACCEPTED, 251, 8 }, { 50, 148977, SALWOERK_ACCEPTED, 500, 9 }, { 50, 148978, SALWOERK_ACCEPTED, 501, 0 },
        { 2000, -651690, SALWOERK_ACCEPTED, 1, 14 }, { 2000, 4148309, SALWOERK_ACCEPTED, 10000, 15 }, { 2000, 4148310, SALWOERK_ACCEPTED, 10001, 14 },
        { 2000, 9626250, SALWOERK_ACCEPTED, 20000, SALWOERK_MOST_TRIALS }, { 2000, 9626251, SALWOERK_ACCEPTED, 20001, 0 },
    };
    salwoerk_section low = section_a(), tall = section_a();
    low.width = 75;
    low.height = 50;
    low.grade.fck = 90;
    low.grade.fyk = 463;
    low.count = 2;
    low.layers[0] = (salwoerk_layer){ 7, 37 };
    low.layers[1] = (salwoerk_layer){ 43, 111 };
    tall.height = 2000;
    tall.layers[0].depth = 1950;
    for (size_t i = 0; i < sizeof cases / sizeof *cases; i++) {
        salwoerk_depth d = salwoerk_find_depth(cases[i].height == 50 ? low : cases[i].height == 2000 ? tall : section_a(), cases[i].n);
        require("the trials to a depth", d.refusal == cases[i].refusal && d.depth == cases[i].depth && d.trials == cases[i].trials);
    }
}

/* Moment at a depth at both ends of 1 to 10h and of 10h + 1 to 30h. */
static void moments_beyond(void)
{
    static const struct { int turned; uint64_t depth, refusal; int64_t moment; } cases[] = {
        { 0, 5000, SALWOERK_ACCEPTED, 99000000 }, { 0, 5001, SALWOERK_ACCEPTED, 98894393 }, { 0, 15000, SALWOERK_ACCEPTED, -88200000 },
        { 0, 15001, SALWOERK_DEPTH, 0 }, { 0, UINT64_MAX, SALWOERK_DEPTH, 0 }, { 1, 5000, SALWOERK_ACCEPTED, 250434000 },
        { 1, 5001, SALWOERK_ACCEPTED, 250361980 }, { 1, 5811, SALWOERK_ACCEPTED, 179413756 }, { 1, 6250, SALWOERK_ACCEPTED, 130434000 },
        { 1, 15000, SALWOERK_ACCEPTED, 121800000 }, { 1, 15001, SALWOERK_DEPTH, 0 },
    };
    for (size_t i = 0; i < sizeof cases / sizeof *cases; i++) {
        salwoerk_moment moment = salwoerk_moment_at(cases[i].turned ? a_turned() : section_a(), cases[i].depth);
        require("Moment at a depth beyond 10h", moment.refusal == cases[i].refusal && moment.moment == cases[i].moment);
    }
}

/* The moment of A at 30h, where the block fills the section: the layer's alone, by the eps_c3 and eps_cu3 of each class. */
static void classes_beyond(void)
{
    static const struct { int64_t fck, moment; } classes[] = {
        { 12, -88200000 }, { 16, -88200000 }, { 20, -88200000 }, { 25, -88200000 }, { 30, -88200000 }, { 35, -88200000 }, { 40, -88200000 },
        { 45, -88200000 }, { 50, -88200000 }, { 55, -87885000 }, { 60, -90163637 }, { 70, -91945946 }, { 80, -97394595 }, { 90, -100464000 },
    };
    for (size_t i = 0; i < sizeof classes / sizeof *classes; i++) {
        salwoerk_section a = section_a();
        a.grade.fck = classes[i].fck;
        require("the strains of a class", salwoerk_moment_at(a, 15000).moment == classes[i].moment);
    }
}

/* No layer is in tension: what is of the tension layers is 0 and 2. */
static int is_pressed(const salwoerk_report *r)
{
    return !r->vrd && !r->dm && !r->area && !r->cotangent && !r->link_resistance && r->verdicts[1] == SALWOERK_NOT_REACHED
        && r->verdicts[2] == SALWOERK_NOT_REACHED && r->verdicts[3] == SALWOERK_NOT_REACHED && r->verdicts[4] == SALWOERK_PASS
        && r->verdicts[5] == SALWOERK_NOT_REACHED;
}

/* Check of A where both faces are beyond 10h: it stands for M from -179,413,756 to -88,200,000 only, and above this N for none. */
static void check_beyond(void)
{
    static const struct { int64_t m; uint64_t verdict; } ends[] = {
        { 0, SALWOERK_FAIL }, { 1, SALWOERK_FAIL }, { -1, SALWOERK_FAIL }, { -88199999, SALWOERK_FAIL }, { -88200000, SALWOERK_PASS },
        { -179413756, SALWOERK_PASS }, { -179413757, SALWOERK_FAIL },
    };
    salwoerk_load load = { 3441000, 0, 1 };
    for (size_t i = 0; i < sizeof ends / sizeof *ends; i++) {
        load.m = ends[i].m;
        salwoerk_report r = salwoerk_check(section_a(), load);
        require("both faces beyond 10h", r.refusal == 0 && (load.m < 0
            ? r.u == 5811 && r.mrd == 179413756 && r.other_u == 15000 && r.other_mrd == -88200000
            : r.u == 15000 && r.mrd == -88200000 && r.other_u == 5811 && r.other_mrd == 179413756));
        require("verdict one beyond 10h", r.verdicts[0] == ends[i].verdict);
        require("no tension layer beyond 10h", is_pressed(&r));
    }
}

/* 12 of Check where only the bottom of A, or only the top of A turned over, reaches N. */
static void above_one_face(void)
{
    salwoerk_load load = { 3441001, 0, 0 };
    for (load.m = -1; load.m <= 1; load.m++)
        for (int turned = 0; turned < 2; turned++) {
            salwoerk_report r = salwoerk_check(turned ? a_turned() : section_a(), load);
            require("12 for every sign of M, and zeros", r.refusal == SALWOERK_ABOVE_RANGE && !r.u && !r.mrd && !r.other_u && !r.other_mrd);
            for (size_t i = 0; i < SALWOERK_VERDICTS; i++) require("and verdicts 2", r.verdicts[i] == SALWOERK_NOT_REACHED);
        }
}

/* A symmetric column: from 10,344 on its layers would carry the same together at every depth, were not the force of each rounded down. */
static void rounded_parts(void)
{
    salwoerk_section s = section_a();
    s.count = 2;
    s.layers[0].depth = 60;
    s.layers[1].depth = 440;
    s.layers[0].area = s.layers[1].area = 1473;
    require("one newton less is reached where they begin", salwoerk_find_depth(s, 4031099).depth == 10344);
    require("all of it where both are whole", salwoerk_find_depth(s, 4031100).depth == 10480);
    require("and no more", salwoerk_find_depth(s, 4031101).refusal == SALWOERK_ABOVE_RANGE);
    salwoerk_load load = { 4031100, 0, 0 };
    salwoerk_report r = salwoerk_check(s, load);
    require("both faces alike", r.refusal == 0 && r.u == 10480 && r.mrd == 46645000 && r.other_u == 10480 && r.other_mrd == 46645000
        && is_pressed(&r));
}

/* Check of A where the top is beyond 10h and the bottom is not. */
static void one_face_beyond(void)
{
    salwoerk_load load = { 2505000, 0, 0 };
    salwoerk_report r = salwoerk_check(section_a(), load);
    require("the top at 10h", r.refusal == 0 && r.u == 5000 && r.mrd == 99000000 && r.other_u == 3860 && r.other_mrd == 307561680 && is_pressed(&r));
    load.n = 2505001;
    r = salwoerk_check(section_a(), load);
    require("the top beyond", r.refusal == 0 && r.u == 5001 && r.mrd == 98894393 && r.other_u == 3860 && r.other_mrd == 307561680 && is_pressed(&r));
    load.m = -1;
    r = salwoerk_check(section_a(), load);
    require("the bottom shown", r.refusal == 0 && r.u == 3860 && r.mrd == 307561680 && r.other_u == 5001 && r.other_mrd == 98894393);
    require("kinds of depths", !salwoerk_is_beyond(500, r.u) && salwoerk_is_beyond(500, r.other_u));
}

/* Also of no accepted section: a depth of 0 is never beyond. */
static void kinds_of_depths(void)
{
    static const int64_t heights[] = { 50, 500, 2000, 0, -1, INT64_MIN, INT64_MAX };
    for (size_t i = 0; i < sizeof heights / sizeof *heights; i++) require("0 is no depth beyond", salwoerk_is_beyond(heights[i], 0) == 0);
    require("10h is not beyond", salwoerk_is_beyond(50, 500) == 0 && salwoerk_is_beyond(2000, 20000) == 0);
    require("10h + 1 is", salwoerk_is_beyond(50, 501) == 1 && salwoerk_is_beyond(2000, 20001) == 1);
    require("30h is", salwoerk_is_beyond(50, 1500) == 1 && salwoerk_is_beyond(2000, 60000) == 1);
}

/* The initializer is persistent, has the recommended alpha_cc, and is 0 in every other field. */
static void initializer(void)
{
    salwoerk_section a = SALWOERK_SECTION_INIT;
    require("the initializer is persistent", a.grade.situation == SALWOERK_PERSISTENT);
    require("and has the recommended alpha_cc", a.grade.alpha_cc == SALWOERK_RECOMMENDED_ALPHA_CC);
    a.grade.situation = a.grade.alpha_cc = 0;
    require("and else zeros", !memcmp(&a, &zeros, sizeof a));
}

/* Section A with links of 101 mm2 every 200 mm and the factors 1.2 and 1.0. */
static void accidental(void)
{
    salwoerk_section a = linked_a(101, 200);
    salwoerk_load load = { 0, 200000000, 80000 };
    a.grade.situation = SALWOERK_ACCIDENTAL;
    require("Find a depth, accidental", salwoerk_find_depth(a, 0).depth == 1250);
    require("Moment at a depth, accidental", salwoerk_moment_at(a, 1250).moment == 300000000);
    salwoerk_report r = salwoerk_check(a, load);
    require("Check, accidental", r.refusal == 0 && r.u == 1250 && r.mrd == 300000000 && r.vrd == 108564 && r.dm == 450 && r.area == 1500);
    require("Check, the other face, accidental", r.other_u == 405 && r.other_mrd == 7554140);
    require("cotangent and link resistance, accidental", r.cotangent == 25 && r.link_resistance == 255656);
    for (size_t i = 0; i < SALWOERK_VERDICTS; i++) require("six passes", r.verdicts[i] == SALWOERK_PASS);
    load.m = 300000001;
    load.v = -108565;
    r = salwoerk_check(a, load);
    require("one and three fail beyond", r.verdicts[0] == SALWOERK_FAIL && r.verdicts[2] == SALWOERK_FAIL && r.verdicts[5] == SALWOERK_PASS);
}

/* Section A with alpha_cc 0.85: concrete and strut have less strength, steel, links and CRd,c have the same. */
static void reduced(void)
{
    salwoerk_section a = a_by(85);
    salwoerk_load load = { 0, 200000000, 80000 };
    require("Find a depth, 0.85", salwoerk_find_depth(a, 0).depth == 1598);
    require("Moment at a depth, 0.85", salwoerk_moment_at(a, 1598).moment == 251755182);
    salwoerk_report r = salwoerk_check(a, load);
    require("Check, 0.85", r.refusal == 0 && r.u == 1598 && r.mrd == 251755182 && r.vrd == 86851 && r.dm == 450 && r.area == 1500);
    require("Check, the other face, 0.85", r.other_u == 428 && r.other_mrd == 5339334);
    load.m = 251755183;
    require("verdict one fails beyond", salwoerk_check(a, load).verdicts[0] == SALWOERK_FAIL);
    load.m = 200000000;
    a.links = linked_a(101, 200).links;
    r = salwoerk_check(a, load);
    require("the links alone, 0.85", r.cotangent == 25 && r.link_resistance == 222308 && r.verdicts[5] == SALWOERK_PASS);
    a.links = linked_a(200, 100).links;
    r = salwoerk_check(a, load);
    require("links and strut, 0.85", r.cotangent == 15 && r.link_resistance == 503346 && r.verdicts[5] == SALWOERK_PASS);
    a.grade.situation = SALWOERK_ACCIDENTAL;
    r = salwoerk_check(a, load);
    require("Check, 0.85 and accidental", r.refusal == 0 && r.u == 1470 && r.mrd == 293342640 && r.vrd == 108564 && r.other_u == 415
        && r.other_mrd == 6387061);
}

/* Every call that takes a section answers 32, 34 or, where `refusal` is 0, none; `bit` is that of the field in question. */
static void require_refusal(salwoerk_section a, uint32_t bit, uint64_t refusal)
{
    uint8_t record[SALWOERK_RECORD_ROOM];
    salwoerk_load load = { 0, 1, 0 };
    int zero = refusal != 0;
    salwoerk_depth depth = salwoerk_find_depth(a, 0);
    require("Find a depth: refusal, and depth and trials 0 with it", depth.refusal == refusal && (depth.depth == 0) == zero
        && (depth.trials == 0) == zero);
    salwoerk_moment moment = salwoerk_moment_at(a, 1250);
    require("Moment at a depth: refusal, and moment 0 with it", moment.refusal == refusal && (moment.moment == 0) == zero);
    salwoerk_report r = salwoerk_check(a, load);
    require("Check: refusal, and zeros with it", r.refusal == refusal && (r.u == 0) == zero && (r.mrd == 0) == zero && (r.vrd == 0) == zero);
    salwoerk_written written = salwoerk_write(a, load, record, sizeof record);
    require("Write: refusal, and length 0 with it", written.refusal == refusal && (written.length == 0) == zero);
    salwoerk_reading reading = salwoerk_read(record, record_of(0x0000012F | bit, &a, load, record));
    require("Read: refusal, and the length in any case", reading.refusal == refusal && reading.length == 60);
    require("Read: zeros with a refusal", all_zeros(&reading) == zero);
}

/* 32, after 4 and before 34 and 5. */
static void refused_situations(void)
{
    static const struct { int64_t situation; uint64_t refusal; } cases[] = {
        { 0, SALWOERK_SITUATION }, { 1, SALWOERK_ACCEPTED }, { 2, SALWOERK_ACCEPTED }, { 3, SALWOERK_SITUATION }, { -1, SALWOERK_SITUATION },
        { 257, SALWOERK_SITUATION }, { 0x100000002, SALWOERK_SITUATION }, { INT64_MIN, SALWOERK_SITUATION }, { INT64_MAX, SALWOERK_SITUATION },
    };
    for (size_t i = 0; i < sizeof cases / sizeof *cases; i++) require_refusal(a_in(cases[i].situation), 0x01000000, cases[i].refusal);
    salwoerk_section none = a_in(0);
    salwoerk_load load = { 0, 1, 0 };
    none.count = 0;
    require("32 before 5", salwoerk_check(none, load).refusal == SALWOERK_SITUATION);
    none.grade.alpha_cc = 0;
    require("32 before 34", salwoerk_check(none, load).refusal == SALWOERK_SITUATION);
    none.grade.fyk = 601;
    require("4 before 32", salwoerk_check(none, load).refusal == SALWOERK_STEEL);
}

/* 34, after 32 and before 5. */
static void refused_factors(void)
{
    static const struct { int64_t alpha_cc; uint64_t refusal; } cases[] = {
        { 79, SALWOERK_ALPHA_CC }, { 80, SALWOERK_ACCEPTED }, { 100, SALWOERK_ACCEPTED }, { 101, SALWOERK_ALPHA_CC }, { 0, SALWOERK_ALPHA_CC },
        { 1, SALWOERK_ALPHA_CC }, { -85, SALWOERK_ALPHA_CC }, { 341, SALWOERK_ALPHA_CC }, { 0x100000055, SALWOERK_ALPHA_CC },
        { INT64_MIN, SALWOERK_ALPHA_CC }, { INT64_MAX, SALWOERK_ALPHA_CC },
    };
    for (size_t i = 0; i < sizeof cases / sizeof *cases; i++) require_refusal(a_by(cases[i].alpha_cc), 0x02000000, cases[i].refusal);
    salwoerk_section none = a_by(0);
    salwoerk_load load = { 0, 1, 0 };
    none.count = 0;
    require("34 before 5", salwoerk_check(none, load).refusal == SALWOERK_ALPHA_CC);
}

/* Section A with links: the cotangent in tenths, the resistance, and verdict six at the turn of each of its three conditions. */
static void links(void)
{
    static const struct { uint32_t area, spacing; int64_t v; uint64_t cotangent, resistance, verdict; } cases[] = {
        { 101, 200, 80000, 25, 222308, SALWOERK_PASS }, { 500, 50, 80000, 10, 641520, SALWOERK_PASS }, { 200, 100, 80000, 16, 563474, SALWOERK_PASS },
        { 101, 200, 222308, 25, 222308, SALWOERK_PASS }, { 101, 200, -222308, 25, 222308, SALWOERK_PASS },
        { 101, 200, 222309, 25, 222308, SALWOERK_FAIL }, { 101, 200, -222309, 25, 222308, SALWOERK_FAIL },
        { 101, 337, 80000, 25, 131933, SALWOERK_PASS }, { 101, 338, 80000, 25, 131543, SALWOERK_FAIL }, /* 0.75 dm is 337.5 */
        { 53, 200, 80000, 25, 116656, SALWOERK_PASS }, { 52, 200, 80000, 25, 114455, SALWOERK_FAIL },   /* the least ratio */
    };
    for (size_t i = 0; i < sizeof cases / sizeof *cases; i++) {
        salwoerk_load load = { 0, 200000000, cases[i].v };
        salwoerk_report r = salwoerk_check(linked_a(cases[i].area, cases[i].spacing), load);
        require("cotangent and link resistance", r.refusal == 0 && r.cotangent == cases[i].cotangent && r.link_resistance == cases[i].resistance);
        require("verdict six", r.verdicts[5] == cases[i].verdict);
        require("the rest as without links", r.u == 1358 && r.mrd == 257986051 && r.vrd == 86851 && r.dm == 450 && r.area == 1500
            && r.verdicts[2] == (uint64_t)(cases[i].v > 86851 || cases[i].v < -86851));
    }
}

/* At cotangents 2.3 and 2.4 the lesser resistance is the same: the links' at one, the strut's at the other. */
static void tie(void)
{
    salwoerk_section s = linked_a(312, 365);
    salwoerk_load load = { 0, 1, 0 };
    s.width = 200;
    s.height = 300;
    s.grade.fck = 35;
    s.layers[0].depth = 250;
    salwoerk_report r = salwoerk_check(s, load);
    require("the smallest cotangent on a tie", r.refusal == 0 && r.cotangent == 23 && r.link_resistance == 192327);
}

/* Absent is 0 and no other number; what stands beside it then never matters. */
static void present(void)
{
    static const uint64_t there[] = { 1, 2, 256, 1ull << 32, 1ull << 63, UINT64_MAX };
    salwoerk_load load = { 0, 200000000, 80000 };
    salwoerk_section a = linked_a(101, 200);
    for (size_t i = 0; i < sizeof there / sizeof *there; i++) {
        a.links.present = there[i];
        salwoerk_report r = salwoerk_check(a, load);
        require("links are present", r.refusal == 0 && r.cotangent == 25 && r.verdicts[5] == SALWOERK_PASS);
    }
    a = linked_a(0, UINT32_MAX);
    a.links.present = 0;
    load.n = 1;
    salwoerk_report r = salwoerk_check(a, load);
    require("links are absent", r.refusal == 0 && !r.cotangent && !r.link_resistance && r.verdicts[5] == SALWOERK_NOT_REACHED);
}

/* 27 28 29 in this sequence, after 10 and before 11, in Check, Read and Write; Find a depth and Moment at a depth do not look at links. */
static void refused_links(void)
{
    static const struct { uint32_t area, spacing; int64_t n, v; uint64_t refusal; } cases[] = {
        { 0, 200, 0, 0, SALWOERK_LINK_AREA }, { 1, 200, 0, 0, SALWOERK_ACCEPTED }, { 5000, 200, 0, 0, SALWOERK_ACCEPTED },
        { 5001, 200, 0, 0, SALWOERK_LINK_AREA }, { 101, 24, 0, 0, SALWOERK_LINK_SPACING }, { 101, 25, 0, 0, SALWOERK_ACCEPTED },
        { 101, 1000, 0, 0, SALWOERK_ACCEPTED }, { 101, 1001, 0, 0, SALWOERK_LINK_SPACING }, { 101, 200, 1, 0, SALWOERK_LINKS_WITH_AXIAL_FORCE },
        { 101, 200, -651691, 0, SALWOERK_LINKS_WITH_AXIAL_FORCE }, { 101, 24, 1, 0, SALWOERK_LINK_SPACING }, { 0, 24, 1, 0, SALWOERK_LINK_AREA },
        { 0, 24, 1, 500000001, SALWOERK_SHEAR_FORCE },
    };
    uint8_t record[SALWOERK_RECORD_ROOM];
    for (size_t i = 0; i < sizeof cases / sizeof *cases; i++) {
        salwoerk_section a = linked_a(cases[i].area, cases[i].spacing);
        salwoerk_load load = { cases[i].n, 0, cases[i].v };
        salwoerk_report r = salwoerk_check(a, load);
        require("Check, 27 28 29", r.refusal == cases[i].refusal);
        require("zeros and a 2 where it is refused", !r.refusal || (!r.u && !r.cotangent && !r.link_resistance
            && r.verdicts[5] == SALWOERK_NOT_REACHED));
        require("Write, 27 28 29", salwoerk_write(a, load, record, sizeof record).refusal == cases[i].refusal);
        salwoerk_reading reading = salwoerk_read(record, record_of(0x000001DF, &a, load, record));
        require("Read, 27 28 29, with its length", reading.refusal == cases[i].refusal && reading.length == 68);
        require("zeros where it is refused", !reading.refusal || all_zeros(&reading));
        require("Find a depth without links", salwoerk_find_depth(a, 0).depth == 1358);
        require("Moment at a depth without links", salwoerk_moment_at(a, 1358).moment == 257986051);
    }
}

/* ---- a layer tried (request 9) */

/* The copy that the trial is of, for any of the sixteen places. */
static salwoerk_section altered(salwoerk_section s, size_t place, salwoerk_layer layer)
{
    if (place == s.count) s.count++;
    s.layers[place] = layer;
    return s;
}

/* The trial has the answer of Check for that copy, and what it was handed is as it was. */
static void require_tried(const salwoerk_section *s, salwoerk_load load, size_t place, salwoerk_layer layer)
{
    salwoerk_section in_hand = *s;
    salwoerk_report tried = salwoerk_try_layer(in_hand, load, place, layer), checked = salwoerk_check(altered(*s, place, layer), load);
    require("a trial has Check's answer for the copy", !memcmp(&tried, &checked, sizeof tried));
    require("the section in hand is unchanged", !memcmp(&in_hand, s, sizeof in_hand));
}

static int is_a(const salwoerk_report *r)
{
    return r->refusal == 0 && r->u == 1358 && r->mrd == 257986051 && r->other_u == 419 && r->other_mrd == 6312569 && r->vrd == 86851
        && r->dm == 450 && r->area == 1500;
}

/* Section A from one with another layer and from one with none; and a second layer, added to A and moved. */
static void layer_tried(void)
{
    salwoerk_layer layer = { 450, 1500 }, second = { 50, 400 };
    salwoerk_load load = { 0, 200000000, 80000 };
    salwoerk_section other = section_a(), none = section_a(), two = linked_a(101, 200);
    other.layers[0] = (salwoerk_layer){ 50, 600 };
    none.layers[0] = (salwoerk_layer){ 0, 0 };
    none.count = 0;
    salwoerk_report r = salwoerk_try_layer(other, load, 0, layer);
    require("A by a layer replaced", is_a(&r));
    r = salwoerk_try_layer(none, load, 0, layer);
    require("A by a layer added", is_a(&r));
    require("neither section in hand has it", salwoerk_check(other, load).mrd != 257986051
        && salwoerk_check(none, load).refusal == SALWOERK_LAYER_COUNT);
    r = salwoerk_try_layer(section_a(), load, 1, second);
    require("a second layer", r.refusal == 0 && r.u == 1052 && r.mrd == 264809313 && r.vrd == 86851);
    two.count = 2;
    two.layers[1] = second;
    r = salwoerk_try_layer(two, load, 0, layer);
    require("the links are kept", r.cotangent == 25 && r.link_resistance == 222308 && r.verdicts[5] == SALWOERK_PASS);
    r = salwoerk_try_layer(linked_a(101, 200), load, 1, second);
    require("and where a layer is added", r.cotangent == 25 && r.link_resistance == 222308 && r.verdicts[5] == SALWOERK_PASS);
    for (uint32_t depth = 0; depth <= 500; depth += 25) require_tried(&two, load, 1, (salwoerk_layer){ depth, 1500 });
}

/* Every place, and the one after the last, of zero to sixteen layers of which no two are alike; a layer that is out of range is no refusal where the
 * trial replaces it. */
static void places_tried(void)
{
    salwoerk_section s = distinct_section();
    for (s.count = 0; s.count <= SALWOERK_LAYERS; s.count++)
        for (size_t place = 0; place <= s.count && place < SALWOERK_LAYERS; place++) {
            require_tried(&s, distinct_load, place, (salwoerk_layer){ 1601, 1999 });
            require("accepted", salwoerk_try_layer(s, distinct_load, place, (salwoerk_layer){ 1601, 1999 }).refusal == 0);
        }
    s = distinct_section();
    s.layers[7].depth = 0;
    for (size_t place = 0; place < SALWOERK_LAYERS; place++)
        require("6 but where it is replaced", salwoerk_try_layer(s, distinct_load, place, (salwoerk_layer){ 1601, 1999 }).refusal
            == (place == 7 ? SALWOERK_ACCEPTED : SALWOERK_LAYER_DEPTH));
}

/* A section that was read has its layers by rising depth, so the deepest, typed first, is the last there. */
static void places_after_reading(void)
{
    uint8_t record[SALWOERK_RECORD_ROOM];
    salwoerk_load load = { 0, 200000000, 80000 };
    salwoerk_section typed = altered(section_a(), 1, (salwoerk_layer){ 50, 400 });
    salwoerk_reading read = salwoerk_read(record, salwoerk_write(typed, load, record, sizeof record).length);
    salwoerk_report first = salwoerk_try_layer(typed, load, 0, (salwoerk_layer){ 460, 1500 });
    salwoerk_report last = salwoerk_try_layer(read.section, load, 1, (salwoerk_layer){ 460, 1500 });
    require("a place of the section as it was read", first.refusal == 0 && first.dm == 460 && !memcmp(&first, &last, sizeof first));
}

/* The number, and with it zeros and verdicts 2. */
static int is_refused(const salwoerk_report *r, uint64_t refusal)
{
    salwoerk_report expected = { .refusal = refusal, .verdicts = { 2, 2, 2, 2, 2, 2 } };
    return !memcmp(r, &expected, sizeof expected);
}

/* 33 before every other test; then 5, where it stands in Check's sequence, for more than sixteen layers; then what Check refuses in the copy. */
static void refused_trials(void)
{
    static const struct { size_t count, place; salwoerk_layer layer; int64_t fck, n; uint64_t refusal; } cases[] = {
        { 1, 2, { 450, 1500 }, 30, 0, SALWOERK_LAYER_PLACE }, { 1, SIZE_MAX, { 450, 1500 }, 30, 0, SALWOERK_LAYER_PLACE },
        { 0, 1, { 450, 1500 }, 30, 0, SALWOERK_LAYER_PLACE }, { 15, 16, { 450, 1500 }, 30, 0, SALWOERK_LAYER_PLACE },
        { 16, 17, { 450, 1500 }, 30, 0, SALWOERK_LAYER_PLACE }, { 17, 18, { 450, 1500 }, 30, 0, SALWOERK_LAYER_PLACE },
        { SIZE_MAX - 1, SIZE_MAX, { 450, 1500 }, 30, 0, SALWOERK_LAYER_PLACE }, { 1, 2, { 0, 0 }, 31, 500000001, SALWOERK_LAYER_PLACE },
        { 16, 16, { 450, 1500 }, 30, 0, SALWOERK_LAYER_COUNT }, { 17, 0, { 450, 1500 }, 30, 0, SALWOERK_LAYER_COUNT },
        { 17, 16, { 450, 1500 }, 30, 0, SALWOERK_LAYER_COUNT }, { 17, 17, { 450, 1500 }, 30, 0, SALWOERK_LAYER_COUNT },
        { SIZE_MAX, 0, { 450, 1500 }, 30, 0, SALWOERK_LAYER_COUNT }, { SIZE_MAX, 16, { 450, 1500 }, 30, 0, SALWOERK_LAYER_COUNT },
        { SIZE_MAX, SIZE_MAX - 1, { 450, 1500 }, 30, 0, SALWOERK_LAYER_COUNT }, { SIZE_MAX, SIZE_MAX, { 450, 1500 }, 30, 0, SALWOERK_LAYER_COUNT },
        { 16, 16, { 0, 0 }, 31, 0, SALWOERK_CONCRETE }, { 16, 16, { 0, 0 }, 30, 500000001, SALWOERK_LAYER_COUNT },
        { SIZE_MAX, SIZE_MAX, { 0, 0 }, 31, 0, SALWOERK_CONCRETE }, { 1, 0, { 0, 0 }, 30, 500000001, SALWOERK_LAYER_DEPTH },
        { 1, 1, { 500, 0 }, 30, 500000001, SALWOERK_LAYER_DEPTH }, { 1, 0, { 499, 0 }, 30, 500000001, SALWOERK_LAYER_AREA },
        { 1, 1, { 450, 20001 }, 30, 500000001, SALWOERK_LAYER_AREA }, { 1, 0, { 1, 20000 }, 30, 500000001, SALWOERK_AXIAL_FORCE },
        { 1, 0, { 450, 1500 }, 30, -651691, SALWOERK_BELOW_RANGE }, { 1, 0, { 450, 1500 }, 30, 3441001, SALWOERK_ABOVE_RANGE },
    };
    for (size_t i = 0; i < sizeof cases / sizeof *cases; i++) {
        salwoerk_section a = section_a();
        salwoerk_load load = { cases[i].n, 0, 0 };
        for (size_t k = 1; k < SALWOERK_LAYERS; k++) a.layers[k] = a.layers[0];
        a.count = cases[i].count;
        a.grade.fck = cases[i].fck;
        salwoerk_report r = salwoerk_try_layer(a, load, cases[i].place, cases[i].layer);
        require("a refused trial, zeros and verdicts 2", is_refused(&r, cases[i].refusal));
    }
}

/* The places after the sixteenth would lie over the other fields of the section, from width to count. */
static void no_place_beyond(void)
{
    static const salwoerk_layer layers[] = { { 0, 0 }, { 1, 0 }, { 2, 0 }, { UINT32_MAX, UINT32_MAX } };
    salwoerk_load load = { 0, 0, 0 };
    salwoerk_section s = distinct_section();
    for (size_t place = SALWOERK_LAYERS; place < sizeof s / sizeof *s.layers; place++)
        for (size_t i = 0; i < sizeof layers / sizeof *layers; i++)
            for (s.count = place; s.count <= place + 1; s.count++) {
                salwoerk_report r = salwoerk_try_layer(s, load, place, layers[i]);
                require("5, and no other field is written over", is_refused(&r, SALWOERK_LAYER_COUNT));
            }
}

static void list(void)
{
    static const char line[] = "1 0 1358 257986051 86851 450 1500 0 0 0 0 0 0\n";
    uint8_t record[SALWOERK_RECORD_ROOM], text[SALWOERK_LIST_ROOM(SALWOERK_RECORD_ROOM)];
    salwoerk_load load = { 0, 200000000, 80000 };
    size_t length = salwoerk_write(linked_a(101, 200), load, record, sizeof record).length, room = SALWOERK_LIST_ROOM(length);
    require("the record of 60 bytes, and 8 of links", length == 68);
    memset(text, 0xA5, sizeof text);

    salwoerk_written w = salwoerk_list(record, length, text, room - 1);
    require("25 for a list one byte short", w.refusal == SALWOERK_SHORT_BUFFER && w.length == 0 && text[0] == 0xA5);
    w = salwoerk_list(record, 0, text, SALWOERK_LIST_ROOM(0) - 1);
    require("25 for no room and no record", w.refusal == SALWOERK_SHORT_BUFFER && w.length == 0 && text[0] == 0xA5);
    w = salwoerk_list(record, 0, text, SALWOERK_LIST_ROOM(0));
    require("an empty list is no refusal", w.refusal == 0 && w.length == 0 && text[0] == 0xA5);
    w = salwoerk_list(record, length, text, room);
    require("the list", w.refusal == 0 && w.length == sizeof line - 1 && !memcmp(text, line, sizeof line - 1) && text[sizeof line - 1] == 0xA5);
}

/* Bits 24 and 25 in a list: the lines of an accidental section, of a situation that is none, of one left out, and of alpha_cc 0.85 and 0.79. */
static void grades_in_a_list(void)
{
    static const char lines[] = "1 0 1250 300000000 108564 450 1500 0 0 0 0 0 2\n2 32 0 0 0 0 0 2 2 2 2 2 2\n"
        "3 0 1358 257986051 86851 450 1500 0 0 0 0 0 2\n4 0 1598 251755182 86851 450 1500 0 0 0 0 0 2\n5 34 0 0 0 0 0 2 2 2 2 2 2\n";
    const struct { uint32_t bit; salwoerk_section a; } cases[] = {
        { 0x01000000, a_in(SALWOERK_ACCIDENTAL) }, { 0x01000000, a_in(3) }, { 0, section_a() }, { 0x02000000, a_by(85) }, { 0x02000000, a_by(79) },
    };
    uint8_t records[5 * SALWOERK_RECORD_ROOM], text[SALWOERK_LIST_ROOM(sizeof records)];
    salwoerk_load load = { 0, 200000000, 80000 };
    size_t length = 0;
    for (size_t i = 0; i < sizeof cases / sizeof *cases; i++) length += record_of(0x0000016F | cases[i].bit, &cases[i].a, load, records + length);
    salwoerk_written w = salwoerk_list(records, length, text, sizeof text);
    require("situation and alpha_cc in a list", w.refusal == 0 && w.length == sizeof lines - 1 && !memcmp(text, lines, sizeof lines - 1));
}

/* Depths at 10h and beyond in a list, and 12. */
static void columns_in_a_list(void)
{
    static const char lines[] = "1 0 5000 99000000 0 0 0 0 2 2 2 0 2\n2 0 5001 98894393 0 0 0 0 2 2 2 0 2\n3 0 15000 -88200000 0 0 0 1 2 2 2 0 2\n"
        "4 12 0 0 0 0 0 2 2 2 2 2 2\n";
    static const int64_t forces[] = { 2505000, 2505001, 3441000, 3441001 };
    uint8_t records[4 * SALWOERK_RECORD_ROOM], text[SALWOERK_LIST_ROOM(sizeof records)];
    salwoerk_section a = section_a();
    size_t length = 0;
    for (size_t i = 0; i < sizeof forces / sizeof *forces; i++) {
        salwoerk_load load = { forces[i], 1, 0 };
        length += record_of(0x0000013F, &a, load, records + length);
    }
    salwoerk_written w = salwoerk_list(records, length, text, sizeof text);
    require("columns in a list", w.refusal == 0 && w.length == sizeof lines - 1 && !memcmp(text, lines, sizeof lines - 1));
}

/* Each number has a text of its own, and what is none has the text of none. */
static void texts(void)
{
    static const uint64_t refusals[] = { 0, 1, 2, 3, 4, 5, 6, 7, 8, 9, 10, 11, 12, 13, 20, 21, 22, 23, 25, 26, 27, 28, 29, 31, 32, 33, 34 };
    static const uint64_t none[] = { 14, 19, 24, 30, 35 };
    size_t count = sizeof refusals / sizeof *refusals;
    int alike = 0;
    for (size_t i = 0; i < count; i++) {
        require("a refusal's text", strcmp(salwoerk_refusal_text(refusals[i]), salwoerk_refusal_text(99)));
        for (size_t j = 0; j < i; j++) alike += !strcmp(salwoerk_refusal_text(refusals[i]), salwoerk_refusal_text(refusals[j]));
    }
    require("one text a refusal", !alike);
    for (size_t i = 0; i < sizeof none / sizeof *none; i++)
        require("no refusal 14, 19, 24, 30, 35", salwoerk_refusal_text(none[i]) == salwoerk_refusal_text(99));
    require("Table 3.1 behind 3", !strcmp(salwoerk_refusal_clause(SALWOERK_CONCRETE), "Table 3.1") && !*salwoerk_refusal_clause(SALWOERK_WIDTH));
    require("Table 2.1N behind 32", !strcmp(salwoerk_refusal_clause(SALWOERK_SITUATION), "Table 2.1N"));
    require("3.1.6(1) behind 34", !strcmp(salwoerk_refusal_clause(SALWOERK_ALPHA_CC), "3.1.6(1)"));
    require("verdict one is 6.1", !strcmp(salwoerk_verdict_clause(0), "6.1"));
    require("verdict five is 9.2.1.1(3)", !strcmp(salwoerk_verdict_clause(4), "9.2.1.1(3)") && *salwoerk_verdict_question(4));
    require("verdict six is 6.2.3", !strcmp(salwoerk_verdict_clause(5), "6.2.3") && *salwoerk_verdict_question(5));
    require("no seventh verdict", !*salwoerk_verdict_clause(6) && !*salwoerk_verdict_question(6));
    require("links with N are refused by no clause", !*salwoerk_refusal_clause(SALWOERK_LINKS_WITH_AXIAL_FORCE));
    require("nor is a place", !*salwoerk_refusal_clause(SALWOERK_LAYER_PLACE));
    require("33 in words", !strcmp(salwoerk_refusal_text(SALWOERK_LAYER_PLACE), "place beyond the number of layers"));
    require("bits 7, 24 and 25 are no unknown bits",
        !strcmp(salwoerk_refusal_text(SALWOERK_UNKNOWN_BIT), "one of bits 26 to 31 of the map stands"));
    require("12 and 13 speak of depths up to 30h", strstr(salwoerk_refusal_text(SALWOERK_ABOVE_RANGE), " up to 30h")
        && strstr(salwoerk_refusal_text(SALWOERK_DEPTH), " 1 to 30h"));
    require("verdicts in words", !strcmp(salwoerk_verdict_text(0), "pass") && !strcmp(salwoerk_verdict_text(1), "fail")
        && !strcmp(salwoerk_verdict_text(2), "not reached"));
}

int main(void)
{
    records();
    refused_reading();
    sequence_written();
    sequence_read();
    sequence_in_a_list();
    answers();
    both_faces();
    depths_beyond();
    trials();
    moments_beyond();
    classes_beyond();
    check_beyond();
    above_one_face();
    rounded_parts();
    one_face_beyond();
    kinds_of_depths();
    initializer();
    accidental();
    reduced();
    refused_situations();
    refused_factors();
    links();
    tie();
    present();
    refused_links();
    layer_tried();
    places_tried();
    places_after_reading();
    refused_trials();
    no_place_beyond();
    list();
    grades_in_a_list();
    columns_in_a_list();
    texts();
    printf("%d passed, %d failed\n", passed, failed);
    return failed != 0;
}
