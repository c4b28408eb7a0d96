/* The section engine for C and C++: rectangular reinforced concrete sections by EN 1992-1-1.
 *
 * ./build-library makes libsalwoerk.a and libsalwoerk.so, for x86-64 Linux with glibc.
 *
 * Every call takes any numbers and answers. A refused call answers its number with zeros in every other field and verdicts 2, save the
 * length of a reading where one is named. What the compiler cannot see is yours: a pointer is not NULL and is valid for the length beside it,
 * and the bytes that a call reads must not overlap those that it writes.
 *
 * The calls keep nothing between them, and threads may make them at the same time.
 */
#ifndef SALWOERK_H
#define SALWOERK_H

#include <stddef.h>
#include <stdint.h>

/* Of this header: MAJOR changes where a caller must be compiled again, MINOR where something is added, PATCH else.
 * 6.2.0: salwoerk_try_layer (request 9), and 33, which it alone gives, are new. No struct, no other call and no other answer changed.
 * 6.1.0: a record has its layers by rising depth, and equal depths by rising area (request 6). salwoerk_write puts them so, of whatever sequence it is
 * handed, so that equal sections and loads have equal bytes; salwoerk_read and salwoerk_list refuse a record that has them otherwise with 31, which is
 * new. Archives may hold such records: ./sort-records puts them in sequence. No struct and no signature changed.
 * 6.0.1: what is said of the sequence of layers; nothing else changed.
 * 6.0.0: the answer of salwoerk_find_depth holds after the depth the number of trials of the halving rule (request 12); so whoever calls it must be
 * compiled again. No other struct, no call and no other answer changed.
 * 5.1.0: a depth may be beyond 10h, up to 30h: that of a section compressed over its full height (clause 6.1, request 11), under an N that was refused by
 * 12 before. 12 is now given where no depth up to 30h reaches N, and 13 begins above 30h. No struct and no call changed; but whoever takes every depth
 * to lie in the section, to draw the neutral axis, say, now asks first: salwoerk_is_beyond, which is new.
 * 5.0.0: a grade holds the long-term factor alpha_cc after the situation; so whoever hands over or gets a section must be compiled again, and sets
 * grade.alpha_cc to 100 or to what the national annex has (SALWOERK_SECTION_INIT has 100). 0 is no factor: a section that begins as zeros, or a grade of
 * three numbers, { 30, 500, 1 }, has it, and is refused with 34 once its other fields are set. Bit 25 of a record is no longer refused: it is the factor,
 * and a record may have 212 bytes.
 * 4.0.0: a grade holds the design situation after fyk; so whoever hands over or gets a section must be compiled again, and sets grade.situation to 1
 * (SALWOERK_SECTION_INIT does). 0 is no situation: a section that begins as zeros, or a grade of two numbers, { 30, 500 }, has it, and is refused with 32
 * once its other fields are set. Bit 24 of a record is no longer refused: it is the situation, and a record may have 204 bytes.
 * 3.0.0: a section holds links before count, the answer of salwoerk_check holds cotangent and link_resistance before its verdicts, which are six; so
 * whoever hands over or gets a section or a report must be compiled again, and sets links.present to 0 where there are no links
 * (SALWOERK_SECTION_INIT does). Bit 7 of a record is no longer refused: it is the links. A line of salwoerk_list has a sixth verdict.
 * 2.0.0: verdict one and refusal 12 of salwoerk_check look at both faces, and its answer holds other_u and other_mrd before vrd; so whoever calls
 * it must be compiled again. */
#define SALWOERK_VERSION_MAJOR 6
#define SALWOERK_VERSION_MINOR 2
#define SALWOERK_VERSION_PATCH 0
#define SALWOERK_VERSION (SALWOERK_VERSION_MAJOR * 10000 + SALWOERK_VERSION_MINOR * 100 + SALWOERK_VERSION_PATCH)

#ifdef __cplusplus
extern "C" {
#endif

/* ---- what a call takes */

#define SALWOERK_LAYERS 16
#define SALWOERK_VERDICTS 6

/* A layer of steel: depth from the top face in mm, area in mm2. */
typedef struct { uint32_t depth, area; } salwoerk_layer;

/* The design situation, whose row of Table 2.1N has the partial factors gamma_c and gamma_s: persistent (and transient) 1.5 and 1.15, accidental 1.2
 * and 1.0. Fire is not meant: 2.4.2.4 leaves it to EN 1992-1-2. */
enum salwoerk_situation { SALWOERK_PERSISTENT = 1, SALWOERK_ACCIDENTAL = 2 };

/* alpha_cc of 3.1.6(1), in hundredths: the long-term factor of the concrete strength, fcd = alpha_cc fck / gamma_c. 100 is the recommended value; some
 * national annexes have 85. */
#define SALWOERK_RECOMMENDED_ALPHA_CC 100

/* Strengths of concrete and steel in N/mm2; the situation, one of enum salwoerk_situation; and alpha_cc in hundredths, 80 to 100. */
typedef struct { int64_t fck, fyk, situation, alpha_cc; } salwoerk_grade;

/* Vertical links, of steel as fyk: the area of all legs of one link in mm2, the spacing along the member in mm. `present` 0 means none, and then the
 * other two are never read; any other number means that they are there. */
typedef struct {
    uint64_t present;
    uint32_t area, spacing;
} salwoerk_links;

/* Width and height in mm. Only the first `count` layers are read. They may stand in any sequence: it makes no difference to what salwoerk_find_depth,
 * salwoerk_moment_at and salwoerk_check answer, refusals included (request 2, proved), nor to the bytes that salwoerk_write writes (request 6, proved):
 * a record has them by rising depth, and equal depths by rising area. A place, as salwoerk_try_layer takes it, names a layer in the sequence in which
 * the section holds them: in one that salwoerk_read answers, by rising depth, and equal depths by rising area. */
typedef struct {
    salwoerk_layer layers[SALWOERK_LAYERS];
    int64_t width, height;
    salwoerk_grade grade;
    salwoerk_links links;
    size_t count;
} salwoerk_section;

/* No layers, no links, a persistent situation, the recommended alpha_cc and zeros; a field that is added later has here the value that its absence
 * means. Start every section so:
 *     salwoerk_section a = SALWOERK_SECTION_INIT; */
#define SALWOERK_SECTION_INIT { { { 0, 0 } }, 0, 0, { 0, 0, SALWOERK_PERSISTENT, SALWOERK_RECOMMENDED_ALPHA_CC }, { 0, 0, 0 }, 0 }

/* N and V in newtons, N positive in compression; M in N mm about mid-height, positive where it compresses the top. */
typedef struct { int64_t n, m, v; } salwoerk_load;

/* ---- refusals and verdicts */

/* The `refusal` of an answer is 0 or one of these. The first test of a call's sequence that fails gives it; the sequence stands with the call.
 * The section tests are 1 2 3 4 32 34 5 6 7, the load tests 8 9 10, the link tests 27 28 29, which absent links pass. */
enum salwoerk_refusal {
    SALWOERK_ACCEPTED = 0,
    SALWOERK_WIDTH = 1,
    SALWOERK_HEIGHT = 2,
    SALWOERK_CONCRETE = 3,
    SALWOERK_STEEL = 4,
    SALWOERK_LAYER_COUNT = 5,
    SALWOERK_LAYER_DEPTH = 6,
    SALWOERK_LAYER_AREA = 7,
    SALWOERK_AXIAL_FORCE = 8,
    SALWOERK_BENDING_MOMENT = 9,
    SALWOERK_SHEAR_FORCE = 10,
    SALWOERK_BELOW_RANGE = 11,
    SALWOERK_ABOVE_RANGE = 12,
    SALWOERK_DEPTH = 13,
    SALWOERK_NO_MAP = 20,
    SALWOERK_UNKNOWN_BIT = 21,
    SALWOERK_CUT_RECORD = 22,
    SALWOERK_MISSING_FIELD = 23,
    SALWOERK_SHORT_BUFFER = 25,
    SALWOERK_LONG_INPUT = 26, /* of the list program alone */
    SALWOERK_LINK_AREA = 27,
    SALWOERK_LINK_SPACING = 28,
    SALWOERK_LINKS_WITH_AXIAL_FORCE = 29,
    SALWOERK_LAYER_SEQUENCE = 31, /* only of a record that is read */
    SALWOERK_SITUATION = 32,
    SALWOERK_LAYER_PLACE = 33, /* only of salwoerk_try_layer */
    SALWOERK_ALPHA_CC = 34 /* the refusal; the factor is grade.alpha_cc */
};

static inline const char *salwoerk_refusal_text(uint64_t refusal)
{
    switch (refusal) {
    case SALWOERK_ACCEPTED: return "accepted";
    case SALWOERK_WIDTH: return "width not 50 to 2,000 mm";
    case SALWOERK_HEIGHT: return "height not 50 to 2,000 mm";
    case SALWOERK_CONCRETE: return "fck not in Table 3.1 (12 to 90 N/mm2)";
    case SALWOERK_STEEL: return "fyk not 400 to 600 N/mm2";
    case SALWOERK_LAYER_COUNT: return "number of layers not 1 to 16";
    case SALWOERK_LAYER_DEPTH: return "a layer's depth not 1 to h-1 mm";
    case SALWOERK_LAYER_AREA: return "a layer's area not 1 to 20,000 mm2";
    case SALWOERK_AXIAL_FORCE: return "N beyond 500,000,000 N, either sign";
    case SALWOERK_BENDING_MOMENT: return "M beyond 1,000,000,000,000 N mm, either sign";
    case SALWOERK_SHEAR_FORCE: return "V beyond 500,000,000 N, either sign";
    case SALWOERK_BELOW_RANGE: return "N below the internal force at depth 1";
    case SALWOERK_ABOVE_RANGE: return "no depth up to 30h reaches N; in Check, from the top or from the bottom";
    case SALWOERK_DEPTH: return "depth not 1 to 30h tenths of a millimetre";
    case SALWOERK_NO_MAP: return "fewer than 4 bytes";
    case SALWOERK_UNKNOWN_BIT: return "one of bits 26 to 31 of the map stands";
    case SALWOERK_CUT_RECORD: return "fewer bytes than the map calls for";
    case SALWOERK_MISSING_FIELD: return "one of bits 0 to 3 absent";
    case SALWOERK_SHORT_BUFFER: return "the buffer is too short";
    case SALWOERK_LONG_INPUT: return "more than 65,536 bytes of input";
    case SALWOERK_LINK_AREA: return "link area not 1 to 5,000 mm2";
    case SALWOERK_LINK_SPACING: return "link spacing not 25 to 1,000 mm";
    case SALWOERK_LINKS_WITH_AXIAL_FORCE: return "links with N not 0";
    case SALWOERK_LAYER_SEQUENCE: return "layers of the record not by rising depth, equal depths by rising area";
    case SALWOERK_SITUATION: return "design situation not 1 or 2";
    case SALWOERK_LAYER_PLACE: return "place beyond the number of layers";
    case SALWOERK_ALPHA_CC: return "alpha_cc not 80 to 100 hundredths";
    default: return "no refusal of this version";
    }
}

/* The clause of EN 1992-1-1 behind a refusal: "" where its bound is the engine's own. (Of 12 the clause is 6.1, but that the depth ends at 30h is the
 * engine's.) */
static inline const char *salwoerk_refusal_clause(uint64_t refusal)
{
    switch (refusal) {
    case SALWOERK_CONCRETE: return "Table 3.1";
    case SALWOERK_STEEL: return "3.2.2(3)";
    case SALWOERK_SITUATION: return "Table 2.1N";
    case SALWOERK_ALPHA_CC: return "3.1.6(1)";
    case SALWOERK_BELOW_RANGE:
    case SALWOERK_ABOVE_RANGE: return "6.1";
    default: return "";
    }
}

enum salwoerk_verdict { SALWOERK_PASS = 0, SALWOERK_FAIL = 1, SALWOERK_NOT_REACHED = 2 };

static inline const char *salwoerk_verdict_text(uint64_t verdict)
{
    switch (verdict) {
    case SALWOERK_PASS: return "pass";
    case SALWOERK_FAIL: return "fail";
    case SALWOERK_NOT_REACHED: return "not reached";
    default: return "no verdict";
    }
}

/* The clause of verdicts[place], and what it asks. The sixth asks also what 9.2.2(5) and (6) ask of the links: the least ratio and the spacing. */
static inline const char *salwoerk_verdict_clause(size_t place)
{
    static const char *const clauses[SALWOERK_VERDICTS] = { "6.1", "5.6.3(2)", "6.2.2", "9.2.1.1(1)", "9.2.1.1(3)", "6.2.3" };
    return place < SALWOERK_VERDICTS ? clauses[place] : "";
}

static inline const char *salwoerk_verdict_question(size_t place)
{
    static const char *const questions[SALWOERK_VERDICTS] = {
        "M within MRd of both faces", "depth of the neutral axis", "|V| at most VRd,c", "least reinforcement", "most reinforcement",
        "|V| at most the links' resistance, their spacing and ratio"
    };
    return place < SALWOERK_VERDICTS ? questions[place] : "";
}

/* ---- depths */

/* A depth is that of the neutral axis in tenths of a millimetre from the compressed face. With the height h in mm it is of one of two kinds.
 *
 * 1 to 10h: the axis lies in the section. Clause 6.1 holds the strain at the compressed face, and the depth found is the greatest at which the
 * internal force is at most N. The accuracy statement of the scope document speaks of these depths only.
 *
 * 10h + 1 to 30h: the section is compressed over its full height, as a column is under a large N. Clause 6.1 holds the strain at the point
 * (1 - eps_c3/eps_cu3)h from the compressed face instead (point C of Figure 6.1), and each part's force is rounded down to a whole newton. The force
 * need not rise with the depth here: for N above the force at 10h the depth found is the least beyond 10h whose force is at least N. */

/* 1 for a depth of the second kind; 0 for one of the first, and for the 0 of a refused call. As in salwoerk_is_beyond(section.height, report.u). */
static inline int salwoerk_is_beyond(int64_t height, uint64_t depth)
{
    return depth > 10 * (uint64_t)height;
}

/* ---- the calls */

/* Find a depth: the neutral axis in tenths of a millimetre from the top, which is compressed; above 10h the section is compressed over its full
 * height. Links are not looked at. Refusals: section tests, 8, 11 12; 12 where no depth up to 30h reaches N.
 *
 * `trials` is how many trials the halving rule takes to this depth: it keeps a least and a greatest candidate, first 1 and 10h, and tries their mean
 * rounded up, keeping it and what lies above where the internal force there is at most N, else what lies below, until one remains. It is a figure to
 * plan by, which follows from depth and height alone: 8 or 9 at a height of 50 mm, 14 or 15 at one of 2,000 mm. The library itself searches in another
 * way. */
typedef struct {
    uint64_t refusal;
    uint64_t depth; /* 1 to 30h, of either kind; 0 where refused */
    uint64_t trials; /* 8 to SALWOERK_MOST_TRIALS for a depth up to 10h; 0 where refused, and for a depth beyond 10h */
} salwoerk_depth;
#define SALWOERK_MOST_TRIALS 15
salwoerk_depth salwoerk_find_depth(salwoerk_section section, int64_t n);

/* Moment at a depth of either kind, 1 to 30h: the moment resistance in N mm with the top compressed; it may be negative. Links are not looked at.
 * Refusals: section tests, 13. */
typedef struct { uint64_t refusal; int64_t moment; } salwoerk_moment;
salwoerk_moment salwoerk_moment_at(salwoerk_section section, uint64_t depth);

/* Check. Refusals: section tests, load tests, link tests, 11 12; here 12 is given where, for either face, no depth up to 30h reaches N, and 11 is the
 * same for both. u in tenths of a millimetre and mrd in N mm are of the face that M compresses, the top for M 0; other_u and other_mrd are of the other
 * face, with that face compressed and the depth measured from it. A resistance may be negative. Each depth is of either kind for itself, and its
 * resistance with it: under one N a face may be beyond 10h and the other not. vrd in newtons (without links), dm in mm (mean depth of the tension
 * layers) and area in mm2 (As) are of the face that M compresses. So is what the links carry: link_resistance in newtons, and the strut's cotangent
 * in tenths, 10 to 25, at which it is greatest, the smallest on a tie.
 *
 * A verdict is one of enum salwoerk_verdict, in the sequence of salwoerk_verdict_clause. The first passes where M is at most the resistance with the
 * top compressed and at least minus that with the bottom compressed: -other_mrd <= M <= mrd for M at least 0, -mrd <= M <= other_mrd for M below 0.
 * There are sections that no M suits. The third asks whether V is carried without links, present or not. The sixth passes where |V| is at most
 * link_resistance, the spacing at most 0.75 dm and area/(spacing b) of the links at least 0.08 sqrt(fck)/fyk; without links it is 2, and cotangent and
 * link_resistance are 0. Without a tension layer, and beyond 10h no layer is in tension, vrd, dm, area, cotangent and link_resistance are 0 and the
 * second, third, fourth and sixth verdict are 2. */
typedef struct {
    uint64_t refusal;
    uint64_t u; /* 1 to 30h, of either kind; 0 where refused */
    int64_t mrd;
    uint64_t other_u; /* likewise */
    int64_t other_mrd;
    uint64_t vrd, dm, area, cotangent, link_resistance;
    uint64_t verdicts[SALWOERK_VERDICTS];
} salwoerk_report;
salwoerk_report salwoerk_check(salwoerk_section section, salwoerk_load load);

/* Try a layer before placing it: the answer, refusals included, that salwoerk_check gives for a copy of the section with this layer in that place.
 * The section handed over stays as it is; where the verdicts please, the caller puts the layer into it.
 *
 * Places are counted from 0, in the sequence in which the section holds its layers. A place equal to count adds the layer after the last one: with
 * sixteen layers that makes seventeen, which 5 refuses where it stands among the section tests. Refusals: 33 for a place above count, then those of
 * the copy: section tests, load tests, link tests, 11 12. Of the layer that is replaced nothing is asked. Whatever numbers place and count are, no
 * place beyond the sixteen is read or written.
 *
 * It takes about as long as one salwoerk_check of the copy (measured by bench/run, not proved), so that it can follow a mouse. */
salwoerk_report salwoerk_try_layer(salwoerk_section section, salwoerk_load load, size_t place, salwoerk_layer layer);

/* Read a record; bytes after it are ignored. Refusals: 20 21 22 23, section tests, 31, load tests, link tests. 31 is given where the layers of the
 * record do not stand by rising depth, and equal depths by rising area; equal layers may follow each other. The length is answered on success, on 23,
 * on 31 and on the section's, the load's and the links'. links.present is 1 where the record has links; else all of links is 0. grade.situation is 1
 * and grade.alpha_cc is 100 where the record has none; of a refused reading they are 0, as is every other field of its section. */
typedef struct {
    uint64_t refusal;
    size_t length;
    salwoerk_section section;
    salwoerk_load load;
} salwoerk_reading;
salwoerk_reading salwoerk_read(const uint8_t *bytes, size_t length);

/* A record has at most as many bytes. */
#define SALWOERK_RECORD_ROOM 212

/* Write a record into the buffer. Refusals: section tests, load tests, link tests, 25. A success answers the length and changes that many first
 * bytes and no others; a refusal changes none. The layers are written by rising depth, and equal depths by rising area, whatever their sequence in the
 * section, which stays as it is: equal layers in any sequence, equal links, equal other fields and an equal load have equal bytes. Read back, the
 * section has its layers so. */
typedef struct { uint64_t refusal; size_t length; } salwoerk_written;
salwoerk_written salwoerk_write(salwoerk_section section, salwoerk_load load, uint8_t *buffer, size_t length);

/* No list of so many bytes of records is longer. */
#define SALWOERK_LIST_ROOM(bytes) (12 * (size_t)(bytes) + 48)

/* The list of the records in the input, back to back: a line for each, without the first line, and a record's own refusal in its line. Refusal 25
 * where the buffer is shorter than SALWOERK_LIST_ROOM(input_length), whatever the list would be; then no byte is changed. Else the length is
 * the number of bytes written, 0 for an empty input; no other byte is changed. */
salwoerk_written salwoerk_list(const uint8_t *input, size_t input_length, uint8_t *buffer, size_t length);

#ifdef __cplusplus
}
#endif

#endif
