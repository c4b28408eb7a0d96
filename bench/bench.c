/* How quick the engine is beside plain C of the same work.
 *
 *   bench [SEED]    compares every answer, then times Check, Check with links, Find a depth, Try a layer and Check beyond 10h (list.c times the
 *                   list program)
 *
 * Answers: random sections and loads, with every refusal of the two calls and values at the limits among them, and the loads at which
 * answers turn (the force at a depth 1 N less and more, MRd of either face 1 N·mm less and more); a third has links, with the V, the spacing
 * and the area among them at which verdict six turns; half are of the accidental situation, and half have any alpha_cc of 80 to 100 hundredths, the
 * others 100. One in ten is drawn as a column (ticket 11): N about the force at 10h of a face, at that of a depth beyond 10h, or about the greatest of
 * these, where 12 begins. Plain C tries each depth there, which takes it up to milliseconds: so most columns are low, and all are compared with plain C
 * by pointer alone. With each section and load, refused or not, a layer is tried, one in eight at a limit or beyond it, at a place up to one beyond
 * the number of layers; one place in eight is about the sixteenth or at the end of the numbers. A difference is printed and ends the run with 1.
 *
 * Times: accepted sections with loads, the same for all, in two ways. "Over and over" are FEW sections, gone through again and again: the
 * processor has learnt which way every branch of each goes, as it has of nothing that is checked once. "In turn" are SECTIONS, each seen
 * once in a round: the work of a lot, or of a search over layouts. A round goes through them with the engine, then with plain C by pointer,
 * then by value, so that whatever else the machine does falls on each. Of all rounds the best is taken, since a disturbance only ever
 * adds; each round lies at another place of the stack, which moves the time of a copy by some percent. Half of the loads compress the
 * bottom. The sections of the rows "with links" all have links in range, and N is 0; those of the other rows have none. All are of the
 * persistent situation, with alpha_cc 100. ratio = time of plain C / time of the engine: above 1 the engine is the quicker. Times are printed,
 * never asserted.
 *
 * These sections have depths up to 10h at both faces. Those of "Check beyond 10h" are columns of the same sizes, half of them symmetric, some refused
 * by 12; of those in turn plain C, by pointer, goes through the first SCANNED alone. times = time of the engine / its own time of a Check up to 10h
 * with as many layers. The last rows are what the engine's search is slowest at: columns whose force stands still over most of the depths, what one
 * layer loses being what another gains, under an N within a newton of the greatest force, where it takes as many trials as plain C.
 *
 * "Try a layer" is timed on the sections without links, with a trial for each that is drawn beforehand: at a place of the section or, below sixteen
 * layers, after the last, a layer with which the copy is accepted, with depths up to 10h. Check is the engine's own of these copies, made beforehand
 * too: times = time of the trial / time of the Check that has the same answer, so what is above 1 is the place and the copying.
 *
 * "plain" finds the depth, r and q by a least and a greatest candidate; "same roots" is plain C by pointer with r and q from the engine's
 * guess, tested as the engine tests it. */
#include <alloca.h>
#include <stdbool.h>
#include <stdio.h>
#include <stdlib.h>
#include <string.h>
#include <time.h>
#include "bench.h"

#define SECTIONS 20000
#define FEW 300
#define SCANNED 2000
#define STILL 100
#define COMPARED 400000

static const int64_t classes[] = { 12, 16, 20, 25, 30, 35, 40, 45, 50, 55, 60, 70, 80, 90 };

/* ---- random numbers: xorshift, so that a run is repeated by its seed */
static uint64_t state;
static uint64_t below(uint64_t n)
{
    state ^= state << 13;
    state ^= state >> 7;
    state ^= state << 17;
    return (state >> 11) % n;
}
static int64_t between(int64_t lo, int64_t hi) { return lo + (int64_t)below((uint64_t)(hi - lo) + 1); }
static bool one_in(uint64_t n) { return below(n) == 0; }

/* ---- comparison */
static bool equal(salwoerk_report a, salwoerk_report b)
{
    return a.refusal == b.refusal && a.u == b.u && a.mrd == b.mrd && a.other_u == b.other_u && a.other_mrd == b.other_mrd && a.vrd == b.vrd
        && a.dm == b.dm && a.area == b.area && a.cotangent == b.cotangent && a.link_resistance == b.link_resistance
        && !memcmp(a.verdicts, b.verdicts, sizeof a.verdicts);
}

static bool same_depth(salwoerk_depth a, salwoerk_depth b) { return a.refusal == b.refusal && a.depth == b.depth && a.trials == b.trials; }

static void print_check(const char *who, salwoerk_report a)
{
    printf("%s %llu %llu %lld %llu %lld %llu %llu %llu %llu %llu ", who, (unsigned long long)a.refusal, (unsigned long long)a.u, (long long)a.mrd,
        (unsigned long long)a.other_u, (long long)a.other_mrd, (unsigned long long)a.vrd, (unsigned long long)a.dm, (unsigned long long)a.area,
        (unsigned long long)a.cotangent, (unsigned long long)a.link_resistance);
    for (int i = 0; i < SALWOERK_VERDICTS; i++) printf(" %llu", (unsigned long long)a.verdicts[i]);
    printf("\n");
}

static void print_depth(const char *who, salwoerk_depth a)
{
    printf("%s refusal %llu depth %llu trials %llu\n", who, (unsigned long long)a.refusal, (unsigned long long)a.depth, (unsigned long long)a.trials);
}

static void print_section(const salwoerk_section *s, salwoerk_load l)
{
    printf("b %lld h %lld fck %lld fyk %lld situation %lld alpha_cc %lld N %lld M %lld V %lld links %llu %u/%u count %zu:", (long long)s->width,
        (long long)s->height, (long long)s->grade.fck, (long long)s->grade.fyk, (long long)s->grade.situation, (long long)s->grade.alpha_cc,
        (long long)l.n, (long long)l.m, (long long)l.v, (unsigned long long)s->links.present, s->links.area, s->links.spacing, s->count);
    for (size_t i = 0; i < s->count && i < 16; i++) printf(" %u/%u", s->layers[i].depth, s->layers[i].area);
    printf("\n");
}

/* bit k: refusal k was met, bit 0: an answer; the verdicts, three bits each; bit c: cotangent c was answered; bit k: situation k was; bit a: alpha_cc
 * 80 + a was; and bit t: Find a depth answered t trials */
static uint64_t met, verdicts, cotangents, answered, reduced, trials;

/* How many answers have a depth beyond 10h at neither face, at that shown, at the other, at both; and how many are 12. */
static long beyond[4], above;

static int faces_beyond(const salwoerk_section *s, salwoerk_report a)
{
    return salwoerk_is_beyond(s->height, a.u) + 2 * salwoerk_is_beyond(s->height, a.other_u);
}

static void count_answer(const salwoerk_section *s, salwoerk_report a)
{
    met |= 1ull << a.refusal;
    above += a.refusal == SALWOERK_ABOVE_RANGE;
    if (a.refusal) return;
    for (int i = 0; i < SALWOERK_VERDICTS; i++) verdicts |= 1ull << (3 * i + (int)a.verdicts[i]);
    cotangents |= 1ull << a.cotangent;
    answered |= 1ull << s->grade.situation;
    reduced |= 1ull << (s->grade.alpha_cc - 80);
    beyond[faces_beyond(s, a)]++;
}

static salwoerk_report compare(const salwoerk_section *s, salwoerk_load l)
{
    salwoerk_report e = salwoerk_check(*s, l), p = plain_check(s, &l);
    salwoerk_depth ed = salwoerk_find_depth(*s, l.n), pd = plain_find_depth(s, l.n);
    bool scanned = p.refusal == SALWOERK_ABOVE_RANGE || faces_beyond(s, p); /* which takes long, and is the same loop in all ways of plain C */
    salwoerk_report v = scanned ? p : plain_check_by_value(*s, l), r = scanned ? p : same_check(s, &l);
    salwoerk_depth vd = scanned ? pd : plain_find_depth_by_value(*s, l.n);
    if (!equal(e, p) || !equal(e, v) || !equal(e, r) || !same_depth(ed, pd) || !same_depth(ed, vd)) {
        printf("DIFFERENT ANSWERS\n");
        print_section(s, l);
        print_check("engine", e);
        print_check("plain ", p);
        print_check("value ", v);
        print_check("same  ", r);
        print_depth("Find a depth: engine", ed);
        print_depth("Find a depth: plain ", pd);
        print_depth("Find a depth: value ", vd);
        exit(1);
    }
    count_answer(s, e);
    trials |= 1ull << ed.trials;
    return e;
}

/* A layer tried at a place. */
typedef struct { size_t place; salwoerk_layer layer; } trial;

/* bit k: refusal k was met by a trial; and how many trials have an answer, with the layer in place of another and with it added. */
static uint64_t met_by_trials;
static long answered_trials[2];

static salwoerk_report compare_trial(const salwoerk_section *s, salwoerk_load l, trial t)
{
    salwoerk_report e = salwoerk_try_layer(*s, l, t.place, t.layer), p = plain_try_layer(s, &l, t.place, t.layer);
    if (!equal(e, p)) {
        printf("DIFFERENT ANSWERS\n");
        print_section(s, l);
        printf("tried at place %zu: %u/%u\n", t.place, t.layer.depth, t.layer.area);
        print_check("engine", e);
        print_check("plain ", p);
        exit(1);
    }
    met_by_trials |= 1ull << e.refusal;
    if (!e.refusal) answered_trials[t.place == s->count]++;
    return e;
}

/* ---- sections */

/* Any layer that such a section may have. */
static salwoerk_layer random_layer(const salwoerk_section *s)
{
    int64_t most = one_in(4) ? 20000 : 1 + s->width * s->height / 25 / (int64_t)s->count % 20000;
    return (salwoerk_layer){ (uint32_t)between(1, s->height - 1), (uint32_t)between(1, most) };
}

/* An accepted section of the persistent situation and alpha_cc 100, so high at most, with so many layers and no links; the places beyond, and the
 * links, hold numbers that no answer may depend on. */
static void random_section(salwoerk_section *s, size_t count, int64_t highest)
{
    s->width = between(50, 2000);
    s->height = between(50, highest);
    s->grade.fck = classes[below(14)];
    s->grade.fyk = between(400, 600);
    s->grade.situation = SALWOERK_PERSISTENT;
    s->grade.alpha_cc = SALWOERK_RECOMMENDED_ALPHA_CC;
    s->links = (salwoerk_links){ 0, (uint32_t)between(0, 6000), (uint32_t)between(0, 1100) };
    s->count = count;
    for (size_t i = 0; i < 16; i++) s->layers[i] = random_layer(s);
}

/* Half of the accidental situation, half of any alpha_cc. */
static void random_factors(salwoerk_section *s)
{
    if (one_in(2)) s->grade.situation = SALWOERK_ACCIDENTAL;
    if (one_in(2)) s->grade.alpha_cc = between(80, 100);
}

/* Links in range, half of them small, for a load without N. */
static void add_links(salwoerk_section *s, salwoerk_load *l)
{
    bool small = one_in(2);
    s->links = (salwoerk_links){ 1, (uint32_t)between(1, small ? 300 : 5000), (uint32_t)between(25, small ? 400 : 1000) };
    l->n = 0;
}

/* One number of a layer put at a limit or beyond it. */
static void damage_layer(salwoerk_layer *layer, int64_t height)
{
    static const uint32_t areas[] = { 0, 1, 19999, 20000, 20001, UINT32_MAX };
    uint32_t depths[] = { 0, 1, (uint32_t)height - 1, (uint32_t)height, (uint32_t)height + 1, UINT32_MAX };
    if (one_in(2)) layer->depth = depths[below(6)]; else layer->area = areas[below(6)];
}

/* One number of an accepted section put at a limit or beyond it. */
static void damage(salwoerk_section *s, salwoerk_load *l)
{
    static const int64_t sizes[] = { 49, 50, 51, 1999, 2000, 2001, 0, -1, 300, INT64_MIN, INT64_MAX };
    static const int64_t fcks[] = { 11, 12, 13, 31, 50, 55, 89, 90, 91, 0, -12, INT64_MIN, INT64_MAX };
    static const int64_t fyks[] = { 399, 400, 401, 599, 600, 601, 0, -500, INT64_MIN, INT64_MAX };
    static const int64_t situations[] = { 0, 1, 2, 3, -1, -2, 257, INT64_MIN, INT64_MAX };
    static const int64_t factors[] = { 79, 80, 81, 99, 100, 101, 0, -85, 341, INT64_MIN, INT64_MAX };
    static const size_t counts[] = { 0, 1, 15, 16, 17, 18, SIZE_MAX };
    static const uint64_t present[] = { 0, 1, 2, 256, 1ull << 32, UINT64_MAX };
    static const uint32_t link_areas[] = { 0, 1, 4999, 5000, 5001, UINT32_MAX };
    static const uint32_t spacings[] = { 0, 24, 25, 1000, 1001, UINT32_MAX };
    static const int64_t forces[] = { 500000000, 500000001, -500000000, -500000001, INT64_MIN, INT64_MAX, 0 };
    static const int64_t moments[] = { 1000000000000, 1000000000001, -1000000000000, -1000000000001, INT64_MIN, INT64_MAX, 0, -1, 1 };
    switch (below(14)) {
    case 0: s->width = sizes[below(11)]; break;
    case 1: s->height = sizes[below(11)]; break;
    case 2: s->grade.fck = fcks[below(13)]; break;
    case 3: s->grade.fyk = fyks[below(10)]; break;
    case 4: s->count = counts[below(7)]; break;
    case 5: case 6: damage_layer(&s->layers[below(16)], s->height); break;
    case 7: if (one_in(2)) l->n = forces[below(7)]; else l->v = forces[below(7)]; break;
    case 8: l->m = moments[below(9)]; break;
    case 9: s->links.present = present[below(6)]; break;
    case 10: s->links.area = link_areas[below(6)]; break;
    case 11: s->links.spacing = spacings[below(6)]; break;
    case 12: s->grade.situation = situations[below(9)]; break;
    case 13: s->grade.alpha_cc = factors[below(11)]; break;
    }
}

/* The greatest N that both faces reach up to 10h; a column is what has more, and is compressed over its full height. */
static int64_t reach(const salwoerk_section *s)
{
    int64_t top = plain_force(s, 0, 10 * s->height), bottom = plain_force(s, -1, 10 * s->height);
    return top < bottom ? top : bottom;
}

static bool is_column(const salwoerk_section *s, int64_t n) { return n > reach(s); }

/* The higher a column, the more depths plain C tries: so fewer of them are compared. */
static bool left_out(const salwoerk_section *s, int64_t n) { return is_column(s, n) && !one_in(1 + (uint64_t)s->height / 32); }

/* A place of so many layers, the one after the last or one beyond that; one in eight about the sixteen places or at the end of the numbers. */
static size_t random_place(size_t count)
{
    static const size_t others[] = { 0, 15, 16, 17, 18, SIZE_MAX - 1, SIZE_MAX };
    return count > 18 || one_in(8) ? others[below(7)] : (size_t)below(count + 2);
}

/* Any layer that the section, not damaged yet, may have; one in eight damaged. */
static salwoerk_layer layer_to_try(const salwoerk_section *s)
{
    salwoerk_layer layer = random_layer(s);
    if (one_in(8)) damage_layer(&layer, s->height);
    return layer;
}

/* Where depths and resistances turn. */
static void compare_turn(salwoerk_section s, salwoerk_load l)
{
    s.links.present = 0;
    int64_t turn = plain_force(&s, l.m, one_in(8) ? 1 : one_in(8) ? 10 * s.height : between(1, 10 * s.height)), side = l.m < 0 ? -1 : 1;
    if (left_out(&s, turn)) return;
    for (int64_t n = turn - 1; n <= turn + 2; n++) {
        l.n = n;
        salwoerk_report a = compare(&s, l);
        for (int64_t d = -1; d <= 1 && !a.refusal; d++) { /* both ends of verdict one */
            compare(&s, (salwoerk_load){ n, side * (a.mrd + d), (int64_t)a.vrd + d });
            compare(&s, (salwoerk_load){ n, side * (a.mrd + d), -(int64_t)a.vrd - d });
            compare(&s, (salwoerk_load){ n, -side * (a.other_mrd + d), (int64_t)a.vrd + d });
        }
    }
}

/* Where verdict six turns: V at the resistance, the spacing at 0.75 dm, the area at the least ratio. */
static void compare_link_turn(salwoerk_section s, salwoerk_load l, salwoerk_report a)
{
    for (int64_t d = -1; d <= 1; d++) {
        compare(&s, (salwoerk_load){ 0, l.m, (int64_t)a.link_resistance + d });
        compare(&s, (salwoerk_load){ 0, l.m, -(int64_t)a.link_resistance - d });
    }
    l.v = 0;
    for (int64_t d = -1; d <= 1; d++) {
        s.links.spacing = (uint32_t)((int64_t)a.dm * 3 / 4 + d);
        compare(&s, l);
    }
    s.links.spacing = (uint32_t)between(25, 1000);
    int64_t limit = 4 * s.grade.fck * s.links.spacing * s.width * s.links.spacing * s.width, least = 1;
    while (625 * least * s.grade.fyk * least * s.grade.fyk < limit) least++;
    for (int64_t d = -1; d <= 1; d++) {
        s.links.area = (uint32_t)(least + d);
        compare(&s, l);
    }
}

/* Both faces alike: each second layer mirrors the one before it, and a last one without a partner lies at mid-height. */
static void mirror(salwoerk_section *s)
{
    s->height += s->height % 2;
    for (size_t i = 0; i < 16; i += 2)
        s->layers[i + 1] = (salwoerk_layer){ (uint32_t)s->height - s->layers[i].depth, s->layers[i].area };
    if (s->count % 2) s->layers[s->count - 1].depth = (uint32_t)s->height / 2;
}

/* An N about the force at 10h, at that of a depth beyond, about the greatest of these, or anywhere from the first to above the greatest. */
static int64_t column_load(const salwoerk_section *s, int64_t m)
{
    int64_t h = s->height, first = plain_force(s, m, 10 * h), most = plain_most_beyond(s, m);
    switch (below(4)) {
    case 0: return first + between(-1, 2);
    case 1: return plain_force(s, m, between(10 * h + 1, 30 * h)) + between(-1, 1);
    case 2: return most + between(-1, 2);
    default: return most < first ? between(most, first + 2) : between(first, most + (most - first) / 4 + 1);
    }
}

/* Of low columns, one in sixty-four of any height; a quarter is symmetric. */
static void compare_column(void)
{
    salwoerk_section s;
    random_section(&s, 1 + below(16), one_in(64) ? 2000 : 250);
    random_factors(&s);
    if (one_in(4)) mirror(&s);
    int64_t m = between(-2000000000, 2000000000), n = column_load(&s, one_in(2) ? m : -m);
    salwoerk_report a = compare(&s, (salwoerk_load){ n, m, between(-1000000, 1000000) });
    compare(&s, (salwoerk_load){ n, -m, 0 });
    compare_trial(&s, (salwoerk_load){ n, m, 0 }, (trial){ random_place(s.count), layer_to_try(&s) });
    if (a.refusal || !one_in(8)) return;
    for (int64_t d = -1, side = m < 0 ? -1 : 1; d <= 1; d++) { /* both ends of verdict one */
        compare(&s, (salwoerk_load){ n, side * (a.mrd + d), d });
        compare(&s, (salwoerk_load){ n, -side * (a.other_mrd + d), d });
    }
}

static void print_met(void)
{
    printf("answers agree; met: an answer and the refusals");
    for (int k = 1; k < 35; k++) if (met >> k & 1) printf(" %d", k);
    printf("; verdicts");
    for (int k = 0; k < SALWOERK_VERDICTS; k++) {
        printf(" ");
        for (int v = 0; v < 3; v++) if (verdicts >> (3 * k + v) & 1) printf("%d", v);
    }
    printf("; cotangents");
    for (int c = 0; c < 26; c++) if (cotangents >> c & 1) printf(" %d", c);
    printf("; situations");
    for (int k = 1; k < 3; k++) if (answered >> k & 1) printf(" %d", k);
    printf("; alpha_cc");
    for (int a = 0; a < 21; a++) if (reduced >> a & 1) printf(" %d", 80 + a);
    printf("; trials of Find a depth");
    for (int t = 0; t <= SALWOERK_MOST_TRIALS; t++) if (trials >> t & 1) printf(" %d", t);
    printf("\nlayers tried: %ld answers in place of another, %ld added; met the refusals", answered_trials[0], answered_trials[1]);
    for (int k = 1; k < 35; k++) if (met_by_trials >> k & 1) printf(" %d", k);
    printf("\nbeyond 10h: %ld answers of the face shown alone, %ld of the other alone, %ld of both; %ld refused by 12\n", beyond[1], beyond[2],
        beyond[3], above);
}

static void compare_section(void)
{
    salwoerk_section s;
    random_section(&s, 1 + below(16), 2000);
    salwoerk_load l = { between(-3000000, 6000000), between(-2000000000, 2000000000), between(-1000000, 1000000) };
    random_factors(&s);
    if (left_out(&s, l.n)) l.n = between(0, reach(&s));
    if (one_in(3)) add_links(&s, &l);
    salwoerk_layer layer = layer_to_try(&s);
    while (one_in(4)) damage(&s, &l);
    salwoerk_report a = compare(&s, l);
    compare_trial(&s, l, (trial){ random_place(s.count), layer });
    if (a.refusal) return;
    if (one_in(64)) compare_turn(s, l);
    if (s.links.present && one_in(16)) compare_link_turn(s, l, a);
}

static void compare_all(void)
{
    for (long k = 0; k < COMPARED; k++)
        if (one_in(10)) compare_column(); else compare_section();
    print_met();
}

/* ---- times */
static salwoerk_section sections[SECTIONS];
static salwoerk_load loads[SECTIONS];

/* The trial of each section, and the copy that it is of. */
static trial tried[SECTIONS];
static salwoerk_section altered[SECTIONS];

static salwoerk_layer sized_layer(const salwoerk_section *s)
{
    return (salwoerk_layer){ (uint32_t)between(30, s->height - 30), (uint32_t)between(100, 20000 / (int64_t)s->count) };
}

/* Of the size of beams and columns, steel up to about 4 % of the section. */
static void sized_section(salwoerk_section *s, size_t count)
{
    random_section(s, count, 2000);
    s->width = between(200, 1000);
    s->height = between(300, 1500);
    for (size_t i = 0; i < 16; i++) s->layers[i] = sized_layer(s);
}

static salwoerk_load load_with(int64_t n) { return (salwoerk_load){ n, between(-1000000000, 1000000000), between(-500000, 500000) }; }

/* Accepted by both calls, up to 10h; with links of beams, or without links. */
static void fill(size_t count, bool linked)
{
    for (int k = 0; k < SECTIONS; k++) {
        salwoerk_section *s = &sections[k];
        do {
            sized_section(s, count);
            loads[k] = load_with(between(-200000, 2000000));
            if (linked) {
                s->links = (salwoerk_links){ 1, (uint32_t)between(50, 1000), (uint32_t)between(50, 400) };
                loads[k].n = 0;
            }
        } while (is_column(s, loads[k].n) || compare(s, loads[k]).refusal);
    }
}

/* Accepted, up to 10h; at any place of the section alike or, below sixteen layers, after the last. */
static void fill_trials(void)
{
    for (int k = 0; k < SECTIONS; k++) {
        salwoerk_section *s = &sections[k], *copy = &altered[k];
        salwoerk_report a;
        do {
            tried[k] = (trial){ (size_t)below(s->count < 16 ? s->count + 1 : 16), sized_layer(s) };
            a = compare_trial(s, loads[k], tried[k]);
        } while (a.refusal || faces_beyond(s, a));
        *copy = *s;
        copy->layers[tried[k].place] = tried[k].layer;
        copy->count += tried[k].place == s->count;
    }
}

/* Columns, under an N up to a third above what both faces reach up to 10h. */
static void fill_columns(size_t count)
{
    for (int k = 0; k < SECTIONS; k++) {
        salwoerk_section *s = &sections[k];
        sized_section(s, count);
        if (one_in(2)) mirror(s);
        int64_t most = reach(s);
        loads[k] = load_with(between(most + 1, most + most / 3));
        if (k < SCANNED) compare(s, loads[k]);
    }
}

/* Columns whose force stands still: symmetric ones of classes up to C50/60, where D is half of E and so the strain line turns about mid-height. */
static void fill_still(size_t count)
{
    for (int k = 0; k < STILL; k++) {
        salwoerk_section *s = &sections[k];
        sized_section(s, count);
        s->grade.fck = classes[below(9)];
        mirror(s);
        loads[k] = load_with(plain_most_beyond(s, 0) + between(-1, 1));
        compare(s, loads[k]);
    }
}

static double now(void)
{
    struct timespec t;
    clock_gettime(CLOCK_MONOTONIC, &t);
    return (double)t.tv_sec * 1e9 + (double)t.tv_nsec;
}

static volatile uint64_t sink;

/* The sections that are gone through, how often in a round, and how many rounds. */
typedef struct { const char *name; int sections, calls, rounds; } way;
static const way ways[] = { { "the same 300 sections over and over", FEW, 16, 100 }, { "20,000 sections in turn", SECTIONS, 1, 30 } };

/* Of columns: the engine's, and that of plain C. */
typedef struct { way engine, plain; } column_way;
static const column_way column_ways[] = {
    { { "the same 300 columns over and over", FEW, 4, 50 }, { "", FEW, 1, 5 } },
    { { "20,000 columns in turn", SECTIONS, 1, 15 }, { "", SCANNED, 1, 3 } },
    { { "100 symmetric columns, N within a newton of the greatest force", STILL, 1, 3 }, { "", STILL, 1, 3 } },
};

/* The time of one call in nanoseconds, if it is the best so far. */
#define TIME(best, w, call) do { \
    uint64_t sum = 0; \
    double began = now(); \
    for (int j = 0; j < (w).calls; j++) for (int k = 0; k < (w).sections; k++) sum += (call); \
    double t = (now() - began) / ((double)(w).calls * (w).sections); \
    sink = sum; \
    if (t < best) best = t; \
} while (0)

static const char heading[] = "layers   engine/s  engine |  plain  ratio | by value  ratio";

static void row(size_t count, const double *t)
{
    printf("%6zu %10.0f %7.1f | %6.1f %6.2f | %8.1f %6.2f", count, 1e9 / t[0], t[0], t[1], t[1] / t[0], t[2], t[2] / t[0]);
}

/* By the engine, by plain C by pointer, by value and with the same roots. */
static void measure_check(way w, double *best)
{
    for (int i = 0; i < 4; i++) best[i] = 1e18;
    for (int round = 0; round < w.rounds; round++) {
        volatile char *moved = alloca((size_t)(16 + 16 * below(256)));
        moved[0] = 0;
        TIME(best[0], w, salwoerk_check(sections[k], loads[k]).mrd);
        TIME(best[1], w, plain_check(&sections[k], &loads[k]).mrd);
        TIME(best[2], w, plain_check_by_value(sections[k], loads[k]).mrd);
        TIME(best[3], w, same_check(&sections[k], &loads[k]).mrd);
    }
}

/* By the engine, by plain C by pointer and by value. */
static void measure_depth(way w, double *best)
{
    for (int i = 0; i < 3; i++) best[i] = 1e18;
    for (int round = 0; round < w.rounds; round++) {
        volatile char *moved = alloca((size_t)(16 + 16 * below(256)));
        moved[0] = 0;
        TIME(best[0], w, salwoerk_find_depth(sections[k], loads[k].n).depth);
        TIME(best[1], w, plain_find_depth(&sections[k], loads[k].n).depth);
        TIME(best[2], w, plain_find_depth_by_value(sections[k], loads[k].n).depth);
    }
}

/* By the engine and by plain C by pointer; and the engine's Check of the copies. */
static void measure_trial(way w, double *best)
{
    for (int i = 0; i < 3; i++) best[i] = 1e18;
    for (int round = 0; round < w.rounds; round++) {
        volatile char *moved = alloca((size_t)(16 + 16 * below(256)));
        moved[0] = 0;
        TIME(best[0], w, salwoerk_try_layer(sections[k], loads[k], tried[k].place, tried[k].layer).mrd);
        TIME(best[1], w, plain_try_layer(&sections[k], &loads[k], tried[k].place, tried[k].layer).mrd);
        TIME(best[2], w, salwoerk_check(altered[k], loads[k]).mrd);
    }
}

/* By the engine and by plain C by pointer; and the percentage of the engine's columns that are refused by 12. */
static void measure_columns(column_way w, double *best)
{
    int refused = 0;
    best[0] = best[1] = 1e18;
    for (int round = 0; round < w.engine.rounds; round++) {
        volatile char *moved = alloca((size_t)(16 + 16 * below(256)));
        moved[0] = 0;
        TIME(best[0], w.engine, salwoerk_check(sections[k], loads[k]).mrd);
        if (round < w.plain.rounds) TIME(best[1], w.plain, plain_check(&sections[k], &loads[k]).mrd);
    }
    for (int k = 0; k < w.engine.sections; k++) refused += salwoerk_check(sections[k], loads[k]).refusal == SALWOERK_ABOVE_RANGE;
    best[2] = 100.0 * refused / w.engine.sections;
}

#define COUNTS 4
static const size_t counts[COUNTS] = { 1, 4, 8, 16 };

static void print_check_times(const char *what, way w, double t[COUNTS][4])
{
    printf("%s, %s\n%s | same roots  ratio\n", what, w.name, heading);
    for (int c = 0; c < COUNTS; c++) {
        row(counts[c], t[c]);
        printf(" | %10.1f %6.2f\n", t[c][3], t[c][3] / t[c][0]);
    }
}

static void print_depth_times(way w, double t[COUNTS][3])
{
    printf("Find a depth, %s\n%s\n", w.name, heading);
    for (int c = 0; c < COUNTS; c++) {
        row(counts[c], t[c]);
        printf("\n");
    }
}

/* Beside the engine's own Check of the copies. */
static void print_trial_times(way w, double t[COUNTS][3])
{
    printf("Try a layer, %s\nlayers   engine/s  engine |  plain  ratio |  Check  times\n", w.name);
    for (int c = 0; c < COUNTS; c++)
        printf("%6zu %10.0f %7.1f | %6.1f %6.2f | %6.1f %6.2f\n", counts[c], 1e9 / t[c][0], t[c][0], t[c][1], t[c][1] / t[c][0], t[c][2],
            t[c][0] / t[c][2]);
}

/* Beside the engine's own Check up to 10h with as many layers. */
static void print_column_times(column_way w, double t[COUNTS][3], double check[COUNTS][4])
{
    printf("Check beyond 10h, %s\nlayers   engine/s  engine |    plain  ratio | up to 10h  times | refused by 12\n", w.engine.name);
    for (int c = 0; c < COUNTS; c++)
        printf("%6zu %10.0f %7.0f | %8.0f %6.2f | %9.1f %6.2f | %11.0f %%\n", counts[c], 1e9 / t[c][0], t[c][0], t[c][1], t[c][1] / t[c][0],
            check[c][0], t[c][0] / check[c][0], t[c][2]);
}

static void times(void)
{
    static double check[2][COUNTS][4], linked[2][COUNTS][4], depth[2][COUNTS][3], layer[2][COUNTS][3], columns[3][COUNTS][3];
    for (int c = 0; c < COUNTS; c++) {
        fill(counts[c], false);
        for (int w = 0; w < 2; w++) {
            measure_check(ways[w], check[w][c]);
            measure_depth(ways[w], depth[w][c]);
        }
        fill_trials();
        for (int w = 0; w < 2; w++) measure_trial(ways[w], layer[w][c]);
        fill(counts[c], true);
        for (int w = 0; w < 2; w++) measure_check(ways[w], linked[w][c]);
        fill_columns(counts[c]);
        for (int w = 0; w < 2; w++) measure_columns(column_ways[w], columns[w][c]);
        fill_still(counts[c]);
        measure_columns(column_ways[2], columns[2][c]);
    }
    printf("times in ns of a call; ratio = plain C / engine\n");
    for (int w = 0; w < 2; w++) print_check_times("Check", ways[w], check[w]);
    for (int w = 0; w < 2; w++) print_check_times("Check, with links", ways[w], linked[w]);
    for (int w = 0; w < 2; w++) print_depth_times(ways[w], depth[w]);
    printf("times = engine's trial / engine's Check of the copy\n");
    for (int w = 0; w < 2; w++) print_trial_times(ways[w], layer[w]);
    printf("times = engine beyond 10h / engine up to 10h\n");
    for (int w = 0; w < 3; w++) print_column_times(column_ways[w], columns[w], check[w > 0]);
}

int main(int count, char **words)
{
    uint64_t seed = count > 1 ? strtoull(words[1], NULL, 10) : (uint64_t)time(NULL);
    state = seed * 0x9e3779b97f4a7c15u | 1;
    plain_start();
    same_start();
    printf("seed %llu\n", (unsigned long long)seed);
    compare_all();
    times();
    return 0;
}
