/* Find a depth, Check and Try a layer in plain C, as a C programmer would write them who wants them quick: the measure that the engine is held to.
 * The same tests in the same sequence, the same rule of halving without a division, r and q by that rule too, K from a table; the strut's
 * cotangent by a loop over its sixteen tenths; beyond 10h each depth in turn until one reaches N, since halving is wrong where the force may fall.
 * With -DSAME it is Check with r and q as the engine has them: a guess by one Halley step, tested by the definition, and halving where it fails.
 * Every number fits int64_t (the products are taken in an order in which they do), so __int128 is nowhere needed. */
#include <stdbool.h>
#include "bench.h"

/* What the formulas use of the concrete and the steel: T, E, L, f, g and s of document 01, D of ticket 11 (200,000 N/mm2 times the strain eps_c3 of
 * Table 3.1), and CRd,c of 6.2.2 in hundredths, 12 or 15. */
struct materials { int64_t t, e, d, l, f, g, s, crd; };

/* What is divided by the partial factors, gamma_c in tenths and gamma_s in hundredths; CRd,c is 0.18 / gamma_c. The factors are constants where this
 * is called, so that the compiler leaves no division. alpha_cc, in hundredths, is in f and g, each of which is rounded down once. */
static inline void divide_by(int64_t gamma_c, int64_t gamma_s, const salwoerk_grade *grade, struct materials *m)
{
    int64_t strength = grade->alpha_cc * grade->fck;
    m->g = 10 * strength / gamma_c;
    m->f = grade->fck <= 50 ? m->g : strength * (250 - grade->fck) / (20 * gamma_c);
    m->s = 10000 * grade->fyk / gamma_s;
    m->crd = 180 / gamma_c;
}

/* Tests 3, 4, 32 and 34: the number of the one that fails, or 0. */
static inline int look_up(const salwoerk_grade *grade, struct materials *m)
{
    switch (grade->fck) {
    case 12: m->t = 16; m->e = 700; m->d = 350; break;
    case 16: m->t = 19; m->e = 700; m->d = 350; break;
    case 20: m->t = 22; m->e = 700; m->d = 350; break;
    case 25: m->t = 26; m->e = 700; m->d = 350; break;
    case 30: m->t = 29; m->e = 700; m->d = 350; break;
    case 35: m->t = 32; m->e = 700; m->d = 350; break;
    case 40: m->t = 35; m->e = 700; m->d = 350; break;
    case 45: m->t = 38; m->e = 700; m->d = 350; break;
    case 50: m->t = 41; m->e = 700; m->d = 350; break;
    case 55: m->t = 42; m->e = 620; m->d = 360; break;
    case 60: m->t = 44; m->e = 580; m->d = 380; break;
    case 70: m->t = 46; m->e = 540; m->d = 400; break;
    case 80: m->t = 48; m->e = 520; m->d = 440; break;
    case 90: m->t = 50; m->e = 520; m->d = 460; break;
    default: return 3;
    }
    m->l = grade->fck <= 50 ? 64 : (370 - grade->fck) / 5;
    if (grade->fyk < 400 || grade->fyk > 600) return 4;
    if (grade->situation != SALWOERK_PERSISTENT && grade->situation != SALWOERK_ACCIDENTAL) return 32;
    if (grade->alpha_cc < 80 || grade->alpha_cc > 100) return 34;
    if (grade->situation == SALWOERK_PERSISTENT) divide_by(15, 115, grade, m); else divide_by(12, 100, grade, m);
    return 0;
}

/* The section tests. */
static inline int accept(const salwoerk_section *s, struct materials *m)
{
    if (s->width < 50 || s->width > 2000) return 1;
    if (s->height < 50 || s->height > 2000) return 2;
    int k = look_up(&s->grade, m);
    if (k) return k;
    if (s->count < 1 || s->count > 16) return 5;
    for (size_t i = 0; i < s->count; i++)
        if (s->layers[i].depth < 1 || s->layers[i].depth >= s->height) return 6;
    for (size_t i = 0; i < s->count; i++)
        if (s->layers[i].area < 1 || s->layers[i].area > 20000) return 7;
    return 0;
}

/* 80,000·u times the internal force at u. */
static inline int64_t force(const salwoerk_layer *layers, size_t count, int64_t flb, const struct materials *m, int64_t u)
{
    int64_t sum = 0, hi = m->s * u, lo = -hi, rise = 100 * m->e * u, e = 1000 * m->e;
    for (size_t i = 0; i < count; i++) {
        int64_t x = rise - e * layers[i].depth;
        x = x < lo ? lo : x;
        x = x > hi ? hi : x;
        sum += layers[i].area * x;
    }
    return flb * u * u + 800 * sum;
}

/* 11 of the face that sees the layers so. */
static inline bool below_range(const salwoerk_layer *layers, size_t count, int64_t flb, const struct materials *m, int64_t n)
{
    return force(layers, count, flb, m, 1) > n * 80000;
}

/* N is above the internal force of that face at 10h. */
static inline bool above_section(const salwoerk_layer *layers, size_t count, int64_t flb, int64_t h, const struct materials *m, int64_t n)
{
    return force(layers, count, flb, m, 10 * h) < n * 80000 * 10 * h;
}

/* The depth of that face, where neither is so. */
static inline int64_t depth_within(const salwoerk_layer *layers, size_t count, int64_t flb, int64_t h, const struct materials *m, int64_t n)
{
    int64_t lo = 1, hi = 10 * h;
    while (lo < hi) {
        int64_t mid = (lo + hi + 1) / 2;
        if (force(layers, count, flb, m, mid) <= n * 80000 * mid) lo = mid; else hi = mid - 1;
    }
    return lo;
}

/* The same with its trials, for Find a depth alone: this halving is the rule that ticket 12 counts them by. A loop of its own, because Check has no use
 * for the number, and gcc makes other code of Check where one is made of the other. */
static inline salwoerk_depth counted_within(const salwoerk_layer *layers, size_t count, int64_t flb, int64_t h, const struct materials *m, int64_t n)
{
    int64_t lo = 1, hi = 10 * h;
    uint64_t trials = 0;
    for (; lo < hi; trials++) {
        int64_t mid = (lo + hi + 1) / 2;
        if (force(layers, count, flb, m, mid) <= n * 80000 * mid) lo = mid; else hi = mid - 1;
    }
    return (salwoerk_depth){ 0, (uint64_t)lo, trials };
}

/* ---- beyond 10h: 6.1 turns the strain line about the point at (1 - D/E)h from the compressed face (ticket 11) */

/* How deep the block is, in 800ths of a millimetre: at most h. */
static inline int64_t block_beyond(int64_t h, const struct materials *m, int64_t u)
{
    return m->l * u < 800 * h ? m->l * u : 800 * h;
}

/* A layer's stress: rise / run, which is D E (u - 10d) over E u - 10 (E - D) h, or s/100 where it is held there. It is above 0, since no layer lies
 * as deep as u. */
struct strain_line { int64_t rise, run; bool held; };

static inline struct strain_line line_beyond(int64_t d, int64_t h, const struct materials *m, int64_t u)
{
    int64_t rise = m->d * m->e * (u - 10 * d), run = m->e * u - 10 * (m->e - m->d) * h;
    return (struct strain_line){ rise, run, 100 * rise >= m->s * run };
}

/* The internal force at u: each part's rounded down to a whole newton. */
static inline int64_t force_beyond(const salwoerk_layer *layers, size_t count, int64_t b, int64_t h, const struct materials *m, int64_t u)
{
    int64_t sum = m->f * b * block_beyond(h, m, u) / 80000;
    for (size_t i = 0; i < count; i++) {
        struct strain_line line = line_beyond(layers[i].depth, h, m, u);
        sum += line.held ? layers[i].area * m->s / 100 : layers[i].area * line.rise / line.run;
    }
    return sum;
}

/* The least depth beyond 10h whose force is at least N, by trying each; 0 where none up to 30h is, which is 12. */
static int64_t depth_beyond(const salwoerk_layer *layers, size_t count, int64_t b, int64_t h, const struct materials *m, int64_t n)
{
    for (int64_t u = 10 * h + 1; u <= 30 * h; u++)
        if (force_beyond(layers, count, b, h, m, u) >= n) return u;
    return 0;
}

/* ---- both */

/* The depth of a face whose depth 1 carries no more than N; 0 is 12. */
static inline int64_t depth_for(const salwoerk_layer *layers, const salwoerk_section *s, int64_t flb, const struct materials *m, int64_t n)
{
    return above_section(layers, s->count, flb, s->height, m, n) ? depth_beyond(layers, s->count, s->width, s->height, m, n)
        : depth_within(layers, s->count, flb, s->height, m, n);
}

static inline bool outside(int64_t x, int64_t limit) { return x < -limit || x > limit; }

__attribute__((unused)) static inline salwoerk_depth find_depth(const salwoerk_section *s, int64_t n)
{
    struct materials m;
    int k = accept(s, &m);
    if (!k && outside(n, 500000000)) k = 8;
    if (k) return (salwoerk_depth){ (uint64_t)k, 0, 0 };
    int64_t flb = m.f * m.l * s->width;
    if (below_range(s->layers, s->count, flb, &m, n)) return (salwoerk_depth){ 11, 0, 0 };
    if (!above_section(s->layers, s->count, flb, s->height, &m, n)) return counted_within(s->layers, s->count, flb, s->height, &m, n);
    int64_t u = depth_beyond(s->layers, s->count, s->width, s->height, &m, n);
    return (salwoerk_depth){ u ? 0 : 12, (uint64_t)u, 0 };
}

/* a / b rounded down, b above 0. */
static inline int64_t floor_div(int64_t a, int64_t b) { return a / b - (a % b < 0); }

static inline int64_t moment_within(const salwoerk_layer *layers, size_t count, int64_t b, int64_t h, const struct materials *m, int64_t u)
{
    int64_t hi = m->s * u, lo = -hi, rise = 100 * m->e * u, e = 1000 * m->e, k = m->l * u;
    int64_t sum = m->f * b * (k * (800 * h - k)) / 128000000;
    for (size_t i = 0; i < count; i++) {
        int64_t d = layers[i].depth, x = rise - e * d;
        x = x < lo ? lo : x;
        x = x > hi ? hi : x;
        sum += floor_div(layers[i].area * x * (h - 2 * d), 200 * u);
    }
    return sum;
}

/* Each part's moment from its unrounded force, rounded down. The yielding and the free arm stand apart: over one denominator a layer's moment would
 * not fit. */
static int64_t moment_beyond(const salwoerk_layer *layers, size_t count, int64_t b, int64_t h, const struct materials *m, int64_t u)
{
    int64_t k = block_beyond(h, m, u), sum = m->f * b * (k * (800 * h - k)) / 128000000;
    for (size_t i = 0; i < count; i++) {
        struct strain_line line = line_beyond(layers[i].depth, h, m, u);
        int64_t arm = h - 2 * (int64_t)layers[i].depth;
        sum += line.held ? floor_div(layers[i].area * m->s * arm, 200) : floor_div(layers[i].area * line.rise * arm, 2 * line.run);
    }
    return sum;
}

static inline int64_t moment_resistance(const salwoerk_layer *layers, const salwoerk_section *s, const struct materials *m, int64_t u)
{
    return u > 10 * s->height ? moment_beyond(layers, s->count, s->width, s->height, m, u)
        : moment_within(layers, s->count, s->width, s->height, m, u);
}

/* The greatest k up to most with a·k² or a·k³ at most y. */
#define GREATEST(test) \
    int64_t lo = 0, hi = most; \
    while (lo < hi) { \
        int64_t trial = (lo + hi + 1) / 2; \
        if (test) lo = trial; else hi = trial - 1; \
    } \
    return lo
static inline int64_t halved_square(int64_t a, int64_t y, int64_t most) { GREATEST(a * trial * trial <= y); }
static inline int64_t halved_cube(int64_t a, int64_t y, int64_t most) { GREATEST(a * trial * trial * trial <= y); }

#ifdef SAME
/* About the cube root of z, from 8 to 2^38: z = 8^e·(m/8 and a rest), m from 8 to 63; one step of Halley's rule. */
static inline int64_t cube_guess(uint64_t z)
{
    static const uint8_t first[64] = {   /* 128 times the cube root of (m + 1/2)/8 */
        0, 0, 0, 0, 0, 0, 0, 0, 131, 136, 140, 144, 149, 152, 156, 160, 163, 166, 169, 172, 175, 178, 181, 183, 186, 188, 191, 193, 195,
        198, 200, 202, 204, 206, 208, 210, 212, 214, 216, 218, 220, 222, 223, 225, 227, 228, 230, 232, 233, 235, 237, 238, 240, 241, 243,
        244, 246, 247, 248, 250, 251, 253, 254, 255 };
    unsigned e = (63 - (unsigned)__builtin_clzll(z)) / 3;
    uint64_t g = (uint64_t)first[z >> (3 * e - 3)] << e >> 7, p = g * g * g;
    return (int64_t)(g * (p + 2 * z) / (2 * p + z));
}

/* About the square root of z, from 16 to 2^30. */
static inline int64_t square_guess(uint64_t z)
{
    static const uint8_t first[64] = {   /* 128 times the square root of (m + 1/2)/16 */
        0, 0, 0, 0, 0, 0, 0, 0, 0, 0, 0, 0, 0, 0, 0, 0, 130, 134, 138, 141, 145, 148, 152, 155, 158, 162, 165, 168, 171, 174, 177, 180, 182,
        185, 188, 191, 193, 196, 199, 201, 204, 206, 209, 211, 213, 216, 218, 221, 223, 225, 227, 230, 232, 234, 236, 238, 241, 243, 245,
        247, 249, 251, 253, 255 };
    unsigned e = (63 - (unsigned)__builtin_clzll(z)) / 2;
    uint64_t g = (uint64_t)first[z >> (2 * e - 4)] << e >> 7, p = g * g;
    return (int64_t)(g * (p + 3 * z) / (3 * p + z));
}

static inline int64_t square_root(int64_t a, int64_t y, int64_t most)
{
    int64_t k = square_guess((uint64_t)y / (uint64_t)a | 1024);
    return k <= most && a * k * k <= y && y < a * (k + 1) * (k + 1) ? k : halved_square(a, y, most);
}

static inline int64_t cube_root(int64_t a, int64_t y, int64_t most)
{
    int64_t k = cube_guess((uint64_t)y / (uint64_t)a | 512);
    return k <= most && a * k * k * k <= y && y < a * (k + 1) * (k + 1) * (k + 1) ? k : halved_cube(a, y, most);
}
#else
static inline int64_t square_root(int64_t a, int64_t y, int64_t most) { return halved_square(a, y, most); }
static inline int64_t cube_root(int64_t a, int64_t y, int64_t most) { return halved_cube(a, y, most); }
#endif

/* K for dm 200 to 1,999, made once from its definition. */
static uint16_t factors[1800];

static void start(void)
{
    for (int dm = 200; dm < 2000; dm++)
        factors[dm - 200] = (uint16_t)(1000 + halved_square(dm, 200000000, 1000));
}

static inline int64_t shear_resistance(int64_t b, int64_t h, int64_t fck, const struct materials *m, int64_t n, int64_t area, int64_t dm)
{
    if (!area) return 0;
    int64_t k = dm < 200 ? 2000 : factors[dm - 200], concrete = b * dm, cap = m->g * b * h / 500;
    int64_t r = 50 * area > concrete ? cube_root(1, 2000000000 * fck, 5646) : cube_root(concrete, 100000000000 * area * fck, 5646);
    int64_t q = square_root(1000, k * k * k * fck, 26832);
    int64_t by_ratio = m->crd * k * r / 100, least = 35 * q, v = by_ratio > least ? by_ratio : least, c = n < cap ? n : cap;
    int64_t sum = v * concrete / 1000000 + floor_div(15 * c * dm, 100 * h);
    return sum < 0 ? 0 : sum;
}

/* 6.2.3: the cotangent in tenths whose lesser resistance, of links and strut, is greatest, the smallest on a tie; and that resistance. */
struct strut { int64_t cotangent, resistance; };

static inline struct strut strut_for(const salwoerk_links *links, int64_t b, int64_t dm, int64_t fck, const struct materials *m)
{
    struct strut best = { 0, -1 };
    for (int64_t c = 10; c <= 25; c++) {
        int64_t by_links = 9 * links->area * dm * m->s * c / (10000 * (int64_t)links->spacing);
        int64_t by_strut = 27 * b * dm * (250 - fck) * m->g * c / (125000 * (c * c + 100));
        int64_t lesser = by_links < by_strut ? by_links : by_strut;
        if (lesser > best.resistance) best = (struct strut){ c, lesser };
    }
    return best;
}

/* 9.2.2(6) and (5): the spacing is at most 0.75 dm, and area/(spacing b) at least 0.08 sqrt(fck)/fyk, by squares. */
static inline bool well_spaced(const salwoerk_links *links, int64_t dm) { return 4 * (int64_t)links->spacing <= 3 * dm; }

static inline bool enough_links(const salwoerk_links *links, int64_t b, const salwoerk_grade *grade)
{
    int64_t steel = links->area * grade->fyk, concrete = links->spacing * b;
    return 625 * steel * steel >= 4 * grade->fck * concrete * concrete;
}

static inline int64_t magnitude(int64_t x) { return x < 0 ? -x : x; }

/* A face: the layers as it sees them, its depth under N and its resistance there. */
struct face { const salwoerk_layer *layers; int64_t u, mrd; };

static inline struct face face_at(const salwoerk_layer *layers, const salwoerk_section *s, const struct materials *m, int64_t u)
{
    return (struct face){ layers, u, moment_resistance(layers, s, m, u) };
}

/* What is reported of the two faces: the one that M compresses is shown. */
static inline salwoerk_report report(const struct face *top, const struct face *bottom, const salwoerk_section *s, const struct materials *m,
    const salwoerk_load *l)
{
    const struct face *shown = l->m < 0 ? bottom : top, *other = l->m < 0 ? top : bottom;
    int64_t b = s->width, h = s->height, u = shown->u, area = 0, moment = 0, all = 0;
    for (size_t i = 0; i < s->count; i++) {
        int64_t d = shown->layers[i].depth, a = 10 * d > u ? shown->layers[i].area : 0;
        area += a;
        moment += a * d;
        all += shown->layers[i].area;
    }
    int64_t dm = area ? moment / area : 0;
    int64_t vrd = shear_resistance(b, h, s->grade.fck, m, l->n, area, dm);
    bool linked = s->links.present && area;
    struct strut strut = linked ? strut_for(&s->links, b, dm, s->grade.fck, m) : (struct strut){ 0, 0 };
    return (salwoerk_report){
        0, (uint64_t)u, shown->mrd, (uint64_t)other->u, other->mrd, (uint64_t)vrd, (uint64_t)dm, (uint64_t)area,
        (uint64_t)strut.cotangent, (uint64_t)strut.resistance,
        { l->m > top->mrd || l->m < -bottom->mrd,
        !area ? 2 : 10 * u > (s->grade.fck <= 50 ? 45 : 35) * dm,
        !area ? 2 : magnitude(l->v) > vrd,
        !area ? 2 : 26 * m->t * b * dm > 1000 * area * s->grade.fyk || 13 * b * dm > 10000 * area,
        25 * all > b * h,
        !linked ? 2 : magnitude(l->v) > strut.resistance || !well_spaced(&s->links, dm) || !enough_links(&s->links, b, &s->grade) },
    };
}

static inline salwoerk_report refused(int number)
{
    return (salwoerk_report){ .refusal = (uint64_t)number, .verdicts = { 2, 2, 2, 2, 2, 2 } };
}

/* The load tests. */
static inline int load_refusal(const salwoerk_load *l)
{
    return outside(l->n, 500000000) ? 8 : outside(l->m, 1000000000000) ? 9 : outside(l->v, 500000000) ? 10 : 0;
}

/* The link tests. */
static inline int link_refusal(const salwoerk_links *links, int64_t n)
{
    if (!links->present) return 0;
    return links->area < 1 || links->area > 5000 ? 27 : links->spacing < 25 || links->spacing > 1000 ? 28 : n ? 29 : 0;
}

/* The layers as the bottom sees them. */
static inline void turn_over(const salwoerk_section *s, salwoerk_layer *turned)
{
    for (size_t i = 0; i < s->count; i++)
        turned[i] = (salwoerk_layer){ (uint32_t)s->height - s->layers[i].depth, s->layers[i].area };
}

/* At depth 1 every layer is at its limit, so that 11 is the same for both faces and is asked once; 12 is of either face. */
static inline salwoerk_report check(const salwoerk_section *s, const salwoerk_load *l)
{
    struct materials m;
    salwoerk_layer turned[16];
    int k = accept(s, &m);
    if (!k) k = load_refusal(l);
    if (!k) k = link_refusal(&s->links, l->n);
    if (k) return refused(k);
    int64_t flb = m.f * m.l * s->width;
    if (below_range(s->layers, s->count, flb, &m, l->n)) return refused(11);
    int64_t top_u = depth_for(s->layers, s, flb, &m, l->n);
    if (!top_u) return refused(12);
    turn_over(s, turned);
    int64_t bottom_u = depth_for(turned, s, flb, &m, l->n);
    if (!bottom_u) return refused(12);
    struct face top = face_at(s->layers, s, &m, top_u), bottom = face_at(turned, s, &m, bottom_u);
    return report(&top, &bottom, s, &m, l);
}

/* What Check says of a copy with that layer in that place. A count above 16, which 5 refuses whatever it is, stays as it is. */
__attribute__((unused)) static inline salwoerk_report try_layer(const salwoerk_section *s, const salwoerk_load *l, size_t place, salwoerk_layer layer)
{
    if (place > s->count) return refused(33);
    salwoerk_section altered = *s;
    if (place < 16) altered.layers[place] = layer;
    if (place == s->count && place <= 16) altered.count++;
    return check(&altered, l);
}

/* ---- for the loads that bench.c draws, of an accepted section: the face that M compresses */

/* Its internal force at u, rounded down to whole newtons. */
__attribute__((unused)) static int64_t newtons_at(const salwoerk_section *s, int64_t moment, int64_t u)
{
    struct materials m;
    salwoerk_layer turned[16];
    if (accept(s, &m)) return 0;
    turn_over(s, turned);
    const salwoerk_layer *layers = moment < 0 ? turned : s->layers;
    return u > 10 * s->height ? force_beyond(layers, s->count, s->width, s->height, &m, u)
        : floor_div(force(layers, s->count, m.f * m.l * s->width, &m, u), 80000 * u);
}

/* The greatest of its forces beyond 10h. */
__attribute__((unused)) static int64_t most_beyond(const salwoerk_section *s, int64_t moment)
{
    struct materials m;
    salwoerk_layer turned[16];
    int64_t most = 0;
    if (accept(s, &m)) return 0;
    turn_over(s, turned);
    for (int64_t u = 10 * s->height + 1; u <= 30 * s->height; u++) {
        int64_t n = force_beyond(moment < 0 ? turned : s->layers, s->count, s->width, s->height, &m, u);
        most = n > most ? n : most;
    }
    return most;
}

#ifdef SAME
void same_start(void) { start(); }
salwoerk_report same_check(const salwoerk_section *s, const salwoerk_load *l) { return check(s, l); }
#else
void plain_start(void) { start(); }
salwoerk_depth plain_find_depth(const salwoerk_section *s, int64_t n) { return find_depth(s, n); }
salwoerk_depth plain_find_depth_by_value(salwoerk_section s, int64_t n) { return find_depth(&s, n); }
salwoerk_report plain_check(const salwoerk_section *s, const salwoerk_load *l) { return check(s, l); }
salwoerk_report plain_check_by_value(salwoerk_section s, salwoerk_load l) { return check(&s, &l); }
salwoerk_report plain_try_layer(const salwoerk_section *s, const salwoerk_load *l, size_t place, salwoerk_layer layer)
{
    return try_layer(s, l, place, layer);
}
int64_t plain_force(const salwoerk_section *s, int64_t moment, int64_t u) { return newtons_at(s, moment, u); }
int64_t plain_most_beyond(const salwoerk_section *s, int64_t moment) { return most_beyond(s, moment); }
#endif
