/* Depth, resistances and verdicts of two sections: section A of the scope document with links of 101 mm2 every 200 mm, under M 200,000,000 N mm and
 * V 80,000 N; and a precast column that N 4,500,000 N compresses over its full height.
 *     ./build-library
 *     gcc -I include examples/check.c target/lib/libsalwoerk.a -o check && ./check
 */
#include <stdio.h>
#include "salwoerk.h"

static salwoerk_section section_a(void)
{
    salwoerk_section a = SALWOERK_SECTION_INIT;
    a.width = 300;
    a.height = 500;
    a.grade.fck = 30;
    a.grade.fyk = 500;
    a.grade.situation = SALWOERK_PERSISTENT; /* as SALWOERK_SECTION_INIT has it; or SALWOERK_ACCIDENTAL */
    a.grade.alpha_cc = SALWOERK_RECOMMENDED_ALPHA_CC; /* as SALWOERK_SECTION_INIT has it; or what the national annex has, such as 85 */
    a.count = 1;
    a.layers[0].depth = 450;
    a.layers[0].area = 1500;
    a.links.present = 1;
    a.links.area = 101;
    a.links.spacing = 200;
    return a;
}

/* Three bars of 25 mm at each of two faces, 50 mm from it. */
static salwoerk_section column(void)
{
    salwoerk_section c = SALWOERK_SECTION_INIT;
    c.width = c.height = 400;
    c.grade.fck = 40;
    c.grade.fyk = 500;
    c.count = 2;
    c.layers[0].depth = 50;
    c.layers[1].depth = 350;
    c.layers[0].area = c.layers[1].area = 1472;
    return c;
}

/* What is to be said of a depth: beyond 10h the neutral axis lies outside the section. */
static const char *kind(int64_t height, uint64_t depth)
{
    return salwoerk_is_beyond(height, depth) ? " (compressed over the full height)" : "";
}

static int show(salwoerk_section s, salwoerk_load load)
{
    salwoerk_report r = salwoerk_check(s, load);
    if (r.refusal) {
        printf("refused, %d: %s\n", (int)r.refusal, salwoerk_refusal_text(r.refusal));
        return 1;
    }
    printf("u %.1f mm%s, MRd %lld N mm, VRd,c %d N, dm %d mm, As %d mm2\n", (double)r.u / 10, kind(s.height, r.u), (long long)r.mrd, (int)r.vrd,
        (int)r.dm, (int)r.area);
    printf("the other face: u %.1f mm%s, MRd %lld N mm\n", (double)r.other_u / 10, kind(s.height, r.other_u), (long long)r.other_mrd);
    if (r.cotangent) /* 0 where there are no links */
        printf("with links: VRd %d N, cotangent %.1f\n", (int)r.link_resistance, (double)r.cotangent / 10);
    salwoerk_depth top = salwoerk_find_depth(s, load.n); /* from the top, whichever face M compresses */
    if (top.trials) /* 0 beyond 10h */
        printf("depth from the top: %d trials of the halving rule, never more than %d\n", (int)top.trials, SALWOERK_MOST_TRIALS);
    for (size_t i = 0; i < SALWOERK_VERDICTS; i++)
        printf("%s, %s: %s\n", salwoerk_verdict_clause(i), salwoerk_verdict_question(i), salwoerk_verdict_text(r.verdicts[i]));
    return 0;
}

int main(void)
{
    salwoerk_load bent = { 0, 200000000, 80000 }, pressed = { 4500000, 120000000, 20000 };
    int refused = show(section_a(), bent);
    printf("\n");
    return show(column(), pressed) || refused;
}
