/* Bars dragged through two sections, as in a layout window, and the verdicts as they turn: a line for each stretch in which none of them does. The
 * sections are section A of the scope document with three bars of 20 mm more and links every 300 mm, under M 300,000,000 N mm and V 90,000 N; and
 * the column of check.c under N 1,500,000 N, M 120,000,000 N mm and V 150,000 N.
 *     ./build-library
 *     gcc -I include examples/drag.c target/lib/libsalwoerk.a -o drag && ./drag
 */
#include <stdio.h>
#include <string.h>
#include "salwoerk.h"

#define BAR_20 314 /* mm2 of one bar of 20 mm */
#define BARS_25 1472 /* of three bars of 25 mm */

/* What the user drags: the layer where the drag begins, and what each step adds to it, a millimetre of depth or the area of a bar. */
typedef struct {
    const char *what, *unit;
    salwoerk_layer layer, step;
    unsigned steps;
} drag;

/* Section A with a second group, of three bars of 20 mm, at the top. */
static salwoerk_section beam(void)
{
    salwoerk_section b = SALWOERK_SECTION_INIT;
    b.width = 300;
    b.height = 500;
    b.grade.fck = 30;
    b.grade.fyk = 500;
    b.count = 2;
    b.layers[0].depth = 450;
    b.layers[0].area = 1500;
    b.layers[1].depth = 50;
    b.layers[1].area = 3 * BAR_20;
    b.links.present = 1;
    b.links.area = 101;
    b.links.spacing = 300;
    return b;
}

static salwoerk_section column(void)
{
    salwoerk_section c = SALWOERK_SECTION_INIT;
    c.width = c.height = 400;
    c.grade.fck = 40;
    c.grade.fyk = 500;
    c.count = 2;
    c.layers[0].depth = 50;
    c.layers[1].depth = 350;
    c.layers[0].area = c.layers[1].area = BARS_25;
    return c;
}

static void print_heading(const drag *d)
{
    printf("%s\n%-10s", d->what, d->unit);
    for (size_t i = 0; i < SALWOERK_VERDICTS; i++) printf("%13s", salwoerk_verdict_clause(i));
    printf("\n");
}

/* From one step to another: the six verdicts, or the refusal. */
static void print_stretch(unsigned first, unsigned last, const salwoerk_report *r)
{
    int width = first < last ? printf("%u to %u", first, last) : printf("%u", first);
    printf("%*s", 10 - width, "");
    if (r->refusal)
        printf("  refused, %d: %s", (int)r->refusal, salwoerk_refusal_text(r->refusal));
    else
        for (size_t i = 0; i < SALWOERK_VERDICTS; i++) printf("%13s", salwoerk_verdict_text(r->verdicts[i]));
    printf("\n");
}

/* Neither the refusal nor a verdict has turned; the figures beside them may have changed. */
static int alike(const salwoerk_report *a, const salwoerk_report *b)
{
    return a->refusal == b->refusal && !memcmp(a->verdicts, b->verdicts, sizeof a->verdicts);
}

/* A trial for each step; the section in hand stays as it is throughout. */
static void show(salwoerk_section s, salwoerk_load l, size_t place, drag d)
{
    print_heading(&d);
    salwoerk_report shown = salwoerk_try_layer(s, l, place, d.layer);
    unsigned first = 0;
    for (unsigned step = 1; step <= d.steps; step++) {
        d.layer.depth += d.step.depth;
        d.layer.area += d.step.area;
        salwoerk_report r = salwoerk_try_layer(s, l, place, d.layer);
        if (alike(&r, &shown)) continue;
        print_stretch(first, step - 1, &shown);
        first = step;
        shown = r;
    }
    print_stretch(first, d.steps, &shown);
}

int main(void)
{
    salwoerk_section b = beam(), c = column();
    salwoerk_load bent = { 0, 300000000, 90000 }, pressed = { 1500000, 120000000, 150000 };
    drag down = { "beam: three bars of 20 mm, from the top to the bottom", "depth, mm", { 0, 3 * BAR_20 }, { 1, 0 }, (unsigned)b.height };
    drag more = { "beam: the number of those bars, at 400 mm", "bars", { 400, 0 }, { 0, BAR_20 }, 6 };
    drag added = { "beam: a third layer, of bars of 20 mm at 50 mm, beside three at 400 mm", "bars", { 50, 0 }, { 0, BAR_20 }, 4 };
    drag through = { "column: three bars of 25 mm, from the top to the bottom", "depth, mm", { 0, BARS_25 }, { 1, 0 }, (unsigned)c.height };

    show(b, bent, 1, down);
    printf("\n");
    b.layers[1].depth = 400; /* the user lets go there: a trial places nothing */
    show(b, bent, 1, more);
    printf("\n");
    show(b, bent, b.count, added); /* a place equal to count adds a layer */
    printf("\n");
    show(c, pressed, 1, through);
    return 0;
}
