/* What the benchmark compares: the engine's calls, from target/lib/libsalwoerk.a, and the same calls in plain C, from plain.c. */
#ifndef BENCH_H
#define BENCH_H

#include "../include/salwoerk.h"

/* Plain C takes a section where it lies, or by value as the engine does. */
void plain_start(void);
salwoerk_depth plain_find_depth(const salwoerk_section *s, int64_t n);
salwoerk_depth plain_find_depth_by_value(salwoerk_section s, int64_t n);
salwoerk_report plain_check(const salwoerk_section *s, const salwoerk_load *l);
salwoerk_report plain_check_by_value(salwoerk_section s, salwoerk_load l);
salwoerk_report plain_try_layer(const salwoerk_section *s, const salwoerk_load *l, size_t place, salwoerk_layer layer);

/* Of an accepted section and the face that M compresses, in whole newtons: the internal force at u, rounded down, and the greatest one beyond 10h. */
int64_t plain_force(const salwoerk_section *s, int64_t moment, int64_t u);
int64_t plain_most_beyond(const salwoerk_section *s, int64_t moment);

/* The same, compiled with the engine's rule for r and q. */
void same_start(void);
salwoerk_report same_check(const salwoerk_section *s, const salwoerk_load *l);

#endif
