/* How many records a second the list program does.
 *
 *   list PROGRAM
 *
 * A run reads as many records of four layers as 65,536 bytes hold and prints to /dev/null; a run on empty input does all but the records: the
 * start of the process, its buffers and the first line. RUNS pairs of such runs, one after the other, so that whatever else the machine does
 * falls on both. What counts is the processor time of the process, which another process cannot lengthen by being run in between. The time
 * of the records is the median of the differences in a pair. Where a quarter of the differences is 0 or less, the start varies more than the
 * records take, and no rate is printed. */
#define _DEFAULT_SOURCE
#include <fcntl.h>
#include <spawn.h>
#include <stdio.h>
#include <stdlib.h>
#include <sys/resource.h>
#include <sys/wait.h>
#include <unistd.h>
#include "../include/salwoerk.h"

#define RUNS 1000
#define INPUT_ROOM 65536
#define LAYERS 4

static uint8_t input[INPUT_ROOM];

static int64_t between(int64_t lo, int64_t hi)
{
    static uint64_t state = 0x9e3779b97f4a7c15u;
    state ^= state << 13;
    state ^= state >> 7;
    state ^= state << 17;
    return lo + (int64_t)((state >> 11) % (uint64_t)(hi - lo + 1));
}

/* Of the size of a beam or a column. */
static salwoerk_section section(void)
{
    salwoerk_section s = SALWOERK_SECTION_INIT;
    s.width = between(200, 1000);
    s.height = between(300, 1500);
    s.grade.fck = 5 * between(4, 10);
    s.grade.fyk = between(400, 600);
    s.count = LAYERS;
    for (size_t i = 0; i < s.count; i++) {
        s.layers[i].depth = (uint32_t)between(30, s.height - 30);
        s.layers[i].area = (uint32_t)between(100, 5000);
    }
    return s;
}

/* Records that Check accepts with depths up to 10h, until one does not fit; how many there are, and their bytes. */
static size_t fill(size_t *length)
{
    size_t records = 0;
    *length = 0;
    for (;;) {
        salwoerk_section s = section();
        salwoerk_load l = { between(-200000, 2000000), between(-1000000000, 1000000000), between(-500000, 500000) };
        salwoerk_report r = salwoerk_check(s, l);
        if (r.refusal || salwoerk_is_beyond(s.height, r.u) || salwoerk_is_beyond(s.height, r.other_u)) continue;
        salwoerk_written w = salwoerk_write(s, l, input + *length, sizeof input - *length);
        if (w.refusal) return records;
        *length += w.length;
        records++;
    }
}

static double seconds(struct timeval t) { return (double)t.tv_sec + (double)t.tv_usec / 1e6; }

/* The processor time of one run in seconds. */
static double run(char *program, const char *path)
{
    char *words[] = { program, NULL }, *none[] = { NULL };
    posix_spawn_file_actions_t files;
    struct rusage used;
    pid_t child;
    int status = 0;
    posix_spawn_file_actions_init(&files);
    posix_spawn_file_actions_addopen(&files, 0, path, O_RDONLY, 0);
    posix_spawn_file_actions_addopen(&files, 1, "/dev/null", O_WRONLY, 0);
    if (posix_spawn(&child, program, &files, NULL, words, none) || wait4(child, &status, 0, &used) != child || status) {
        printf("%s did not run\n", program);
        exit(1);
    }
    posix_spawn_file_actions_destroy(&files);
    return seconds(used.ru_utime) + seconds(used.ru_stime);
}

static int rising(const void *a, const void *b)
{
    double x = *(const double *)a, y = *(const double *)b;
    return (x > y) - (x < y);
}

static void measure(char *program, const char *path, size_t records, size_t length)
{
    static double difference[RUNS], start[RUNS];
    for (int i = 0; i < RUNS; i++) {
        start[i] = run(program, "/dev/null");
        difference[i] = run(program, path) - start[i];
    }
    qsort(difference, RUNS, sizeof *difference, rising);
    qsort(start, RUNS, sizeof *start, rising);
    double first = difference[RUNS / 4], median = difference[RUNS / 2], third = difference[3 * RUNS / 4];
    printf("list program, %d runs of %zu bytes, %zu records of %d layers each: ", RUNS, length, records, LAYERS);
    if (first <= 0)
        printf("cannot tell; the start of a process varies more than its records take (%.3f to %.3f ms)\n", first * 1e3, third * 1e3);
    else
        printf("%.2f us a record, %.0f records/s (half of the runs %.0f to %.0f); a run on empty input takes %.2f ms\n",
            median * 1e6 / (double)records, (double)records / median, (double)records / third, (double)records / first, start[RUNS / 2] * 1e3);
}

int main(int count, char **words)
{
    char path[] = "/tmp/bench-records-XXXXXX";
    size_t length, records = fill(&length);
    int file = count == 2 ? mkstemp(path) : -1;
    if (file < 0 || write(file, input, length) != (ssize_t)length || close(file)) {
        printf("list PROGRAM, with room in /tmp for one input\n");
        return 1;
    }
    measure(words[1], path, records, length);
    unlink(path);
    return 0;
}
