/*
 * Times two libraries in one program, in turn, over jobs: before_job and after_job are pokchrei_job of each, renamed by
 * beside.sh. Arguments are jobs and their steps. A line for each: its name, and the least nanoseconds a step of both. A
 * job that the earlier library refuses and the later one runs, since it has an instruction that came later, is left out.
 * The earlier library may print no line of steps.
 */
#include <stdint.h>
#include <stdio.h>
#include <stdlib.h>
#include <string.h>
#include <time.h>

enum { TURNS = 7, ROOM = 65536, MOST = 1 << 17 };

typedef size_t job_function(const uint8_t *input, size_t input_length, uint8_t out[ROOM]);
job_function before_job, after_job;

static uint8_t input[MOST], texts[2][ROOM];

/* The least of a time and of one more run, in nanoseconds of the processor. */
static double least(double best, job_function *job, size_t input_length, uint8_t *out, size_t *length)
{
    struct timespec start, end;
    clock_gettime(CLOCK_PROCESS_CPUTIME_ID, &start);
    *length = job(input, input_length, out);
    clock_gettime(CLOCK_PROCESS_CPUTIME_ID, &end);
    double time = (end.tv_sec - start.tv_sec) * 1e9 + (end.tv_nsec - start.tv_nsec);
    return time < best ? time : best;
}

static int alike(const size_t lengths[2])
{
    return lengths[0] == lengths[1] && !memcmp(texts[0], texts[1], lengths[0]);
}

/* Takes the line of steps, which is the second, out of a text that has one. Returns the length that is left. */
static size_t without_steps(uint8_t *text, size_t length)
{
    uint8_t *end = text + length, *line = memchr(text, '\n', length);
    if (!line || end - ++line < 6 || memcmp(line, "steps ", 6)) return length;
    uint8_t *next = memchr(line, '\n', end - line);
    if (!next) return length;
    next++;
    memmove(line, next, end - next);
    return length - (next - line);
}

static void compare(const char *path, double steps)
{
    FILE *file = fopen(path, "rb");
    if (!file) exit(1);
    size_t input_length = fread(input, 1, MOST, file);
    fclose(file);
    double before = 1e18, after = 1e18;
    size_t lengths[2];
    for (int turn = 0; turn < TURNS; turn++) {
        before = least(before, before_job, input_length, texts[0], &lengths[0]);
        after = least(after, after_job, input_length, texts[1], &lengths[1]);
    }
    const char *name = strrchr(path, '/') + 1;
    if (!memcmp(texts[0], "refused", 7) && !memcmp(texts[1], "done", 4)) return;
    if (!alike(lengths)) lengths[1] = without_steps(texts[1], lengths[1]);
    if (!alike(lengths)) {
        fprintf(stderr, "%s: the two end otherwise\n", name);
        exit(1);
    }
    printf("%s %.4f %.4f\n", name, before / steps, after / steps);
}

int main(int count, char **words)
{
    for (int i = 1; i + 1 < count; i += 2) compare(words[i], atof(words[i + 1]));
    return 0;
}
