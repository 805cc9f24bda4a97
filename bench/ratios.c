#include "ratios.h"

#include "logs.h"
#include "measure.h"
#include "show.h"

#include <errno.h>
#include <stdio.h>
#include <stdlib.h>
#include <string.h>

#define LINES_MOST 64
#define ROUNDS_MOST 99

struct line {
    char text[64];
    /* 0 of a title */
    double seconds;
};

struct run {
    struct line lines[LINES_MOST];
    size_t count;
};

static struct run before[ROUNDS_MOST];
static struct run after[ROUNDS_MOST];

static int read_line(FILE *file, struct line *line)
{
    char whole[128];

    return fgets(whole, sizeof whole, file) != NULL && sscanf(whole, "%63[^\t\n] %lf", line->text, &line->seconds) >= 1;
}

static void read_run(struct run *run, const char *folder, const char *side, size_t round)
{
    char path[512];
    FILE *file;

    snprintf(path, sizeof path, "%s/%s.%zu", folder, side, round);
    file = fopen(path, "r");
    if (file == NULL)
        die(path, strerror(errno));
    while (run->count < LINES_MOST && read_line(file, &run->lines[run->count]))
        run->count++;
    if (!feof(file))
        die(path, "a line is not understood");
    fclose(file);
}

/* A ratio is worth something only between lines that are the same. */
static void same_or_die(const struct run *run, const struct run *other)
{
    if (run->count != other->count)
        die("ratios", "a run has fewer lines than another");
    for (size_t k = 0; k < run->count; k++)
        if (strcmp(run->lines[k].text, other->lines[k].text) != 0
            || (run->lines[k].seconds > 0) != (other->lines[k].seconds > 0))
            die(run->lines[k].text, "not the same line in every run");
}

static void read_rounds(const char *folder, size_t rounds)
{
    for (size_t r = 0; r < rounds; r++) {
        read_run(&before[r], folder, "before", r + 1);
        read_run(&after[r], folder, "after", r + 1);
        same_or_die(&before[r], &before[0]);
        same_or_die(&after[r], &before[0]);
    }
}

/* Each column by itself, so the ratio need not be that of the two times before it. */
static void print_ratio(size_t k, size_t rounds)
{
    double old[ROUNDS_MOST];
    double new[ROUNDS_MOST];
    double ratio[ROUNDS_MOST];
    double middle;

    for (size_t r = 0; r < rounds; r++) {
        old[r] = before[r].lines[k].seconds;
        new[r] = after[r].lines[k].seconds;
        ratio[r] = new[r] / old[r];
    }
    middle = median(ratio, rounds);
    printf("%-34s %11s %11s %12.3f    %6.3f to %.3f\n", before[0].lines[k].text, shown_time(median(old, rounds)),
           shown_time(median(new, rounds)), middle, ratio[0], ratio[rounds - 1]);
}

void ratios(const char *folder, const char *rounds)
{
    size_t n = strtoul(rounds, NULL, 10);

    if (n == 0 || n > ROUNDS_MOST)
        die(rounds, "so many rounds aren't taken");
    read_rounds(folder, n);
    for (size_t k = 0; k < before[0].count; k++)
        if (before[0].lines[k].seconds > 0)
            print_ratio(k, n);
        else
            print_title(before[0].lines[k].text, "     before       after after/before               seen");
}
