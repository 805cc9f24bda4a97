#include "show.h"

#include <stdio.h>

static int is_bare;

void print_bare(void)
{
    is_bare = 1;
}

const char *shown_time(double seconds)
{
    static char texts[4][16];
    static unsigned next;
    char *text = texts[next++ % 4];

    if (seconds < 1e-6)
        snprintf(text, sizeof *texts, "%.1f ns", seconds * 1e9);
    else if (seconds < 1e-3)
        snprintf(text, sizeof *texts, "%.2f us", seconds * 1e6);
    else if (seconds < 1)
        snprintf(text, sizeof *texts, "%.2f ms", seconds * 1e3);
    else
        snprintf(text, sizeof *texts, "%.2f s", seconds);
    return text;
}

void print_rust(struct times times)
{
    if (times.rust > 0)
        printf(" %11s %9.2f\n", shown_time(times.rust), times.ours / times.rust);
    else
        printf(" %11s %9s\n", "-", "-");
}

void print_times(const char *text, struct times times)
{
    if (is_bare) {
        printf("%s\t%e\n", text, times.ours);
        return;
    }
    printf("%-34s %11s", text, shown_time(times.ours));
    print_rust(times);
    fflush(stdout);
}

void print_title(const char *title, const char *columns)
{
    if (is_bare) {
        puts(title);
        return;
    }
    printf("\n%-34s %s\n", title, columns);
    fflush(stdout);
}
