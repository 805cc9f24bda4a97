/* The lines of the table. */
#ifndef SHOW_H
#define SHOW_H

struct times {
    double ours;
    /* 0 where it wasn't measured */
    double rust;
};

/* A title, and its columns: those of print_times, or others. */
#define COLUMNS "       ours        Rust ours/Rust"

void print_title(const char *title, const char *columns);

/* Both times and their ratio, behind a text. */
void print_times(const char *text, struct times times);

/* The Rust's time and the ratio alone, to end a line. */
void print_rust(struct times times);

/* From now on bare lines for another program, as ratios.h has them. */
void print_bare(void);

/* A time with its unit. The text is good until this was called four times more. */
const char *shown_time(double seconds);

#endif
