/* What oracle/measure printed: the Rust's figures. */
#ifndef RUST_H
#define RUST_H

#include <stddef.h>
#include <stdint.h>

/* Of a log: the times of recovery and replay, and what they answered. Of `append`: the times of the raw call and of the entry
 * call. Of `checksum`: its time, and the checksum. */
struct figures {
    double first;
    double second;
    size_t total;
    size_t committed;
    size_t rows;
    uint32_t crc;
};

/* Reads a file of lines; without a file nothing is known of the Rust. */
void rust_read(const char *path);

/* NULL where nothing is known. */
const struct figures *rust_figures(const char *name);

#endif
