/* bench write FOLDER: writes the logs that both sides read.
 * bench table FOLDER [RUST]: measures the library on them and prints the table, beside the Rust's figures in the file RUST.
 * bench lines FOLDER: measures a part of it once, and prints bare lines for `ratios`.
 * bench ratios FOLDER ROUNDS: prints the table of two libraries, from the lines of so many rounds. */
#include "logs.h"
#include "measure.h"
#include "ratios.h"
#include "rust.h"
#include "show.h"
#include "tables.h"

#include <stdio.h>
#include <stdlib.h>
#include <string.h>

static void write_logs(const char *folder)
{
    for (size_t i = 0; i < plan_count; i++)
        log_write(&plans[i], folder);
}

static void print_table(const char *folder, const char *rust)
{
    if (rust != NULL)
        rust_read(rust);
    checksums();
    appends();
    recoveries(folder);
}

static void print_lines(const char *folder)
{
    measure_once();
    print_bare();
    checksum_lengths();
    appends();
    recoveries_in_short(folder);
}

int main(int argc, char **argv)
{
    const char *mode = argc < 2 ? "" : argv[1];

    if (argc == 3 && strcmp(mode, "write") == 0)
        write_logs(argv[2]);
    else if ((argc == 3 || argc == 4) && strcmp(mode, "table") == 0)
        print_table(argv[2], argv[3]);
    else if (argc == 3 && strcmp(mode, "lines") == 0)
        print_lines(argv[2]);
    else if (argc == 4 && strcmp(mode, "ratios") == 0)
        ratios(argv[2], argv[3]);
    else {
        fputs("usage: bench write FOLDER | table FOLDER [RUST] | lines FOLDER | ratios FOLDER ROUNDS\n", stderr);
        return 2;
    }
    return EXIT_SUCCESS;
}
