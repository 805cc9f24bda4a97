#include "rust.h"

#include "logs.h"

#include <errno.h>
#include <inttypes.h>
#include <stdio.h>
#include <string.h>

#define MOST 64

static struct {
    char name[32];
    struct figures figures;
} known[MOST];

static size_t count;

/* NAME FIRST SECOND TOTAL COMMITTED ROWS CRC */
static int read_line(FILE *file)
{
    struct figures *f = &known[count].figures;

    return fscanf(file, "%31s %lf %lf %zu %zu %zu %" SCNx32, known[count].name, &f->first, &f->second, &f->total,
                  &f->committed, &f->rows, &f->crc) == 7;
}

void rust_read(const char *path)
{
    FILE *file = fopen(path, "r");

    if (file == NULL)
        die(path, strerror(errno));
    while (count < MOST && read_line(file))
        count++;
    if (!feof(file))
        die(path, "a line is not understood");
    fclose(file);
}

const struct figures *rust_figures(const char *name)
{
    for (size_t i = 0; i < count; i++)
        if (strcmp(known[i].name, name) == 0)
            return &known[i].figures;
    return NULL;
}
