/* The parts of the tables, each measured and printed. */
#ifndef TABLES_H
#define TABLES_H

void checksums(void);

/* Our checksum alone, of short bytes too. */
void checksum_lengths(void);

void appends(void);

/* Recovery and replay of the logs in the folder. */
void recoveries(const char *folder);

/* Of those only the small, the large and the long one. */
void recoveries_in_short(const char *folder);

#endif
