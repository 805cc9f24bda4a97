/* Two libraries beside each other, from what `bench lines` printed over each of them in several rounds: bare lines, of a text,
 * a tab and seconds. A title is a text alone. */
#ifndef RATIOS_H
#define RATIOS_H

/* Reads FOLDER/before.1, FOLDER/after.1 and so on for so many rounds, and prints a table. */
void ratios(const char *folder, const char *rounds);

#endif
