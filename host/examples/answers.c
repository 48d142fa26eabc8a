/*
 * Answers scripts from a C program: `answers FILE..`, or a script from standard
 * input.
 *
 *   cc -I host/include host/examples/answers.c target/staticlib/libscript.a -o answers
 */
#include "season_book.h"

#include <stdio.h>

/* One byte more than a script may have shows that there are too many. */
static uint8_t script[SEASON_MAX_SCRIPT_BYTES + 1];
static uint8_t out[SEASON_MAX_SCRIPT_LINES * SEASON_OUTPUT_BYTES_PER_LINE];

/* Prints the answers of a script; 0 if it was run. */
static int show(const char *name, FILE *file)
{
    size_t length = fread(script, 1, sizeof script, file);
    if (ferror(file)) {
        fprintf(stderr, "%s: it cannot be read\n", name);
        return 1;
    }
    uint64_t number = season_run(script, length, out, sizeof out);
    if (number >= SEASON_REFUSAL_UNIT) {
        fprintf(stderr, "%s: refused with %d\n", name, (int)(number / SEASON_REFUSAL_UNIT));
        return 1;
    }
    return fwrite(out, 1, (size_t)number, stdout) != (size_t)number;
}

int main(int count, char **names)
{
    if (count < 2)
        return show("standard input", stdin);
    int failed = 0;
    for (int k = 1; k < count; k++) {
        FILE *file = fopen(names[k], "rb");
        if (file == NULL) {
            perror(names[k]);
            failed = 1;
            continue;
        }
        failed |= show(names[k], file);
        fclose(file);
    }
    return failed;
}
