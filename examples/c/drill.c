/* The program drill in C: a drill file from standard input, its text to standard output, by the static library. */

#include <stdio.h>
#include <stdlib.h>

#include "fiddleroost.h"

/* One byte more than a file may have, so that a longer one is seen. */
static uint8_t file[FIDDLEROOST_FILE_MOST + 1];
static uint8_t text[FIDDLEROOST_TEXT_MOST];

int main(void)
{
    if (fiddleroost_text_most() != sizeof text) {
        fputs("the header is not the library's\n", stderr);
        return EXIT_FAILURE;
    }
    size_t length = fread(file, 1, sizeof file, stdin);
    if (ferror(stdin)) {
        fputs("standard input could not be read\n", stderr);
        return EXIT_FAILURE;
    }
    size_t count = fiddleroost_text(file, length, text);
    if (fwrite(text, 1, count, stdout) != count || fflush(stdout) != 0) {
        fputs("standard output could not be written\n", stderr);
        return EXIT_FAILURE;
    }
    return EXIT_SUCCESS;
}
