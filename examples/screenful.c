/*
 * Shows a screenful of the USX text of a tape file:
 *
 *     screenful BOOK.tape [BYTE]
 *
 * writes the text's bytes from number BYTE on (the first is 0, and BYTE is 0 if it is left out), as many as a screen holds, and says on standard error which bytes of how
 * many they are. The exit status is 0, or 1 where the tape is refused, or 2 where the call is wrong or something is not read or written.
 *
 * scripts/example screenful builds it on x86-64 and on Arm; by hand, on x86-64:
 *
 *     cc examples/screenful.c -I include $(scripts/library api) -o screenful
 */
#include <errno.h>
#include <stdio.h>
#include <stdlib.h>
#include <string.h>

#include "andelura.h"

enum { LINES = 24, COLUMNS = 80 };

static uint8_t tape[ANDELURA_LONGEST_TAPE + 1];
static uint8_t screen[LINES * COLUMNS];

/* What is wrong with the call, or with reading and writing. */
static int failed(const char *what, const char *why) {
    fprintf(stderr, "screenful: %s: %s\n", what, why);
    return 2;
}

/* A number in decimal digits; whether the word is one. */
static int number_in(const char *word, size_t *number) {
    char *end;
    errno = 0;
    unsigned long long n = strtoull(word, &end, 10);
    *number = (size_t)n;
    return *word >= '0' && *word <= '9' && *end == '\0' && errno == 0 && n <= SIZE_MAX;
}

int main(int words, char **word) {
    size_t from = 0;
    if (words < 2 || words > 3 || (words == 3 && !number_in(word[2], &from)))
        return failed("usage", "screenful BOOK.tape [BYTE]");
    FILE *book = fopen(word[1], "rb");
    if (!book)
        return failed(word[1], strerror(errno));
    size_t size = fread(tape, 1, sizeof tape, book);
    if (ferror(book))
        return failed(word[1], strerror(errno));
    fclose(book);
    if (size > ANDELURA_LONGEST_TAPE) {
        fprintf(stderr, "screenful: %s: longer than any tape file, which has at most %d bytes\n", word[1], ANDELURA_LONGEST_TAPE);
        return 1;
    }

    uint64_t numbers[ANDELURA_WINDOW_NUMBERS];
    uint32_t refused = andelura_window(tape, size, from, screen, sizeof screen, numbers, ANDELURA_WINDOW_NUMBERS);
    if (refused) {
        fprintf(stderr, "screenful: %s: refused by number %u: docs/REFUSALS.md says what was found and what to do\n", word[1], (unsigned)refused);
        return 1;
    }
    size_t shown = (size_t)numbers[ANDELURA_WINDOW_BYTES];
    if (fwrite(screen, 1, shown, stdout) != shown || fflush(stdout))
        return failed("standard output", strerror(errno));
    fprintf(stderr, "\nbytes %zu to %zu of %llu\n", from, from + shown, (unsigned long long)numbers[ANDELURA_WINDOW_WHOLE]);
    return 0;
}
