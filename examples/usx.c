/*
 * Writes the USX text of a tape file:
 *
 *     usx BOOK.tape BOOK.usx
 *
 * The text is written to BOOK.usx.part, which is then renamed, so that BOOK.usx is never half a text. The exit status is 0, or 1 where the tape is refused, or 2 where the
 * call is wrong or something is not read or written. examples/usx.rs is the same program in Rust.
 *
 * scripts/example usx builds it on x86-64 and on Arm; by hand, on x86-64, with what scripts/dist DIR wrote:
 *
 *     cc examples/usx.c -I DIR/include DIR/lib/libandelura.a -o usx
 */
#include <errno.h>
#include <stdio.h>
#include <stdlib.h>
#include <string.h>

#include "andelura.h"

/* A byte more than any tape file has, so that a longer one is known. */
static uint8_t tape[ANDELURA_LONGEST_TAPE + 1];

/* What is wrong with the call, or with reading and writing. */
static int failed(const char *what, const char *why) {
    fprintf(stderr, "usx: %s: %s\n", what, why);
    return 2;
}

/* Reads a file, as much of it as there is room for; whether that was done. */
static int read_file(const char *name, uint8_t *room, size_t most, size_t *size) {
    FILE *file = fopen(name, "rb");
    if (!file)
        return 0;
    *size = fread(room, 1, most, file);
    int done = !ferror(file);
    int why = errno;
    fclose(file);
    errno = why;
    return done;
}

/* Writes a file under another name and renames it; whether that was done. */
static int write_file(const char *name, const uint8_t *bytes, size_t size) {
    char *part = malloc(strlen(name) + sizeof ".part");
    if (!part)
        return 0;
    strcat(strcpy(part, name), ".part");
    FILE *file = fopen(part, "wb");
    int done = file && fwrite(bytes, 1, size, file) == size;
    int why = errno;
    if (file && fclose(file) && done) {
        done = 0;
        why = errno;
    }
    if (done && rename(part, name)) {
        done = 0;
        why = errno;
    }
    if (file && !done)
        remove(part);
    free(part);
    errno = why;
    return done;
}

int main(int words, char **word) {
    if (words != 3)
        return failed("usage", "usx BOOK.tape BOOK.usx");
    size_t size;
    if (!read_file(word[1], tape, sizeof tape, &size))
        return failed(word[1], strerror(errno));
    if (size > ANDELURA_LONGEST_TAPE) {
        fprintf(stderr, "usx: %s: longer than any tape file, which has at most %d bytes\n", word[1], ANDELURA_LONGEST_TAPE);
        return 1;
    }

    uint64_t numbers[ANDELURA_SERIALIZE_NUMBERS];
    uint8_t none, *text = &none;
    size_t room = 0;
    uint32_t number;
    while ((number = andelura_serialize(tape, size, text, room, numbers, ANDELURA_SERIALIZE_NUMBERS)) == ANDELURA_NO_ROOM) {
        room = (size_t)numbers[ANDELURA_SERIALIZE_LENGTH];
        text = malloc(room);
        if (!text)
            return failed(word[1], strerror(errno));
    }
    if (number != ANDELURA_DONE) {
        fprintf(stderr, "usx: %s: refused by number %u: docs/REFUSALS.md says what was found and what to do\n", word[1], (unsigned)number);
        return 1;
    }
    if (!write_file(word[2], text, room))
        return failed(word[2], strerror(errno));
    return 0;
}
