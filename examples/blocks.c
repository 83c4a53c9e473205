/* A host in C that lends the lines as they come, many at once: a day's lines on standard input, answer lines and then closing lines on standard
 * output, as the program `gate` does.
 *
 *   tools/archive
 *   cc -O2 -I include examples/blocks.c target/staticlib/libhost.a -o blocks && ./blocks < examples/document-01.in */
#define _POSIX_C_SOURCE 200809L
#include "ticketmoss.h"
#include <stdio.h>
#include <stdlib.h>
#include <string.h>
#include <unistd.h>

#define PLACES 400

static uint64_t words[TICKETMOSS_WORDS(PLACES)];
static const size_t count = TICKETMOSS_WORDS(PLACES);
static uint8_t lines[65536], answers[65536];

/* Writes the lines that a call left in a buffer; a call's own refusal ends the program with its number. */
static void put(const uint8_t *buffer, int64_t bytes) {
    if (bytes < 0) {
        fprintf(stderr, "refused: %d\n", (int)-bytes);
        exit(1);
    }
    fwrite(buffer, 1, (size_t)bytes, stdout);
}

int main(void) {
    uint8_t closing[TICKETMOSS_CLOSING_BYTES];
    uint64_t taken[2];
    size_t have = 0;
    ssize_t more;
    int64_t bytes;

    if (ticketmoss_fresh(words, count) < 0) return 1;
    while ((more = read(0, lines + have, sizeof lines - have)) > 0) {
        have += (size_t)more;
        /* what was not taken, for want of room for its answer or of its LF, moves to the front */
        while (memchr(lines, '\n', have)) {
            put(answers, ticketmoss_block(words, count, lines, have, answers, sizeof answers, taken));
            have -= taken[1];
            memmove(lines, lines + taken[1], have);
        }
        /* a line that is longer is broken, whatever its rest holds */
        if (have > TICKETMOSS_LINE_BYTES) have = TICKETMOSS_LINE_BYTES;
    }
    /* the input has ended without LF: one broken line */
    if (have > 0) put(answers, ticketmoss_record(words, count, lines, have, answers, sizeof answers));
    for (size_t place = 0; (bytes = ticketmoss_closing(words, count, place, closing, sizeof closing)) != -TICKETMOSS_NO_MPID; place++)
        put(closing, bytes);
    return fflush(stdout) != 0;
}
