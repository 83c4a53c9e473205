/* A host in C: a day's lines on standard input, answer lines and then closing lines on standard output, as the program `gate` does.
 *
 *   tools/archive
 *   cc -O2 -I include examples/host.c target/staticlib/libhost.a -o host && ./host < examples/document-01.in */
#define _POSIX_C_SOURCE 200809L
#include "ticketmoss.h"
#include <stdio.h>
#include <stdlib.h>

#define PLACES 400

static uint64_t words[TICKETMOSS_WORDS(PLACES)];
static const size_t count = TICKETMOSS_WORDS(PLACES);

/* Writes the line that a call left in a buffer; a call's own refusal ends the program with its number. */
static void put(const uint8_t *buffer, int64_t bytes) {
    if (bytes < 0) {
        fprintf(stderr, "refused: %d\n", (int)-bytes);
        exit(1);
    }
    fwrite(buffer, 1, (size_t)bytes, stdout);
}

int main(void) {
    uint8_t answer[TICKETMOSS_ANSWER_BYTES], closing[TICKETMOSS_CLOSING_BYTES];
    char *line = NULL;
    size_t room = 0;
    ssize_t length;
    int64_t bytes;

    if (ticketmoss_fresh(words, count) < 0) return 1;
    while ((length = getline(&line, &room, stdin)) > 0)
        put(answer, ticketmoss_record(words, count, (const uint8_t *)line, (size_t)length, answer, sizeof answer));
    free(line);
    for (size_t place = 0; (bytes = ticketmoss_closing(words, count, place, closing, sizeof closing)) != -TICKETMOSS_NO_MPID; place++)
        put(closing, bytes);
    return fflush(stdout) != 0;
}
