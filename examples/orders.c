/* A host in C that sends: a day's lines on standard input, and on standard output, in hex, the exchange's New Order Request of each N that is to
 * be sent.
 *
 *   tools/archive
 *   cc -O2 -I include examples/orders.c target/staticlib/libhost.a -o orders && ./orders < examples/document-01.in */
#define _POSIX_C_SOURCE 200809L
#include "ticketmoss.h"
#include <stdio.h>
#include <stdlib.h>

#define PLACES 400

static uint64_t words[TICKETMOSS_WORDS(PLACES)];
static const size_t count = TICKETMOSS_WORDS(PLACES);

/* The house message: every field that an N does not carry, where docs/MESSAGE.md has it. What it has in N's own fields, in the four quantities
 * and in Purge Group does not matter. */
static const uint8_t house[TICKETMOSS_MESSAGE_BYTES] = {
    [0] = 'N', '1',
    [50] = 0x08,                        /* Order Instructions: displayed */
    [52] = 'R',                         /* Time In Force: regular hours */
    [53] = '1',                         /* Order Type: limit */
    [54] = 'D',                         /* Price Sliding: re-price once */
    [55] = 0x0a,                        /* Self-Trade Protection: within the MPID, cancel newest */
    [56] = ' ',                         /* and its group: none */
    [57] = 0x02,                        /* Routing: do not route */
    [66] = 'A',                         /* Capacity: agency */
    [67] = 'A', 'C', 'C', 'T', '0', '1', /* Account */
    [83] = 'C', 'L', 'R', '1',          /* Clearing Account */
};

/* The last field of an answer line, before its LF: 1 where an order message is to be sent. */
static int to_send(const uint8_t *answer, int64_t bytes) { return bytes > 1 && answer[bytes - 2] == '1'; }

/* The message of an N that has passed. Here it is printed; a host sends it in an ESesM unsequenced data packet. With this house message and so
 * much room it is not refused. */
static void send_order(const uint8_t *line, size_t length) {
    uint8_t message[TICKETMOSS_MESSAGE_BYTES];
    if (ticketmoss_order_write(line, length, house, sizeof house, message, sizeof message) < 0) exit(1);
    for (size_t i = 0; i < sizeof message; i++) printf("%02x", message[i]);
    putchar('\n');
}

int main(void) {
    uint8_t answer[TICKETMOSS_ANSWER_BYTES];
    char *text = NULL;
    size_t room = 0;
    ssize_t length;

    if (ticketmoss_fresh(words, count) < 0) return 1;
    while ((length = getline(&text, &room, stdin)) > 0) {
        const uint8_t *line = (const uint8_t *)text;
        int64_t bytes = ticketmoss_record(words, count, line, (size_t)length, answer, sizeof answer);
        if (bytes < 0) return 1;
        if (line[0] == 'N' && to_send(answer, bytes)) send_order(line, (size_t)length);
    }
    free(text);
    return fflush(stdout) != 0;
}
