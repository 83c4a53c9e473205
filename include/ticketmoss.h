/* Ticketmoss for hosts in C and C++: the proved calls of target/staticlib/libhost.a (`tools/archive`), for Linux on x86-64.
 *
 * The gate keeps nothing of its own. A host lends it words, the state, a line and a buffer, and lends the same words again for the next record.
 * The calls about order messages are lent no state. No call allocates, blocks, reads a clock or keeps a pointer. Every call ends with an answer
 * whatever the words and bytes hold, and what is refused changes nothing. docs/STATE.md has the map of the words, docs/PROMISES.md what is
 * promised and proved.
 *
 * A call's answer is one number. 0 or more: it was done, and so many bytes (of ticketmoss_order_read: so many words) were written at the start
 * of the buffer; those past them stay as found. Below 0: minus one of the documents' numbers, and nothing that was lent was changed.
 *
 * What a caller owes, since nothing checks it here: a pointer is never null, not even with a length of 0, is aligned for its type, and points to
 * so many words or bytes that stay the caller's own during the call; what a call writes to overlaps nothing else that it is lent. Two calls at
 * the same time over the same words, or to the same buffer, are a fault of the host's; over different ones they are fine. A call takes less than
 * 512 KiB of stack. */
#ifndef TICKETMOSS_H
#define TICKETMOSS_H

#include <stddef.h>
#include <stdint.h>

#ifdef __cplusplus
extern "C" {
#endif

/* ---- lengths ---- */

/* the least bytes of a buffer for an answer line, and for a closing line; no line has more */
#define TICKETMOSS_ANSWER_BYTES 32
#define TICKETMOSS_CLOSING_BYTES 96
/* the most bytes of a line before its LF, and the bytes of a line that a host has to hold */
#define TICKETMOSS_LINE_MOST 160
#define TICKETMOSS_LINE_BYTES 161
/* the words of a state with no place, the words of a place, and the most places; TICKETMOSS_WORDS(n) is ticketmoss_words(n) as a constant */
#define TICKETMOSS_LEAST_WORDS 1669
#define TICKETMOSS_PLACE_WORDS 17
#define TICKETMOSS_MOST_PLACES 65535
#define TICKETMOSS_WORDS(places) (TICKETMOSS_LEAST_WORDS + TICKETMOSS_PLACE_WORDS * (size_t)(places))
/* the most groups and symbols */
#define TICKETMOSS_MOST_GROUPS 64
#define TICKETMOSS_MOST_SYMBOLS 256
/* the bytes of an order message and of a house message, and the words in which a message is read */
#define TICKETMOSS_MESSAGE_BYTES 131
#define TICKETMOSS_ORDER_WORDS 8

/* ---- the documents' numbers: the fourth field of an answer line, or minus a call's answer ---- */

#define TICKETMOSS_DONE 0              /* passed, booked or seen */
#define TICKETMOSS_BAD_LINE 1          /* line breaks a form */
#define TICKETMOSS_WRONG_TIME 2        /* G, S, O after O; any other before O */
#define TICKETMOSS_LISTED_TWICE 3      /* G or S already listed */
#define TICKETMOSS_LIST_FULL 4         /* G with 64 groups listed, S with 256 symbols listed */
#define TICKETMOSS_NO_MPID 5           /* MPID not listed; of a closing line: no group has the place */
#define TICKETMOSS_OTHER_REQUEST 6     /* identifier known, request differs */
#define TICKETMOSS_TABLE_FULL 7        /* no place in the table */
#define TICKETMOSS_NO_SYMBOL 8         /* symbol not listed */
#define TICKETMOSS_NO_ORDER 9          /* target is no open order of this MPID */
#define TICKETMOSS_BLOCKED 10          /* group blocked */
#define TICKETMOSS_NO_SHORT_SALES 11   /* H or E where the group says N */
#define TICKETMOSS_TOO_LARGE 12        /* size above the group's maximum */
#define TICKETMOSS_BAD_PRICE 13        /* price out of range or off tick */
#define TICKETMOSS_PRICE_PROTECTION 14 /* too far from the quote */
#define TICKETMOSS_SIZE_DONE 16        /* changed size not above done */
#define TICKETMOSS_CANCEL_ASKED 17     /* cancel already asked */
#define TICKETMOSS_NUMBER_AHEAD 18     /* notice number above last + 1 */
#define TICKETMOSS_ABOVE_REMAINING 19  /* F or D above remaining */
#define TICKETMOSS_ABOVE_CEILING 20    /* F would bring gross of both above the ceiling */
#define TICKETMOSS_SHORT_BUFFER 21     /* buffer under 32 bytes (under 96 for a closing line) */
#define TICKETMOSS_BAD_STATE 22        /* lent state breaks a state rule, or is too short for groups and symbols */
#define TICKETMOSS_SHORT_MEMORY 23     /* making a fresh state: memory too short for groups and symbols */
/* which metric would pass its limit, the first of them (document 02, order 1; they stand where 15 stood) */
#define TICKETMOSS_GROSS_TRADE 31 /* traded buys and sells, added up */
#define TICKETMOSS_NET_TRADE 32   /* how far they are apart */
#define TICKETMOSS_GROSS_OPEN 33  /* open buys and sells, added up */
#define TICKETMOSS_NET_OPEN 34    /* how far they are apart */
#define TICKETMOSS_GROSS_BOTH 35  /* traded and open, added up */
#define TICKETMOSS_NET_BOTH 36    /* how far buys and sells, traded and open, are apart */
/* order messages (document 02, order 2); a call's answer only, in this order */
#define TICKETMOSS_BAD_MESSAGE 41  /* the message, or the house message, has not the layout's length or not its type "N1" */
#define TICKETMOSS_BAD_ORDER 42    /* a field of N outside its form; in a message also one that has to be zero, or a space, and is not */
#define TICKETMOSS_SHORT_OUTPUT 43 /* output under 131 bytes, or under 8 words */

/* ---- document 01's outcomes: the third field of an answer line ---- */

#define TICKETMOSS_PASSED 'P'    /* setup, O, requests */
#define TICKETMOSS_BOOKED 'K'    /* notices */
#define TICKETMOSS_SEEN 'S'      /* a notice whose number was already taken */
#define TICKETMOSS_REFUSED 'R'
#define TICKETMOSS_SET_ASIDE 'A' /* a notice whose number is taken, with nothing else changed */

/* ---- the calls ---- */

/* How many words a room of so many places needs; 0 where no memory has so many (above 65,535). */
size_t ticketmoss_words(size_t places);

/* How many places so many words have room for; 0 also where they are fewer than 1,669, and no state. */
size_t ticketmoss_places(size_t words);

/* Makes a fresh state of the lent words: all are set to 0, nothing is listed. 0, or -TICKETMOSS_SHORT_MEMORY. */
int64_t ticketmoss_fresh(uint64_t *words, size_t count);

/* Whether the lent words meet every state rule, so that a record can be judged on them. 0, or -TICKETMOSS_BAD_STATE. */
int64_t ticketmoss_state(const uint64_t *words, size_t count);

/* Judges one record, lent as its line with its LF: what it changes is stored in the words, and its answer line, with its LF, stands at the
 * buffer's start. The bytes of the answer line, or -TICKETMOSS_SHORT_BUFFER or -TICKETMOSS_BAD_STATE. A line that breaks a form is answered like
 * any other, by a line with number 1. */
int64_t ticketmoss_record(uint64_t *words, size_t count, const uint8_t *line, size_t length, uint8_t *buffer, size_t size);

/* Judges the lines that end in the lent bytes, one after the other, as if each had been lent to ticketmoss_record with what is left of the
 * buffer: their answer lines stand one after the other from the buffer's start. It stops before the first line for which fewer than
 * TICKETMOSS_ANSWER_BYTES are left, and before a last part without LF. The bytes of the answer lines, 0 where no line ends in the lent bytes;
 * then taken[0] is how many lines were taken and taken[1] how many bytes they have. Or, whatever the bytes hold, -TICKETMOSS_SHORT_BUFFER or
 * -TICKETMOSS_BAD_STATE; then `taken` stays as found too. `taken` points to two words that overlap nothing else.
 *
 * The state rules are tried once a block, in a time that grows with the places taken: lend as many lines as there are. Afterwards move the bytes
 * that were not taken to the front, and lend them again with what comes behind them. Where there is an LF and the buffer is not refused, at least
 * one line is taken. A line is one line however long it is; of one that has not ended within TICKETMOSS_LINE_BYTES a host may drop the rest up to
 * its LF, since the answer is that to a broken line in any case. */
int64_t ticketmoss_block(uint64_t *words, size_t count, const uint8_t *lines, size_t length, uint8_t *buffer, size_t size, uint64_t taken[2]);

/* The closing line of the group at a place in listing order, from 0; it changes no word. Its bytes, or -TICKETMOSS_SHORT_BUFFER,
 * -TICKETMOSS_BAD_STATE, or -TICKETMOSS_NO_MPID where no group has the place. */
int64_t ticketmoss_closing(const uint64_t *words, size_t count, size_t place, uint8_t *buffer, size_t size);

/* Writes the N of a line, lent with its LF, at the buffer's start as the exchange's New Order Request (source document 000, 4.1.1). MinQty,
 * MaxFloor Qty, Display Range Qty and Peg Offset are zero and the Purge Group is a space; every other field that N does not carry comes from the
 * lent house message of the same layout, the bits of Order Instructions that do not tell the side too. TICKETMOSS_MESSAGE_BYTES, or
 * -TICKETMOSS_BAD_MESSAGE (the house message), -TICKETMOSS_BAD_ORDER (no line of an N) or -TICKETMOSS_SHORT_OUTPUT. */
int64_t ticketmoss_order_write(const uint8_t *line, size_t length, const uint8_t *house, size_t house_length, uint8_t *buffer, size_t size);

/* Reads a New Order Request: the N's fields as eight words at the start of `fields`. They are where the identifier begins in the message and
 * where it ends (the place past its last byte), where the MPID begins and ends, the symbol ID, the side (the byte of its letter B, S, H or E),
 * the size, the price. TICKETMOSS_ORDER_WORDS, or -TICKETMOSS_BAD_MESSAGE, -TICKETMOSS_BAD_ORDER or -TICKETMOSS_SHORT_OUTPUT. */
int64_t ticketmoss_order_read(const uint8_t *message, size_t length, uint64_t *fields, size_t count);

#ifdef __cplusplus
}
#endif

#endif
