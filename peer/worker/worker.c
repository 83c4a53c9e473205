/* The worker of the comparison: it links the static library and does what the harness asks for on standard input.
 *
 * It is a process of its own for two reasons: a call that touches one byte too far stops this process and not the harness, which can then look
 * for the smallest such input; and the library is for x86-64, whatever machine the harness runs on.
 *
 * Every lent slice lies in its own mapping between two pages that cannot be touched. By the mode it ends directly before the second of them or
 * begins directly behind the first.
 *
 * Numbers are little endian. A command is a u32 with the bytes that follow, a letter and its fields; a reply is a u32 with the bytes that follow.
 *   W mode count words..           lends these words from now on; they are kept as the base too    -> nothing
 *   Z mode count fill              lends so many words of one value and makes a fresh state there  -> result
 *   S                              tries the state rules                                           -> result, flags
 *   R pattern n (length size line)..         judges n records                                      -> n answers
 *   E pattern n (place size)..               asks for n closing lines                              -> n answers
 *   G                              sends the words back                                            -> words
 *   V pattern n (count pokes (index word).. length size line place size)..
 *                                  n times from the base, cut to count words and with some words replaced: the state rules, a record, a
 *                                  closing line                                                    -> n times: result, answer, the words
 *                                  that the record changed (number, (index word)..), answer
 *   B pattern n (0 or 1 count pokes (index word)..; length size lines)..
 *                                  n blocks, each over the words as they are (0) or from the base, as with V (1), and the same lines by
 *                                  record calls                                                    -> n times: answer, two u64 taken, the
 *                                  words that the block changed, as with V
 *   N n (which number)..           n calls of words (0) or places (1)                              -> n u64
 *   O mode pattern n (0 length length size line house or 1 length size message)..
 *                                  n orders: the line written as a message with the house message (0), or the message read (1); size in
 *                                  bytes, also of the words that a message is read to              -> n answers
 * mode u8: 1 the slices begin behind a guard page (else they end before one), 2 the line, house message or message is read-only, 4 the words are
 * read-only in calls that change none. pattern, which, 0 and 1 u8; pattern: what the buffer is filled with before a call. count, n, pokes, index
 * u32; length, size u16, of blocks u32; word, fill, place, result and number 64 bits. An answer: result, flags u8, u32 and so many bytes: the
 * buffer's start up to the last byte that is part of the result or differs from the pattern. What a block takes is CANARY in every byte before the
 * call. flags: 1 the line, lines or message was changed, 2 bytes beside a slice were changed, 4 words were changed by a call that changes none, 8
 * the house message was changed, 16 record calls give other answers than the block, or leave other words.
 *
 * An argument makes the worker wrong on purpose, so that the harness can be seen to notice (see `spoil`, `spoil_written`, `spoil_read`,
 * `spoil_block`). */
#define _DEFAULT_SOURCE
#include <stdint.h>
#include <stdlib.h>
#include <string.h>
#include <sys/mman.h>
#include <unistd.h>

#include "ticketmoss.h"

enum { AT_START = 1, LINE_READ_ONLY = 2, WORDS_READ_ONLY = 4 };
enum { LINE_CHANGED = 1, BESIDE_CHANGED = 2, WORDS_CHANGED = 4, HOUSE_CHANGED = 8, RECORDS_DIFFER = 16 };
enum { MOST_LINES = 1 << 20, MOST_HOUSE = 4096, MOST_BUFFER = 1 << 20, TAKEN = 16, MARGIN = 64, CANARY = 0xC3 };
#define MOST_WORDS TICKETMOSS_WORDS(TICKETMOSS_MOST_PLACES + 100)

static void give_up(void) { _exit(3); }

/* ---- a mapping between two guard pages, and a slice in it ---- */

struct room {
    uint8_t *low, *high; /* the bytes that may be touched */
    uint8_t *at;         /* the slice */
    size_t bytes;
};

static size_t page;

static struct room reserve(size_t bytes) {
    size_t inner = (bytes + page - 1) / page * page;
    uint8_t *all = mmap(NULL, inner + 2 * page, PROT_NONE, MAP_PRIVATE | MAP_ANONYMOUS, -1, 0);
    if (all == MAP_FAILED || mprotect(all + page, inner, PROT_READ | PROT_WRITE)) give_up();
    struct room r = {all + page, all + page + inner, all + page, 0};
    return r;
}

/* The bytes beside the slice that are watched: before it or behind it, where no guard page is. */
static uint8_t *beside(const struct room *r, size_t *bytes) {
    size_t left = (size_t)(r->high - r->low) - r->bytes;
    *bytes = left < MARGIN ? left : MARGIN;
    return r->at == r->low ? r->at + r->bytes : r->at - *bytes;
}

static void place(struct room *r, size_t bytes, int at_start) {
    if (bytes > (size_t)(r->high - r->low)) give_up();
    r->bytes = bytes;
    r->at = at_start ? r->low : r->high - bytes;
    size_t watched;
    uint8_t *from = beside(r, &watched);
    memset(from, CANARY, watched);
}

static int beside_changed(const struct room *r) {
    size_t watched;
    const uint8_t *from = beside(r, &watched);
    for (size_t i = 0; i < watched; i++)
        if (from[i] != CANARY) return BESIDE_CHANGED;
    return 0;
}

/* Makes the pages of the slice read-only, or writable again. */
static void protect(const struct room *r, int read_only) {
    uint8_t *from = r->at - (size_t)(r->at - r->low) % page;
    size_t bytes = ((size_t)(r->at + r->bytes - from) + page - 1) / page * page;
    if (bytes && mprotect(from, bytes, read_only ? PROT_READ : PROT_READ | PROT_WRITE)) give_up();
}

/* a block and a message that is read lie where lines do, and the words it is read to where buffers do */
static struct room words, line, house, buffer, taken;
static uint64_t *base, *before, *after;
static uint8_t *answers;
static size_t count, base_count;
static int mode;

static uint64_t *state(void) { return (uint64_t *)(void *)words.at; }

static void lend(size_t n) {
    if (n > MOST_WORDS) give_up();
    count = n;
    place(&words, n * 8, mode & AT_START);
}

/* ---- commands in, replies out ---- */

static uint8_t *in, *in_end, *out;
static size_t in_room, out_used, out_room;

static const uint8_t *take(size_t bytes) {
    if ((size_t)(in_end - in) < bytes) give_up();
    in += bytes;
    return in - bytes;
}

#define TAKE(type, name) \
    type name;           \
    memcpy(&name, take(sizeof name), sizeof name)

static void put(const void *from, size_t bytes) {
    if (out_room - out_used < bytes) {
        out_room = (out_used + bytes) * 2;
        out = realloc(out, out_room);
        if (!out) give_up();
    }
    memcpy(out + out_used, from, bytes);
    out_used += bytes;
}

static int get_all(uint8_t *to, size_t bytes) {
    while (bytes) {
        ssize_t n = read(0, to, bytes);
        if (n <= 0) return 0;
        to += n;
        bytes -= (size_t)n;
    }
    return 1;
}

static void send_reply(void) {
    uint32_t bytes = (uint32_t)(out_used - 4);
    memcpy(out, &bytes, 4);
    for (size_t sent = 0; sent < out_used;) {
        ssize_t n = write(1, out + sent, out_used - sent);
        if (n <= 0) give_up();
        sent += (size_t)n;
    }
}

/* ---- wrong on purpose ---- */

static int wrong;
static volatile uint8_t sink;

static void spoil(int64_t *result) {
    switch (wrong) {
    case 1: /* reads a byte behind the line */
        sink = line.at[line.bytes];
        break;
    case 2: /* reads a byte before the words */
        sink = words.at[-1];
        break;
    case 3: /* reads a byte behind the buffer */
        sink = buffer.at[buffer.bytes];
        break;
    case 4: /* writes past the answer line */
        if (*result > 0 && (size_t)*result < buffer.bytes) buffer.at[*result] ^= 1;
        break;
    case 5: /* writes to the line */
        if (line.bytes) line.at[0] ^= 1;
        break;
    case 6: /* writes to a free word */
        if (count > TICKETMOSS_LEAST_WORDS) state()[count - 1] ^= 1;
        break;
    case 7: /* never answers */
        if (line.bytes && line.at[0] == 'O')
            for (;;) pause();
        break;
    case 8: /* writes to a short buffer */
        if (buffer.bytes && buffer.bytes < TICKETMOSS_ANSWER_BYTES) buffer.at[0] ^= 1;
        break;
    case 9: /* returns a wrong number */
        if (*result == -TICKETMOSS_BAD_STATE) *result = -TICKETMOSS_SHORT_BUFFER;
        break;
    case 10: /* reads a byte behind the line of an F, with two places taken */
        if (count > 4 && state()[4] >= 2 && line.bytes && line.at[0] == 'F') sink = line.at[line.bytes];
        break;
    }
}

/* The same for orders: those that are written, and those that are read. */
static void spoil_written(int64_t *result) {
    size_t watched;
    uint8_t *from = beside(&house, &watched);
    switch (wrong) {
    case 11: /* reads a byte behind the house message */
        sink = house.at[house.bytes];
        break;
    case 12: /* reads a byte before the house message */
        sink = house.at[-1];
        break;
    case 13: /* reads a byte behind the line */
        sink = line.at[line.bytes];
        break;
    case 14: /* writes past the message */
        if (*result > 0 && (size_t)*result < buffer.bytes) buffer.at[*result] ^= 1;
        break;
    case 15: /* writes to the line */
        if (line.bytes) line.at[line.bytes - 1] ^= 1;
        break;
    case 16: /* writes to the house message */
        if (house.bytes) house.at[house.bytes - 1] ^= 1;
        break;
    case 17: /* writes beside the house message */
        if (watched) from[watched - 1] ^= 1;
        break;
    case 18: /* writes and refuses with 41 */
    case 19: /* the same with 42 */
    case 20: /* the same with 43 */
        if (*result == -(TICKETMOSS_BAD_MESSAGE + wrong - 18) && buffer.bytes) buffer.at[buffer.bytes - 1] ^= 1;
        break;
    }
}

static void spoil_read(int64_t *result) {
    switch (wrong) {
    case 21: /* reads a byte behind the message */
        sink = line.at[line.bytes];
        break;
    case 22: /* reads a byte before the message */
        sink = line.at[-1];
        break;
    case 23: /* reads a byte behind the words */
        sink = buffer.at[buffer.bytes];
        break;
    case 24: /* writes past the words */
        if (*result > 0 && (size_t)*result * 8 < buffer.bytes) buffer.at[*result * 8] ^= 1;
        break;
    case 25: /* writes to the message */
        if (line.bytes) line.at[line.bytes - 1] ^= 1;
        break;
    case 26: /* writes and refuses with 41 */
    case 27: /* the same with 42 */
    case 28: /* the same with 43 */
        if (*result == -(TICKETMOSS_BAD_MESSAGE + wrong - 26) && buffer.bytes) buffer.at[buffer.bytes - 1] ^= 1;
        break;
    case 29: /* returns a wrong number */
        if (*result == -TICKETMOSS_SHORT_OUTPUT) *result = -TICKETMOSS_BAD_ORDER;
        break;
    }
}

/* The same for blocks. */
static void spoil_block(int64_t *result) {
    size_t watched;
    uint8_t *from = beside(&taken, &watched);
    switch (wrong) {
    case 30: /* reads a byte behind the lines */
        sink = line.at[line.bytes];
        break;
    case 31: /* reads a byte before the lines */
        sink = line.at[-1];
        break;
    case 32: /* reads a byte behind the buffer */
        sink = buffer.at[buffer.bytes];
        break;
    case 33: /* reads a byte behind what is taken */
        sink = taken.at[TAKEN];
        break;
    case 34: /* reads a byte before what is taken */
        sink = taken.at[-1];
        break;
    case 35: /* writes beside what is taken */
        from[watched - 1] ^= 1;
        break;
    case 36: /* writes to the lines */
        if (line.bytes) line.at[line.bytes - 1] ^= 1;
        break;
    case 37: /* writes past the answer lines */
        if (*result >= 0 && (size_t)*result < buffer.bytes) buffer.at[*result] ^= 1;
        break;
    case 38: /* writes to the buffer and refuses with 21 */
    case 39: /* the same with 22 */
        if (*result == -(TICKETMOSS_SHORT_BUFFER + wrong - 38) && buffer.bytes) buffer.at[buffer.bytes - 1] ^= 1;
        break;
    case 40: /* writes to what is taken and refuses with 21 */
    case 41: /* the same with 22 */
        if (*result == -(TICKETMOSS_SHORT_BUFFER + wrong - 40)) memset(taken.at, 0, TAKEN);
        break;
    case 42: /* writes a word and refuses with 21 */
    case 43: /* the same with 22 */
        if (*result == -(TICKETMOSS_SHORT_BUFFER + wrong - 42) && count) state()[count - 1] ^= 1;
        break;
    case 44: /* writes to a free word */
        if (*result > 0 && count > TICKETMOSS_LEAST_WORDS) state()[count - 1] ^= 1;
        break;
    }
}

/* ---- the calls ---- */

/* A result counts items of so many bytes. */
static void put_answer(int64_t result, size_t item, int flags, uint8_t pattern) {
    size_t n = buffer.bytes;
    size_t least = result > 0 ? (size_t)result * item : 0;
    while (n > least && buffer.at[n - 1] == pattern) n--;
    uint8_t f = (uint8_t)flags;
    uint32_t bytes = (uint32_t)n;
    put(&result, 8);
    put(&f, 1);
    put(&bytes, 4);
    put(buffer.at, n);
}

static void lend_bytes(struct room *r, const uint8_t *bytes, size_t length) {
    place(r, length, mode & AT_START);
    memcpy(r->at, bytes, length);
}

static void lend_buffer(size_t size, uint8_t pattern) {
    place(&buffer, size, mode & AT_START);
    memset(buffer.at, pattern, size);
}

static void record(const uint8_t *bytes, size_t length, size_t size, uint8_t pattern) {
    lend_bytes(&line, bytes, length);
    lend_buffer(size, pattern);
    if (mode & LINE_READ_ONLY) protect(&line, 1);
    int64_t result = ticketmoss_record(state(), count, line.at, length, buffer.at, size);
    if (mode & LINE_READ_ONLY) protect(&line, 0);
    if (wrong) spoil(&result);
    int flags = memcmp(line.at, bytes, length) ? LINE_CHANGED : 0;
    flags |= beside_changed(&words) | beside_changed(&line) | beside_changed(&buffer);
    put_answer(result, 1, flags, pattern);
}

static void closing(uint64_t which, size_t size, uint8_t pattern, int flags) {
    lend_buffer(size, pattern);
    if (mode & WORDS_READ_ONLY) protect(&words, 1);
    int64_t result = ticketmoss_closing(state(), count, (size_t)which, buffer.at, size);
    if (mode & WORDS_READ_ONLY) protect(&words, 0);
    put_answer(result, 1, flags | beside_changed(&words) | beside_changed(&buffer), pattern);
}

static void write_order(uint8_t pattern) {
    TAKE(uint16_t, length);
    TAKE(uint16_t, house_length);
    TAKE(uint16_t, size);
    const uint8_t *bytes = take(length);
    const uint8_t *house_bytes = take(house_length);
    lend_bytes(&line, bytes, length);
    lend_bytes(&house, house_bytes, house_length);
    lend_buffer(size, pattern);
    if (mode & LINE_READ_ONLY) protect(&line, 1);
    if (mode & LINE_READ_ONLY) protect(&house, 1);
    int64_t result = ticketmoss_order_write(line.at, length, house.at, house_length, buffer.at, size);
    if (mode & LINE_READ_ONLY) protect(&line, 0);
    if (mode & LINE_READ_ONLY) protect(&house, 0);
    if (wrong) spoil_written(&result);
    int flags = memcmp(line.at, bytes, length) ? LINE_CHANGED : 0;
    if (memcmp(house.at, house_bytes, house_length)) flags |= HOUSE_CHANGED;
    flags |= beside_changed(&line) | beside_changed(&house) | beside_changed(&buffer);
    put_answer(result, 1, flags, pattern);
}

static void read_order(uint8_t pattern) {
    TAKE(uint16_t, length);
    TAKE(uint16_t, size);
    const uint8_t *bytes = take(length);
    if (size % 8) give_up();
    lend_bytes(&line, bytes, length);
    lend_buffer(size, pattern);
    if (mode & LINE_READ_ONLY) protect(&line, 1);
    int64_t result = ticketmoss_order_read(line.at, length, (uint64_t *)(void *)buffer.at, size / 8);
    if (mode & LINE_READ_ONLY) protect(&line, 0);
    if (wrong) spoil_read(&result);
    int flags = memcmp(line.at, bytes, length) ? LINE_CHANGED : 0;
    put_answer(result, 8, flags | beside_changed(&line) | beside_changed(&buffer), pattern);
}

static int64_t try_state(void) {
    if (mode & WORDS_READ_ONLY) protect(&words, 1);
    int64_t result = ticketmoss_state(state(), count);
    if (mode & WORDS_READ_ONLY) protect(&words, 0);
    return result;
}

/* Lends the base, cut and with some words replaced. */
static void lend_base(void) {
    TAKE(uint32_t, cut);
    TAKE(uint32_t, pokes);
    if (cut > base_count) give_up();
    lend(cut);
    memcpy(words.at, base, words.bytes);
    for (uint32_t i = 0; i < pokes; i++) {
        TAKE(uint32_t, index);
        TAKE(uint64_t, word);
        if (index < cut) state()[index] = word;
    }
}

/* The words that are not as before; they count as before from now on. */
static void put_changed(void) {
    uint32_t changed = 0;
    size_t at = out_used;
    put(&changed, 4);
    for (uint32_t i = 0; i < count; i++)
        if (state()[i] != before[i]) {
            before[i] = state()[i];
            put(&i, 4);
            put(&before[i], 8);
            changed++;
        }
    memcpy(out + at, &changed, 4);
}

static void variant(uint8_t pattern) {
    lend_base();
    memcpy(before, words.at, words.bytes);
    int64_t result = try_state();
    int flags = memcmp(words.at, before, words.bytes) ? WORDS_CHANGED : 0;
    put(&result, 8);

    TAKE(uint16_t, length);
    TAKE(uint16_t, size);
    record(take(length), length, size, pattern);
    put_changed();

    TAKE(uint64_t, which);
    TAKE(uint16_t, closing_size);
    size_t at = out_used;
    closing(which, closing_size, pattern, flags);
    if (memcmp(words.at, before, words.bytes)) out[at + 8] |= WORDS_CHANGED;
}

/* The lines that were lent as a block, one by one as a host would lend them: each with what is left of the buffer. */
static int64_t by_records(uint64_t told[2]) {
    if (buffer.bytes < TICKETMOSS_ANSWER_BYTES) return -TICKETMOSS_SHORT_BUFFER;
    int64_t result = ticketmoss_state(state(), count);
    if (result < 0) return result;
    uint8_t *from = line.at, *end, *to = buffer.at, *high = buffer.at + buffer.bytes;
    told[0] = 0;
    while (high - to >= TICKETMOSS_ANSWER_BYTES && (end = memchr(from, '\n', (size_t)(line.at + line.bytes - from)))) {
        result = ticketmoss_record(state(), count, from, (size_t)(end + 1 - from), to, (size_t)(high - to));
        if (result < 0) return result;
        if (wrong == 45) *to ^= 1;
        from = end + 1;
        to += result;
        told[0]++;
    }
    told[1] = (uint64_t)(from - line.at);
    return to - buffer.at;
}

/* Whether record calls over the words before a block give the same as it did; what it left is there again afterwards. */
static int records_differ(int64_t result, uint8_t pattern) {
    uint64_t told[2];
    memcpy(after, words.at, words.bytes);
    memcpy(answers, buffer.at, buffer.bytes);
    memcpy(words.at, before, words.bytes);
    memset(buffer.at, pattern, buffer.bytes);
    memset(told, CANARY, TAKEN);
    int differ = by_records(told) != result || memcmp(told, taken.at, TAKEN);
    differ |= memcmp(buffer.at, answers, buffer.bytes) || memcmp(words.at, after, words.bytes);
    memcpy(buffer.at, answers, buffer.bytes);
    memcpy(words.at, after, words.bytes);
    return differ ? RECORDS_DIFFER : 0;
}

static void block(uint8_t pattern) {
    TAKE(uint8_t, again);
    if (again) lend_base();
    TAKE(uint32_t, length);
    TAKE(uint32_t, size);
    const uint8_t *bytes = take(length);
    lend_bytes(&line, bytes, length);
    lend_buffer(size, pattern);
    place(&taken, TAKEN, mode & AT_START);
    memset(taken.at, CANARY, TAKEN);
    memcpy(before, words.at, words.bytes);
    if (mode & LINE_READ_ONLY) protect(&line, 1);
    int64_t result = ticketmoss_block(state(), count, line.at, length, buffer.at, size, (uint64_t *)(void *)taken.at);
    if (mode & LINE_READ_ONLY) protect(&line, 0);
    if (wrong) spoil_block(&result);
    int flags = memcmp(line.at, bytes, length) ? LINE_CHANGED : 0;
    flags |= beside_changed(&words) | beside_changed(&line) | beside_changed(&buffer) | beside_changed(&taken);
    flags |= records_differ(result, pattern);
    put_answer(result, 1, flags, pattern);
    put(taken.at, TAKEN);
    put_changed();
}

static void obey(void) {
    TAKE(uint8_t, letter);
    switch (letter) {
    case 'W': {
        TAKE(uint8_t, m);
        TAKE(uint32_t, n);
        mode = m;
        lend(n);
        base_count = n;
        memcpy(base, take((size_t)n * 8), (size_t)n * 8);
        memcpy(words.at, base, (size_t)n * 8);
        break;
    }
    case 'Z': {
        TAKE(uint8_t, m);
        TAKE(uint32_t, n);
        TAKE(uint64_t, fill);
        mode = m;
        lend(n);
        for (uint32_t i = 0; i < n; i++) state()[i] = fill;
        int64_t result = ticketmoss_fresh(state(), count);
        put(&result, 8);
        break;
    }
    case 'S': {
        memcpy(before, words.at, words.bytes);
        int64_t result = try_state();
        uint8_t flags = (uint8_t)beside_changed(&words);
        if (memcmp(before, words.at, words.bytes)) flags |= WORDS_CHANGED;
        put(&result, 8);
        put(&flags, 1);
        break;
    }
    case 'R': {
        TAKE(uint8_t, pattern);
        TAKE(uint32_t, n);
        while (n--) {
            TAKE(uint16_t, length);
            TAKE(uint16_t, size);
            record(take(length), length, size, pattern);
        }
        break;
    }
    case 'E': {
        TAKE(uint8_t, pattern);
        TAKE(uint32_t, n);
        while (n--) {
            TAKE(uint64_t, which);
            TAKE(uint16_t, size);
            closing(which, size, pattern, 0);
        }
        break;
    }
    case 'G': put(words.at, words.bytes); break;
    case 'V': {
        TAKE(uint8_t, pattern);
        TAKE(uint32_t, n);
        while (n--) variant(pattern);
        break;
    }
    case 'B': {
        TAKE(uint8_t, pattern);
        TAKE(uint32_t, n);
        while (n--) block(pattern);
        break;
    }
    case 'N': {
        TAKE(uint32_t, n);
        while (n--) {
            TAKE(uint8_t, which);
            TAKE(uint64_t, number);
            uint64_t result = which ? ticketmoss_places((size_t)number) : ticketmoss_words((size_t)number);
            put(&result, 8);
        }
        break;
    }
    case 'O': {
        TAKE(uint8_t, m);
        TAKE(uint8_t, pattern);
        TAKE(uint32_t, n);
        mode = m;
        while (n--) {
            TAKE(uint8_t, reading);
            if (reading)
                read_order(pattern);
            else
                write_order(pattern);
        }
        break;
    }
    default: give_up();
    }
}

int main(int arguments, char **argument) {
    if (arguments > 1) wrong = atoi(argument[1]);
    page = (size_t)sysconf(_SC_PAGESIZE);
    words = reserve(MOST_WORDS * 8);
    line = reserve(MOST_LINES);
    house = reserve(MOST_HOUSE);
    buffer = reserve(MOST_BUFFER);
    taken = reserve(TAKEN);
    base = malloc(MOST_WORDS * 8);
    before = malloc(MOST_WORDS * 8);
    after = malloc(MOST_WORDS * 8);
    answers = malloc(MOST_BUFFER);
    if (!base || !before || !after || !answers) give_up();
    uint8_t *command = NULL;
    uint32_t bytes;
    while (get_all((uint8_t *)&bytes, 4)) {
        if (bytes > in_room) {
            in_room = bytes;
            command = realloc(command, in_room);
            if (!command) give_up();
        }
        if (!get_all(command, bytes)) give_up();
        in = command;
        in_end = command + bytes;
        out_used = 0;
        put("\0\0\0\0", 4);
        obey();
        send_reply();
    }
    return 0;
}
