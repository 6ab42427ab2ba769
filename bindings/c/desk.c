/*
 * The header at work: 01's book E, made, fed and read through include/pinuglaw.h, with every word that a call writes held against the word that 01 gives.
 * Prints the number of checks and exits 0, or prints each that failed and exits 1.
 */
#include "pinuglaw.h"

#include <inttypes.h>
#include <stdio.h>
#include <string.h>

enum { MAX_ORDERS = 3, SEGMENTS = 2, NUMBER = 41, JUNK = 77 };

/* Ids of 01's examples; the high word differs from the low one, so that a swap shows. */
enum { A = 0xA, B = 0xB, C = 0xC, D = 0xD, Z = 0xF, ID_HIGH = 8 };

enum { BUY = PINUGLAW_BUY, SELL = PINUGLAW_SELL };

/* A word that no side, reason, presence, rule, own or ended word has. */
enum { NO_VALUE = 2 };

static const uint8_t PRODUCT[16] = "BTC-USD";
static unsigned checks, failures;

static void same(int line, const char *what, uint64_t got, uint64_t expected)
{
    checks++;
    if (got != expected) {
        failures++;
        fprintf(stderr, "desk.c:%d: %s is %" PRIu64 ", not %" PRIu64 "\n", line, what, got, expected);
    }
}

static void same_words(int line, const char *what, const uint64_t *got, const uint64_t *expected, size_t words)
{
    for (size_t i = 0; i < words; i++) {
        char name[64];
        snprintf(name, sizeof name, "%s[%zu]", what, i);
        same(line, name, got[i], expected[i]);
    }
}

#define SAME(got, expected) same(__LINE__, #got, got, expected)
/* The words of `got` are those listed, as many as the list has. */
#define WORDS(got, ...) same_words(__LINE__, #got, got, (const uint64_t[]){__VA_ARGS__}, sizeof((const uint64_t[]){__VA_ARGS__}) / sizeof(uint64_t))

/* The same for a message, whose words that are not listed are 0. */
#define MESSAGE_WORDS(got, ...) same_words(__LINE__, #got, got, (const uint64_t[PINUGLAW_MESSAGE_WORDS]){__VA_ARGS__}, PINUGLAW_MESSAGE_WORDS)

/* ---- Pieces, as 01 has them: integers little-endian, ids in text order. */

struct piece {
    uint8_t bytes[512];
    size_t length;
};

static void put_byte(struct piece *p, uint8_t byte)
{
    p->bytes[p->length++] = byte;
}

static void put_little(struct piece *p, uint64_t value, unsigned bytes)
{
    for (unsigned i = 0; i < bytes; i++)
        put_byte(p, (uint8_t)(value >> (8 * i)));
}

static void put_big(struct piece *p, uint64_t value)
{
    for (unsigned i = 8; i-- > 0;)
        put_byte(p, (uint8_t)(value >> (8 * i)));
}

static void put_id(struct piece *p, uint64_t low)
{
    put_big(p, ID_HIGH);
    put_big(p, low);
}

static struct piece header(uint8_t kind, uint64_t sequence, uint64_t time_us)
{
    struct piece p = {.length = 0};
    put_byte(&p, kind);
    for (size_t i = 0; i < sizeof PRODUCT; i++)
        put_byte(&p, PRODUCT[i]);
    put_little(&p, sequence, 8);
    put_little(&p, time_us, 8);
    return p;
}

static void put_order(struct piece *p, uint64_t id, uint64_t price, uint64_t size)
{
    put_id(p, id);
    put_little(p, price, 8);
    put_little(p, size, 8);
}

/* E's snapshot: buy A price 10 size 2, sell B price 12 size 3. */
static struct piece snapshot_of_e(uint64_t sequence)
{
    struct piece p = header(PINUGLAW_KIND_SNAPSHOT, sequence, 0);
    put_little(&p, 1, 4);
    put_little(&p, 1, 4);
    put_order(&p, A, 10, 2);
    put_order(&p, B, 12, 3);
    return p;
}

static struct piece open_piece(uint64_t sequence, uint64_t id, uint64_t price, uint64_t remaining)
{
    struct piece p = header(PINUGLAW_KIND_OPEN, sequence, 1000 * sequence);
    put_id(&p, id);
    put_byte(&p, BUY);
    put_little(&p, price, 8);
    put_little(&p, remaining, 8);
    return p;
}

static struct piece match_piece(uint64_t sequence, uint64_t maker, uint64_t size)
{
    struct piece p = header(PINUGLAW_KIND_MATCH, sequence, 1000 * sequence);
    put_id(&p, maker);
    put_id(&p, Z);
    put_byte(&p, BUY);
    put_little(&p, 10, 8);
    put_little(&p, size, 8);
    return p;
}

/* ---- A book as a host keeps it. */

struct book {
    uint64_t state[PINUGLAW_STATE_WORDS];
    uint64_t rows[MAX_ORDERS * PINUGLAW_ROW_WORDS];
    uint64_t segments[SEGMENTS * PINUGLAW_SEGMENT_WORDS];
    uint64_t scratch[MAX_ORDERS];
};

#define LENT(words) words, sizeof(words) / sizeof(words)[0]

static uint64_t big_word(const uint8_t *bytes)
{
    uint64_t word = 0;
    for (int i = 0; i < 8; i++)
        word = word << 8 | bytes[i];
    return word;
}

static void fill(uint64_t *words, size_t length, uint64_t word)
{
    for (size_t i = 0; i < length; i++)
        words[i] = word;
}

static uint64_t make_state(uint64_t *state, size_t length, uint64_t size_decrease)
{
    return pinuglaw_new(state, length, big_word(PRODUCT), big_word(PRODUCT + 8), size_decrease, MAX_ORDERS, MAX_ORDERS, NUMBER);
}

static struct book new_book(void)
{
    struct book b;
    memset(&b, 0, sizeof b);
    fill(LENT(b.state), JUNK);
    fill(LENT(b.scratch), JUNK);
    SAME(make_state(LENT(b.state), PINUGLAW_DECREASE_KEEPS_PRIORITY), PINUGLAW_OK);
    return b;
}

static uint64_t take_snapshot(struct book *b, const struct piece *p)
{
    return pinuglaw_bootstrap(LENT(b->state), LENT(b->rows), LENT(b->segments), p->bytes, p->length);
}

static uint64_t apply(struct book *b, struct piece p)
{
    uint64_t message[PINUGLAW_MESSAGE_WORDS];
    SAME(pinuglaw_read_message(p.bytes, p.length, LENT(message)), PINUGLAW_OK);
    return pinuglaw_apply(LENT(b->state), LENT(b->rows), LENT(b->segments), LENT(message));
}

static uint64_t step(struct book *b, uint64_t handshake[PINUGLAW_HANDSHAKE_WORDS], struct piece p)
{
    uint64_t message[PINUGLAW_MESSAGE_WORDS];
    SAME(pinuglaw_read_message(p.bytes, p.length, LENT(message)), PINUGLAW_OK);
    return pinuglaw_step(LENT(b->state), LENT(b->rows), LENT(b->segments), handshake, PINUGLAW_HANDSHAKE_WORDS, LENT(message));
}

/* ---- The checks. */

static void check_reader(void)
{
    struct piece snapshot = header(PINUGLAW_KIND_SNAPSHOT, 100, 0);
    put_little(&snapshot, 2, 4);
    put_little(&snapshot, 1, 4);
    put_order(&snapshot, A, 10, 2);
    put_order(&snapshot, D, 9, 4);
    put_order(&snapshot, B, 12, 3);
    uint64_t head[PINUGLAW_SNAPSHOT_WORDS];
    SAME(pinuglaw_read_snapshot(snapshot.bytes, snapshot.length, LENT(head)), PINUGLAW_OK);
    WORDS(head, [PINUGLAW_SNAPSHOT_PRODUCT_HIGH] = big_word(PRODUCT), [PINUGLAW_SNAPSHOT_PRODUCT_LOW] = big_word(PRODUCT + 8),
          [PINUGLAW_SNAPSHOT_SEQUENCE] = 100, [PINUGLAW_SNAPSHOT_BIDS] = 2, [PINUGLAW_SNAPSHOT_ASKS] = 1);
    uint64_t order[PINUGLAW_ORDER_WORDS];
    SAME(pinuglaw_snapshot_order(snapshot.bytes, snapshot.length, 1, LENT(order)), PINUGLAW_OK);
    WORDS(order, [PINUGLAW_ORDER_ID_HIGH] = ID_HIGH, [PINUGLAW_ORDER_ID_LOW] = D, [PINUGLAW_ORDER_PRICE] = 9, [PINUGLAW_ORDER_SIZE] = 4);

    uint64_t message[PINUGLAW_MESSAGE_WORDS];
    struct piece match = match_piece(102, A, 2);
    SAME(pinuglaw_read_message(match.bytes, match.length - 1, LENT(message)), PINUGLAW_NOT_A_PIECE);
    struct piece wide = open_piece(101, C, 1000000000000001, 5);
    SAME(pinuglaw_read_message(wide.bytes, wide.length, LENT(message)), PINUGLAW_AMOUNT_OUT_OF_RANGE);
    SAME(pinuglaw_read_message(match.bytes, match.length, message, PINUGLAW_MESSAGE_WORDS - 1), PINUGLAW_OUTPUT_TOO_SMALL);
}

#define MESSAGE(kind, sequence) \
    [PINUGLAW_MESSAGE_KIND] = kind, [PINUGLAW_MESSAGE_PRODUCT_HIGH] = big_word(PRODUCT), [PINUGLAW_MESSAGE_PRODUCT_LOW] = big_word(PRODUCT + 8), \
    [PINUGLAW_MESSAGE_SEQUENCE] = sequence, [PINUGLAW_MESSAGE_TIME_US] = 1000 * sequence, [PINUGLAW_MESSAGE_ID_HIGH] = ID_HIGH

static void read_into(uint64_t message[PINUGLAW_MESSAGE_WORDS], struct piece p)
{
    SAME(pinuglaw_read_message(p.bytes, p.length, message, PINUGLAW_MESSAGE_WORDS), PINUGLAW_OK);
}

/* The places of an event's fields. */
static void check_fields(void)
{
    uint64_t message[PINUGLAW_MESSAGE_WORDS];
    read_into(message, open_piece(101, C, 10, 5));
    MESSAGE_WORDS(message, MESSAGE(PINUGLAW_KIND_OPEN, 101), [PINUGLAW_MESSAGE_ID_LOW] = C, [PINUGLAW_OPEN_PRICE] = 10, [PINUGLAW_OPEN_REMAINING] = 5);
    read_into(message, match_piece(102, A, 2));
    MESSAGE_WORDS(message, MESSAGE(PINUGLAW_KIND_MATCH, 102), [PINUGLAW_MESSAGE_ID_LOW] = A, [PINUGLAW_MATCH_TAKER_HIGH] = ID_HIGH, [PINUGLAW_MATCH_TAKER_LOW] = Z,
          [PINUGLAW_MATCH_SIDE] = BUY, [PINUGLAW_MATCH_PRICE] = 10, [PINUGLAW_MATCH_SIZE] = 2);

    struct piece done = header(PINUGLAW_KIND_DONE, 103, 103000);
    put_id(&done, A);
    put_byte(&done, SELL);
    put_little(&done, 10, 8);
    put_byte(&done, 1);
    put_byte(&done, 3);
    put_little(&done, 2, 8);
    read_into(message, done);
    MESSAGE_WORDS(message, MESSAGE(PINUGLAW_KIND_DONE, 103), [PINUGLAW_MESSAGE_ID_LOW] = A, [PINUGLAW_MESSAGE_SIDE] = SELL, [PINUGLAW_DONE_PRICE] = 1,
          [PINUGLAW_DONE_PRICE + 1] = 10, [PINUGLAW_DONE_REASON] = 1, [PINUGLAW_DONE_REMAINING] = 1, [PINUGLAW_DONE_REMAINING + 1] = 2);

    struct piece change = header(PINUGLAW_KIND_CHANGE, 104, 104000);
    put_id(&change, A);
    put_byte(&change, SELL);
    put_byte(&change, 1);
    put_byte(&change, 63);
    for (uint64_t amount = 21; amount < 27; amount++)
        put_little(&change, amount, 8);
    read_into(message, change);
    MESSAGE_WORDS(message, MESSAGE(PINUGLAW_KIND_CHANGE, 104), [PINUGLAW_MESSAGE_ID_LOW] = A, [PINUGLAW_MESSAGE_SIDE] = SELL, [PINUGLAW_CHANGE_REASON] = 1,
          [PINUGLAW_CHANGE_PRICE] = 1, [PINUGLAW_CHANGE_PRICE + 1] = 21, [PINUGLAW_CHANGE_OLD_SIZE] = 1, [PINUGLAW_CHANGE_OLD_SIZE + 1] = 22,
          [PINUGLAW_CHANGE_NEW_SIZE] = 1, [PINUGLAW_CHANGE_NEW_SIZE + 1] = 23, [PINUGLAW_CHANGE_OLD_PRICE] = 1, [PINUGLAW_CHANGE_OLD_PRICE + 1] = 24,
          [PINUGLAW_CHANGE_NEW_PRICE] = 1, [PINUGLAW_CHANGE_NEW_PRICE + 1] = 25, [PINUGLAW_CHANGE_NEW_FUNDS] = 1, [PINUGLAW_CHANGE_NEW_FUNDS + 1] = 26);
}

/* A new state: 4 before 7, and nothing past its words. */
static void check_new(void)
{
    uint64_t state[PINUGLAW_STATE_WORDS + 1];
    fill(LENT(state), JUNK);
    SAME(make_state(state, PINUGLAW_STATE_WORDS - 1, NO_VALUE), PINUGLAW_NOT_A_PIECE);
    SAME(make_state(LENT(state), NO_VALUE), PINUGLAW_NOT_A_PIECE);
    SAME(make_state(state, PINUGLAW_STATE_WORDS - 1, PINUGLAW_DECREASE_PRIORITY_UNKNOWN), PINUGLAW_OUTPUT_TOO_SMALL);
    for (size_t i = 0; i <= PINUGLAW_STATE_WORDS; i++)
        SAME(state[i], JUNK);
    SAME(make_state(LENT(state), PINUGLAW_DECREASE_PRIORITY_UNKNOWN), PINUGLAW_OK);
    WORDS(state, big_word(PRODUCT), big_word(PRODUCT + 8), PINUGLAW_DECREASE_PRIORITY_UNKNOWN, MAX_ORDERS, MAX_ORDERS, NUMBER, [PINUGLAW_STATE_WORDS] = JUNK);
}

static void check_bootstrap(struct book *b)
{
    uint64_t last[1] = {JUNK};
    SAME(pinuglaw_last_sequence(LENT(b->state), LENT(b->rows), LENT(last)), PINUGLAW_NOT_BOOTSTRAPPED);
    SAME(last[0], JUNK);
    struct piece snapshot = snapshot_of_e(100);
    SAME(take_snapshot(b, &snapshot), PINUGLAW_OK);
    WORDS(b->state, big_word(PRODUCT), big_word(PRODUCT + 8), 0, 3, 3, NUMBER, PINUGLAW_STATUS_VALID, 100, 0, 0, 0, 0, 0, 2, 1, 0, 0, 0, 0, 0, 0, 0, 0, 0, 0, 0, 0);
    WORDS(b->rows, ID_HIGH, A, 10, 2, 0, 100, 0, 0, ID_HIGH, B, 12, 3, 1, 100, 0, 0, 0, 0, 0, 0, 0, 0, 0, 0);
    WORDS(b->segments, 100, 100, 0, 0, 0, 0, 0, 0, 0, 0, 0, 0, 0, 0, 0, 0);
    SAME(pinuglaw_rows_broken(LENT(b->rows), 2, 3), 0);
    SAME(pinuglaw_rows_broken(LENT(b->rows), 3, 3), 1);
}

/* A buffer that the line sent again: its old part is dropped, the rest is applied. */
static void check_handshake(struct book *b)
{
    uint64_t handshake[PINUGLAW_HANDSHAKE_WORDS];
    SAME(pinuglaw_handshake(LENT(b->state), handshake, PINUGLAW_HANDSHAKE_WORDS - 1), PINUGLAW_OUTPUT_TOO_SMALL);
    SAME(pinuglaw_handshake(LENT(b->state), LENT(handshake)), PINUGLAW_OK);
    WORDS(handshake, NUMBER, 0, 0, 0);
    SAME(step(b, handshake, match_piece(100, A, 2)), PINUGLAW_DROPPED);
    WORDS(handshake, NUMBER, 0, 0, 0);
    SAME(b->state[PINUGLAW_STATE_HANDSHAKE_DROPPED], 1);
    SAME(step(b, handshake, open_piece(101, C, 10, 5)), PINUGLAW_BOOK_CHANGED);
    WORDS(handshake, NUMBER, 0, 0, 1);
    WORDS(b->rows, ID_HIGH, A, 10, 2, 0, 100, 0, 0, ID_HIGH, B, 12, 3, 1, 100, 0, 0, ID_HIGH, C, 10, 5, 2, 101, 0, 0);
    WORDS(b->segments, 100, 101, 0, 0, 0, 0, 101000, 101000);
    const uint64_t *c = b->rows + 2 * PINUGLAW_ROW_WORDS;
    WORDS(c, [PINUGLAW_ROW_ID_HIGH] = ID_HIGH, [PINUGLAW_ROW_ID_LOW] = C, [PINUGLAW_ROW_PRICE] = 10, [PINUGLAW_ROW_REMAINING] = 5, [PINUGLAW_ROW_KIND] = 2,
          [PINUGLAW_ROW_ENTERED_AT] = 101, [PINUGLAW_ROW_DECREASED] = 0, [PINUGLAW_ROW_DECREASED_AT] = 0);
    handshake[PINUGLAW_HANDSHAKE_PLACE] = 1;
    SAME(step(b, handshake, match_piece(102, A, 2)), PINUGLAW_HANDSHAKE_OVER);
    WORDS(handshake, NUMBER, 1, 0, 1);
}

static void check_level_reads(struct book *b)
{
    uint64_t out[MAX_ORDERS * PINUGLAW_QUEUE_WORDS], count[1] = {JUNK};
    memset(out, 0, sizeof out);
    SAME(pinuglaw_level_queue(LENT(b->state), LENT(b->rows), LENT(b->scratch), BUY, 10, LENT(out), LENT(count)), PINUGLAW_OK);
    SAME(count[0], 2);
    WORDS(out, ID_HIGH, A, 2, 0, 0, ID_HIGH, C, 5, 1, 101, 0, 0, 0, 0, 0);
    const uint64_t *c = out + PINUGLAW_QUEUE_WORDS;
    WORDS(c, [PINUGLAW_QUEUE_ID_HIGH] = ID_HIGH, [PINUGLAW_QUEUE_ID_LOW] = C, [PINUGLAW_QUEUE_REMAINING] = 5, [PINUGLAW_QUEUE_OBSERVED] = 1,
          [PINUGLAW_QUEUE_ENTERED_AT] = 101);
    WORDS(b->scratch, 0, 0, 0);
    SAME(pinuglaw_level_queue(LENT(b->state), LENT(b->rows), LENT(b->scratch), BUY, 11, LENT(out), LENT(count)), PINUGLAW_OK);
    SAME(count[0], 0);
    SAME(pinuglaw_level_queue(LENT(b->state), LENT(b->rows), LENT(b->scratch), BUY, 10, out, 9, LENT(count)), PINUGLAW_OUTPUT_TOO_SMALL);
    SAME(pinuglaw_level_queue(LENT(b->state), LENT(b->rows), b->scratch, 2, BUY, 10, LENT(out), LENT(count)), PINUGLAW_MEMORY_TOO_SHORT);
    SAME(pinuglaw_priority_profile(LENT(b->state), LENT(b->rows), LENT(b->scratch), BUY, LENT(out), LENT(count)), PINUGLAW_OK);
    SAME(count[0], 1);
    WORDS(out, [PINUGLAW_PROFILE_PRICE] = 10, [PINUGLAW_PROFILE_TOTAL] = 7, [PINUGLAW_PROFILE_UNKNOWN] = 2);
    SAME(pinuglaw_l2(LENT(b->state), LENT(b->rows), LENT(b->scratch), SELL, LENT(out), LENT(count)), PINUGLAW_OK);
    SAME(count[0], 1);
    /* The third word is the profile's: an entry has two. */
    WORDS(out, 12, 3, 2);
    SAME(pinuglaw_stale_l2(LENT(b->state), LENT(b->rows), LENT(b->scratch), SELL, LENT(out), LENT(count)), PINUGLAW_NOT_STALE);
}

static void check_small_reads(struct book *b)
{
    uint64_t last[1], best[PINUGLAW_BEST_WORDS];
    SAME(pinuglaw_last_sequence(LENT(b->state), LENT(b->rows), LENT(last)), PINUGLAW_OK);
    SAME(last[0], 101);
    SAME(pinuglaw_best(LENT(b->state), LENT(b->rows), LENT(best)), PINUGLAW_OK);
    WORDS(best, [PINUGLAW_BEST_HAS_BID] = 1, [PINUGLAW_BEST_BID] = 10, [PINUGLAW_BEST_HAS_ASK] = 1, [PINUGLAW_BEST_ASK] = 12);
    SAME(pinuglaw_audit(LENT(b->state), LENT(b->rows)), PINUGLAW_OK);
    SAME(pinuglaw_audit(LENT(b->state), b->rows, MAX_ORDERS * PINUGLAW_ROW_WORDS - 1), PINUGLAW_MEMORY_TOO_SHORT);
    uint64_t why[PINUGLAW_INVALIDATION_WORDS] = {5, 5, 5, 5, 5, 5}, record[PINUGLAW_RECORD_WORDS];
    SAME(pinuglaw_invalidation(LENT(b->state), LENT(why)), PINUGLAW_NOT_STALE);
    WORDS(why, 5, 5, 5, 5, 5, 5);
    SAME(pinuglaw_segment(LENT(b->state), LENT(b->segments), 0, LENT(record)), PINUGLAW_OK);
    WORDS(record, 100, 101, 0, 0, 0, 0, 101000, 101000, [PINUGLAW_SEGMENT_ELAPSED] = 0, [PINUGLAW_SEGMENT_ACCEPTED] = 1);
    SAME(pinuglaw_segment(LENT(b->state), LENT(b->segments), 1, LENT(record)), PINUGLAW_NO_RECORD);
}

#define VOLUME(at, total, snapshot, observed, orders) \
    [PINUGLAW_VOLUME_AT_SEQ] = at, [PINUGLAW_VOLUME_TOTAL] = total, [PINUGLAW_VOLUME_FROM_SNAPSHOT] = snapshot, [PINUGLAW_VOLUME_OBSERVED] = observed, \
    [PINUGLAW_VOLUME_ORDERS] = orders

/* 01's C1 and C2, and a hypothetical order behind both. */
static void check_estimates(struct book *b)
{
    uint64_t own[PINUGLAW_ESTIMATE_WORDS], behind[PINUGLAW_ESTIMATE_WORDS], ahead[MAX_ORDERS * PINUGLAW_AHEAD_WORDS];
    uint64_t volume[PINUGLAW_VOLUME_WORDS];
    memset(ahead, 0, sizeof ahead);
    SAME(pinuglaw_queue_estimate_own(LENT(b->state), LENT(b->rows), ID_HIGH, C, LENT(own)), PINUGLAW_OK);
    WORDS(own, [PINUGLAW_ESTIMATE_SIDE] = BUY, [PINUGLAW_ESTIMATE_PRICE] = 10, [PINUGLAW_ESTIMATE_NUMBER] = NUMBER, [PINUGLAW_ESTIMATE_PLACE] = 0,
          [PINUGLAW_ESTIMATE_OWN] = 1, [PINUGLAW_ESTIMATE_ID_HIGH] = ID_HIGH, [PINUGLAW_ESTIMATE_ID_LOW] = C, [PINUGLAW_ESTIMATE_ENTERED_AT] = 101);
    SAME(pinuglaw_queue_estimate(LENT(b->state), LENT(b->rows), BUY, 10, LENT(ahead), LENT(behind)), PINUGLAW_OK);
    WORDS(behind, BUY, 10, NUMBER, 0, 0, 2, 101, 0);
    SAME(behind[PINUGLAW_ESTIMATE_ORDERS], 2);
    SAME(behind[PINUGLAW_ESTIMATE_CREATED_AT], 101);
    WORDS(ahead, ID_HIGH, A, 100, ID_HIGH, C, 101, 0, 0, 0);
    WORDS(ahead, [PINUGLAW_AHEAD_ID_HIGH] = ID_HIGH, [PINUGLAW_AHEAD_ID_LOW] = A, [PINUGLAW_AHEAD_ENTERED_AT] = 100);
    SAME(pinuglaw_volume_ahead(LENT(b->state), LENT(b->rows), LENT(own), ahead, 0, LENT(volume)), PINUGLAW_OK);
    WORDS(volume, VOLUME(101, 2, 2, 0, 1), [PINUGLAW_VOLUME_ASSUMPTION] = 1, [PINUGLAW_VOLUME_KEEPS_PRIORITY] = 0);
    SAME(apply(b, match_piece(102, A, 2)), PINUGLAW_BOOK_CHANGED);
    SAME(pinuglaw_volume_ahead(LENT(b->state), LENT(b->rows), LENT(own), ahead, 0, LENT(volume)), PINUGLAW_OK);
    WORDS(volume, 102, 0, 0, 0, 0, 1, 0);
    SAME(pinuglaw_volume_ahead(LENT(b->state), LENT(b->rows), LENT(behind), LENT(ahead), LENT(volume)), PINUGLAW_OK);
    WORDS(volume, VOLUME(102, 5, 0, 5, 1), [PINUGLAW_VOLUME_ASSUMPTION] = 0, [PINUGLAW_VOLUME_KEEPS_PRIORITY] = 0);
    SAME(pinuglaw_volume_ahead(LENT(b->state), LENT(b->rows), LENT(behind), ahead, 5, LENT(volume)), PINUGLAW_AHEAD_LIST_UNUSABLE);
    SAME(pinuglaw_queue_estimate_own(LENT(b->state), LENT(b->rows), ID_HIGH, B, LENT(own)), PINUGLAW_PRIORITY_UNKNOWN);
    SAME(pinuglaw_queue_estimate_own(LENT(b->state), LENT(b->rows), ID_HIGH, Z, LENT(own)), PINUGLAW_NOT_RESTING);
}

/* The line sends the match again: no figure until the next snapshot, which an old estimate does not outlive. */
static void check_resent(struct book *b)
{
    uint64_t own[PINUGLAW_ESTIMATE_WORDS], volume[PINUGLAW_VOLUME_WORDS], out[PINUGLAW_L2_WORDS], count[1];
    SAME(pinuglaw_queue_estimate_own(LENT(b->state), LENT(b->rows), ID_HIGH, C, LENT(own)), PINUGLAW_OK);
    SAME(apply(b, match_piece(102, A, 2)), PINUGLAW_INVALIDATED);
    WORDS(b->state, big_word(PRODUCT), big_word(PRODUCT + 8), 0, 3, 3, NUMBER, PINUGLAW_STATUS_INVALID, 102, 102, PINUGLAW_OUT_OF_ORDER_OR_DUPLICATE, 102, 102, 0, 2, 1, 0,
          1, 0, 1, 0, 0, 0, 0, 1, 0, 0, 0);
    WORDS(b->segments, 100, 102, PINUGLAW_OUT_OF_ORDER_OR_DUPLICATE, 102, 102, 0, 101000, 102000, 0, 0, 0, 0, 0, 0, 0, 0);
    uint64_t why[PINUGLAW_INVALIDATION_WORDS], record[PINUGLAW_RECORD_WORDS];
    SAME(pinuglaw_invalidation(LENT(b->state), LENT(why)), PINUGLAW_OK);
    WORDS(why, 102, 102, [PINUGLAW_INVALIDATION_REASON] = PINUGLAW_OUT_OF_ORDER_OR_DUPLICATE, 102, 102, 0);
    SAME(pinuglaw_segment(LENT(b->state), LENT(b->segments), 0, LENT(record)), PINUGLAW_OK);
    WORDS(record, 100, 102, PINUGLAW_OUT_OF_ORDER_OR_DUPLICATE, 102, 102, 0, 101000, 102000, 1000, 2);
    SAME(pinuglaw_volume_ahead(LENT(b->state), LENT(b->rows), LENT(own), own, 0, LENT(volume)), PINUGLAW_VIEW_INVALIDATED);
    SAME(pinuglaw_stale_l2(LENT(b->state), LENT(b->rows), LENT(b->scratch), BUY, LENT(out), LENT(count)), PINUGLAW_OK);
    SAME(count[0], 1);
    WORDS(out, 10, 5);
    SAME(apply(b, match_piece(103, A, 2)), PINUGLAW_AWAITING_SNAPSHOT);
    SAME(b->state[PINUGLAW_STATE_SKIPPED_WHILE_INVALID], 1);

    struct piece snapshot = snapshot_of_e(200);
    SAME(take_snapshot(b, &snapshot), PINUGLAW_OK);
    SAME(pinuglaw_volume_ahead(LENT(b->state), LENT(b->rows), LENT(own), own, 0, LENT(volume)), PINUGLAW_STALE_ESTIMATE);
    SAME(take_snapshot(b, &snapshot), PINUGLAW_SEGMENT_LIST_FULL);
    uint64_t handshake[PINUGLAW_HANDSHAKE_WORDS];
    SAME(pinuglaw_handshake(LENT(b->state), LENT(handshake)), PINUGLAW_OK);
    WORDS(handshake, NUMBER, 1, 0, 0);
    SAME(step(b, handshake, match_piece(202, A, 1)), PINUGLAW_INVALIDATED);
    WORDS(handshake, NUMBER, 1, 1, 0);
    SAME(b->state[PINUGLAW_STATE_REASON], PINUGLAW_GAP);
    SAME(step(b, handshake, match_piece(201, A, 1)), PINUGLAW_HANDSHAKE_OVER);
}

/* ---- The order of the numbers: 768, 4, then 1, 2 and 3, then the call's own, and 7 last. None of these calls writes a word. */

static struct book valid_e(void)
{
    struct book b = new_book();
    struct piece snapshot = snapshot_of_e(100);
    SAME(take_snapshot(&b, &snapshot), PINUGLAW_OK);
    return b;
}

/* E once the line has left out a message. */
static struct book invalid_e(void)
{
    struct book b = valid_e();
    SAME(apply(&b, open_piece(102, C, 10, 5)), PINUGLAW_INVALIDATED);
    return b;
}

static void same_book(int line, const struct book *got, const struct book *expected)
{
    same_words(line, "state", got->state, expected->state, PINUGLAW_STATE_WORDS);
    same_words(line, "rows", got->rows, expected->rows, sizeof got->rows / sizeof got->rows[0]);
    same_words(line, "segments", got->segments, expected->segments, sizeof got->segments / sizeof got->segments[0]);
    same_words(line, "scratch", got->scratch, expected->scratch, MAX_ORDERS);
}

#define SAME_BOOK(got, expected) same_book(__LINE__, got, expected)

static uint64_t apply_words(struct book *b, const uint64_t *message, size_t length)
{
    return pinuglaw_apply(LENT(b->state), LENT(b->rows), LENT(b->segments), message, length);
}

/* The words of a message for E, the next one. */
static void next_message(uint64_t message[PINUGLAW_MESSAGE_WORDS], uint64_t kind)
{
    fill(message, PINUGLAW_MESSAGE_WORDS, 0);
    message[PINUGLAW_MESSAGE_KIND] = kind;
    message[PINUGLAW_MESSAGE_PRODUCT_HIGH] = big_word(PRODUCT);
    message[PINUGLAW_MESSAGE_PRODUCT_LOW] = big_word(PRODUCT + 8);
    message[PINUGLAW_MESSAGE_SEQUENCE] = 101;
}

/* Without a snapshot nothing is shown, and a handshake has ended before its first step. */
static void check_fresh(void)
{
    struct book b = new_book();
    const struct book kept = b;
    uint64_t best[PINUGLAW_BEST_WORDS - 1], handshake[PINUGLAW_HANDSHAKE_WORDS];
    fill(LENT(best), JUNK);
    SAME(pinuglaw_best(LENT(b.state), LENT(b.rows), LENT(best)), PINUGLAW_NOT_BOOTSTRAPPED);
    SAME(pinuglaw_last_sequence(LENT(b.state), LENT(b.rows), best, 0), PINUGLAW_NOT_BOOTSTRAPPED);
    WORDS(best, JUNK, JUNK, JUNK);
    SAME(pinuglaw_handshake(LENT(b.state), LENT(handshake)), PINUGLAW_OK);
    WORDS(handshake, NUMBER, 0, [PINUGLAW_HANDSHAKE_ENDED] = 1, [PINUGLAW_HANDSHAKE_APPLIED] = 0);
    SAME(step(&b, handshake, open_piece(101, C, 10, 5)), PINUGLAW_HANDSHAKE_OVER);
    SAME_BOOK(&b, &kept);
}

/* What turns a call away comes before an output that is too small. */
static void check_outputs_last(void)
{
    struct book valid = valid_e(), invalid = invalid_e();
    const struct book kept_valid = valid, kept_invalid = invalid;
    uint64_t behind[PINUGLAW_ESTIMATE_WORDS], ahead[PINUGLAW_AHEAD_WORDS], out[PINUGLAW_RECORD_WORDS], count[PINUGLAW_COUNT_WORDS] = {JUNK};
    SAME(pinuglaw_queue_estimate(LENT(valid.state), LENT(valid.rows), BUY, 10, LENT(ahead), LENT(behind)), PINUGLAW_OK);
    fill(LENT(out), JUNK);
    SAME(pinuglaw_volume_ahead(LENT(invalid.state), LENT(invalid.rows), LENT(behind), LENT(ahead), out, PINUGLAW_VOLUME_WORDS - 1), PINUGLAW_VIEW_INVALIDATED);
    SAME(pinuglaw_volume_ahead(LENT(valid.state), LENT(valid.rows), LENT(behind), ahead, 2, out, 0), PINUGLAW_AHEAD_LIST_UNUSABLE);
    SAME(pinuglaw_volume_ahead(LENT(valid.state), LENT(valid.rows), LENT(behind), LENT(ahead), out, PINUGLAW_VOLUME_WORDS - 1), PINUGLAW_OUTPUT_TOO_SMALL);
    SAME(pinuglaw_queue_estimate_own(LENT(valid.state), LENT(valid.rows), ID_HIGH, Z, out, 0), PINUGLAW_NOT_RESTING);
    SAME(pinuglaw_queue_estimate_own(LENT(valid.state), LENT(valid.rows), ID_HIGH, A, out, 0), PINUGLAW_PRIORITY_UNKNOWN);
    SAME(pinuglaw_queue_estimate(LENT(valid.state), LENT(valid.rows), BUY, 10, LENT(ahead), out, PINUGLAW_ESTIMATE_WORDS - 1), PINUGLAW_OUTPUT_TOO_SMALL);
    SAME(pinuglaw_stale_l2(LENT(valid.state), LENT(valid.rows), LENT(valid.scratch), BUY, out, 0, count, 0), PINUGLAW_NOT_STALE);
    SAME(pinuglaw_stale_l2(LENT(invalid.state), LENT(invalid.rows), LENT(invalid.scratch), BUY, LENT(out), count, 0), PINUGLAW_OUTPUT_TOO_SMALL);
    SAME(pinuglaw_l2(LENT(invalid.state), LENT(invalid.rows), LENT(invalid.scratch), BUY, out, 0, count, 0), PINUGLAW_VIEW_INVALIDATED);
    SAME(pinuglaw_l2(LENT(valid.state), LENT(valid.rows), LENT(valid.scratch), BUY, LENT(out), count, 0), PINUGLAW_OUTPUT_TOO_SMALL);
    SAME(pinuglaw_invalidation(LENT(valid.state), out, 0), PINUGLAW_NOT_STALE);
    SAME(pinuglaw_invalidation(LENT(invalid.state), out, PINUGLAW_INVALIDATION_WORDS - 1), PINUGLAW_OUTPUT_TOO_SMALL);
    SAME(pinuglaw_segment(LENT(valid.state), LENT(valid.segments), 1, out, 0), PINUGLAW_NO_RECORD);
    SAME(pinuglaw_segment(LENT(valid.state), LENT(valid.segments), 0, out, PINUGLAW_RECORD_WORDS - 1), PINUGLAW_OUTPUT_TOO_SMALL);
    WORDS(out, JUNK, JUNK, JUNK, JUNK, JUNK, JUNK, JUNK, JUNK, JUNK, JUNK);
    SAME(count[0], JUNK);
    SAME_BOOK(&valid, &kept_valid);
    SAME_BOOK(&invalid, &kept_invalid);
}

/* A state that lacks a word, lent to every call; the outputs are too small besides, and the sides no sides. */
static void check_short_states(struct book *b, uint64_t *words)
{
    const size_t lent = PINUGLAW_STATE_WORDS - 1;
    uint64_t *state = b->state, message[PINUGLAW_MESSAGE_WORDS] = {0}, handshake[PINUGLAW_HANDSHAKE_WORDS] = {0}, count[PINUGLAW_COUNT_WORDS];
    const struct piece snapshot = snapshot_of_e(200);
    SAME(pinuglaw_apply(state, lent, LENT(b->rows), LENT(b->segments), LENT(message)), PINUGLAW_SHORT_INPUT);
    SAME(pinuglaw_step(state, lent, LENT(b->rows), LENT(b->segments), LENT(handshake), LENT(message)), PINUGLAW_SHORT_INPUT);
    SAME(pinuglaw_apply_all(state, lent, LENT(b->rows), LENT(b->segments), LENT(message), words, 0), PINUGLAW_SHORT_INPUT);
    SAME(pinuglaw_bootstrap(state, lent, LENT(b->rows), LENT(b->segments), snapshot.bytes, snapshot.length), PINUGLAW_SHORT_INPUT);
    SAME(pinuglaw_handshake(state, lent, words, 0), PINUGLAW_SHORT_INPUT);
    SAME(pinuglaw_last_sequence(state, lent, LENT(b->rows), words, 0), PINUGLAW_SHORT_INPUT);
    SAME(pinuglaw_best(state, lent, LENT(b->rows), words, 0), PINUGLAW_SHORT_INPUT);
    SAME(pinuglaw_audit(state, lent, LENT(b->rows)), PINUGLAW_SHORT_INPUT);
    SAME(pinuglaw_invalidation(state, lent, words, 0), PINUGLAW_SHORT_INPUT);
    SAME(pinuglaw_segment(state, lent, LENT(b->segments), 0, words, 0), PINUGLAW_SHORT_INPUT);
    SAME(pinuglaw_level_queue(state, lent, LENT(b->rows), b->scratch, 0, NO_VALUE, 10, words, 0, count, 0), PINUGLAW_SHORT_INPUT);
    SAME(pinuglaw_priority_profile(state, lent, LENT(b->rows), b->scratch, 0, NO_VALUE, words, 0, count, 0), PINUGLAW_SHORT_INPUT);
    SAME(pinuglaw_l2(state, lent, LENT(b->rows), b->scratch, 0, NO_VALUE, words, 0, count, 0), PINUGLAW_SHORT_INPUT);
    SAME(pinuglaw_stale_l2(state, lent, LENT(b->rows), b->scratch, 0, NO_VALUE, words, 0, count, 0), PINUGLAW_SHORT_INPUT);
    SAME(pinuglaw_queue_estimate(state, lent, LENT(b->rows), NO_VALUE, 10, words, 0, count, 0), PINUGLAW_SHORT_INPUT);
    SAME(pinuglaw_queue_estimate_own(state, lent, LENT(b->rows), ID_HIGH, Z, words, 0), PINUGLAW_SHORT_INPUT);
    SAME(pinuglaw_volume_ahead(state, lent, LENT(b->rows), words, PINUGLAW_ESTIMATE_WORDS, handshake, 0, count, 0), PINUGLAW_SHORT_INPUT);
}

static void check_short_inputs(void)
{
    struct book b = valid_e();
    const struct book kept = b;
    uint64_t words[PINUGLAW_ESTIMATE_WORDS], message[PINUGLAW_MESSAGE_WORDS], handshake[PINUGLAW_HANDSHAKE_WORDS], ahead[1], volume[1];
    fill(LENT(words), JUNK);
    check_short_states(&b, words);
    next_message(message, PINUGLAW_KIND_RECEIVED);
    SAME(apply_words(&b, message, PINUGLAW_MESSAGE_WORDS - 1), PINUGLAW_SHORT_INPUT);
    SAME(pinuglaw_handshake(LENT(b.state), LENT(handshake)), PINUGLAW_OK);
    SAME(pinuglaw_step(LENT(b.state), LENT(b.rows), LENT(b.segments), handshake, PINUGLAW_HANDSHAKE_WORDS - 1, LENT(message)), PINUGLAW_SHORT_INPUT);
    SAME(pinuglaw_step(LENT(b.state), LENT(b.rows), LENT(b.segments), LENT(handshake), message, PINUGLAW_MESSAGE_WORDS - 1), PINUGLAW_SHORT_INPUT);
    SAME(pinuglaw_volume_ahead(LENT(b.state), LENT(b.rows), words, PINUGLAW_ESTIMATE_WORDS - 1, ahead, 0, volume, 0), PINUGLAW_SHORT_INPUT);
    WORDS(handshake, NUMBER, 0, 0, 0);
    for (size_t i = 0; i < PINUGLAW_ESTIMATE_WORDS; i++)
        SAME(words[i], JUNK);
    SAME_BOOK(&b, &kept);
}

/* Words that no message of a kind has at a place that the kind names. */
static const struct {
    uint64_t kind;
    size_t place;
    uint64_t word;
} NO_VALUES[] = {
    {0, PINUGLAW_MESSAGE_KIND, 0},
    {PINUGLAW_KIND_UNSUPPORTED + 1, PINUGLAW_MESSAGE_KIND, PINUGLAW_KIND_UNSUPPORTED + 1},
    {PINUGLAW_KIND_RECEIVED, PINUGLAW_MESSAGE_SIDE, NO_VALUE},
    {PINUGLAW_KIND_OPEN, PINUGLAW_MESSAGE_SIDE, NO_VALUE},
    {PINUGLAW_KIND_DONE, PINUGLAW_MESSAGE_SIDE, NO_VALUE},
    {PINUGLAW_KIND_DONE, PINUGLAW_DONE_PRICE, NO_VALUE},
    {PINUGLAW_KIND_DONE, PINUGLAW_DONE_REASON, NO_VALUE},
    {PINUGLAW_KIND_DONE, PINUGLAW_DONE_REMAINING, NO_VALUE},
    {PINUGLAW_KIND_MATCH, PINUGLAW_MATCH_SIDE, NO_VALUE},
    {PINUGLAW_KIND_CHANGE, PINUGLAW_MESSAGE_SIDE, NO_VALUE},
    {PINUGLAW_KIND_CHANGE, PINUGLAW_CHANGE_REASON, NO_VALUE},
    {PINUGLAW_KIND_CHANGE, PINUGLAW_CHANGE_PRICE, NO_VALUE},
    {PINUGLAW_KIND_CHANGE, PINUGLAW_CHANGE_OLD_SIZE, NO_VALUE},
    {PINUGLAW_KIND_CHANGE, PINUGLAW_CHANGE_NEW_SIZE, NO_VALUE},
    {PINUGLAW_KIND_CHANGE, PINUGLAW_CHANGE_OLD_PRICE, NO_VALUE},
    {PINUGLAW_KIND_CHANGE, PINUGLAW_CHANGE_NEW_PRICE, NO_VALUE},
    {PINUGLAW_KIND_CHANGE, PINUGLAW_CHANGE_NEW_FUNDS, NO_VALUE},
    {PINUGLAW_KIND_UNSUPPORTED, PINUGLAW_UNSUPPORTED_NUMBER, UINT64_C(1) << 32},
};

/* 4 comes before 2, which the rows and scratch of no words would bring. */
static void check_words_of_no_value(void)
{
    struct book b = valid_e();
    const struct book kept = b;
    uint64_t message[PINUGLAW_MESSAGE_WORDS], handshake[PINUGLAW_HANDSHAKE_WORDS], out[PINUGLAW_VOLUME_WORDS], count[PINUGLAW_COUNT_WORDS], ahead[1];
    SAME(pinuglaw_handshake(LENT(b.state), LENT(handshake)), PINUGLAW_OK);
    for (size_t i = 0; i < sizeof NO_VALUES / sizeof NO_VALUES[0]; i++) {
        next_message(message, NO_VALUES[i].kind);
        message[NO_VALUES[i].place] = NO_VALUES[i].word;
        SAME(apply_words(&b, LENT(message)), PINUGLAW_NOT_A_PIECE);
        SAME(pinuglaw_apply(LENT(b.state), b.rows, 0, LENT(b.segments), LENT(message)), PINUGLAW_NOT_A_PIECE);
        SAME(pinuglaw_step(LENT(b.state), LENT(b.rows), LENT(b.segments), LENT(handshake), LENT(message)), PINUGLAW_NOT_A_PIECE);
    }
    next_message(message, PINUGLAW_KIND_RECEIVED);
    handshake[PINUGLAW_HANDSHAKE_ENDED] = NO_VALUE;
    SAME(pinuglaw_step(LENT(b.state), b.rows, 0, LENT(b.segments), LENT(handshake), LENT(message)), PINUGLAW_NOT_A_PIECE);
    WORDS(handshake, NUMBER, 0, NO_VALUE, 0);
    SAME(pinuglaw_level_queue(LENT(b.state), b.rows, 0, b.scratch, 0, NO_VALUE, 10, LENT(out), LENT(count)), PINUGLAW_NOT_A_PIECE);
    SAME(pinuglaw_priority_profile(LENT(b.state), b.rows, 0, b.scratch, 0, NO_VALUE, LENT(out), LENT(count)), PINUGLAW_NOT_A_PIECE);
    SAME(pinuglaw_l2(LENT(b.state), b.rows, 0, b.scratch, 0, NO_VALUE, LENT(out), LENT(count)), PINUGLAW_NOT_A_PIECE);
    SAME(pinuglaw_stale_l2(LENT(b.state), b.rows, 0, b.scratch, 0, NO_VALUE, LENT(out), LENT(count)), PINUGLAW_NOT_A_PIECE);
    SAME(pinuglaw_queue_estimate(LENT(b.state), b.rows, 0, NO_VALUE, 10, ahead, 0, out, 0), PINUGLAW_NOT_A_PIECE);
    uint64_t of_no_side[PINUGLAW_ESTIMATE_WORDS] = {NO_VALUE}, of_no_order[PINUGLAW_ESTIMATE_WORDS] = {[PINUGLAW_ESTIMATE_OWN] = NO_VALUE};
    SAME(pinuglaw_volume_ahead(LENT(b.state), b.rows, 0, LENT(of_no_side), ahead, 0, LENT(out)), PINUGLAW_NOT_A_PIECE);
    SAME(pinuglaw_volume_ahead(LENT(b.state), b.rows, 0, LENT(of_no_order), ahead, 0, LENT(out)), PINUGLAW_NOT_A_PIECE);
    SAME_BOOK(&b, &kept);
}

/* Words that no book has, in the state of an invalid one. */
static const struct {
    size_t place;
    uint64_t word;
} NO_BOOKS[] = {
    {PINUGLAW_STATE_SIZE_DECREASE, NO_VALUE},
    {PINUGLAW_STATE_STATUS, PINUGLAW_STATUS_INVALID + 1},
    {PINUGLAW_STATE_REASON, 0},
    {PINUGLAW_STATE_REASON, PINUGLAW_GAP - 1},
    {PINUGLAW_STATE_REASON, PINUGLAW_SEQUENCE_OVERFLOW + 1},
    {PINUGLAW_STATE_REASON, PINUGLAW_UNKNOWN_MAKER - 1},
    {PINUGLAW_STATE_REASON, PINUGLAW_UNSUPPORTED_INPUT + 1},
};

/* Such a state is 3, after 1 and 2; of the calls that are lent no rows at once. */
static void check_state_of_no_book(struct book b)
{
    const struct book kept = b;
    uint64_t message[PINUGLAW_MESSAGE_WORDS], out[PINUGLAW_RECORD_WORDS], count[PINUGLAW_COUNT_WORDS];
    const struct piece snapshot = snapshot_of_e(200);
    next_message(message, PINUGLAW_KIND_RECEIVED);
    SAME(apply_words(&b, LENT(message)), PINUGLAW_BROKEN_BOOK);
    SAME(take_snapshot(&b, &snapshot), PINUGLAW_BROKEN_BOOK);
    SAME(pinuglaw_apply_all(LENT(b.state), LENT(b.rows), LENT(b.segments), LENT(message), out, 0), PINUGLAW_BROKEN_BOOK);
    SAME(pinuglaw_best(LENT(b.state), LENT(b.rows), out, 0), PINUGLAW_BROKEN_BOOK);
    SAME(pinuglaw_stale_l2(LENT(b.state), LENT(b.rows), LENT(b.scratch), BUY, out, 0, count, 0), PINUGLAW_BROKEN_BOOK);
    SAME(pinuglaw_handshake(LENT(b.state), out, 0), PINUGLAW_BROKEN_BOOK);
    SAME(pinuglaw_invalidation(LENT(b.state), out, 0), PINUGLAW_BROKEN_BOOK);
    SAME(pinuglaw_segment(LENT(b.state), LENT(b.segments), 0, out, 0), PINUGLAW_BROKEN_BOOK);
    SAME(pinuglaw_apply(LENT(b.state), LENT(b.rows), b.segments, 0, LENT(message)), PINUGLAW_MEMORY_TOO_SHORT);
    SAME(pinuglaw_best(LENT(b.state), b.rows, 0, out, 0), PINUGLAW_MEMORY_TOO_SHORT);
    SAME(pinuglaw_l2(LENT(b.state), LENT(b.rows), b.scratch, 0, BUY, out, 0, count, 0), PINUGLAW_MEMORY_TOO_SHORT);
    SAME_BOOK(&b, &kept);
    b.state[PINUGLAW_STATE_MAX_LEVELS] = PINUGLAW_CEILING + 1;
    SAME(pinuglaw_best(LENT(b.state), b.rows, 0, out, 0), PINUGLAW_LIMIT_ABOVE_CEILING);
    SAME(pinuglaw_handshake(LENT(b.state), out, 0), PINUGLAW_BROKEN_BOOK);
}

static void check_states_of_no_book(void)
{
    for (size_t i = 0; i < sizeof NO_BOOKS / sizeof NO_BOOKS[0]; i++) {
        struct book b = invalid_e();
        b.state[NO_BOOKS[i].place] = NO_BOOKS[i].word;
        check_state_of_no_book(b);
    }
    struct book b = invalid_e();
    b.state[PINUGLAW_STATE_REASON] = PINUGLAW_MALFORMED_CHANGE;
    b.state[PINUGLAW_STATE_DETAIL] = NO_VALUE;
    check_state_of_no_book(b);
}

/* A run of messages in one call: what single calls answer and leave, the re-sent match, what follows it and words of no message among them. */
static void check_apply_all(void)
{
    struct book singly = valid_e(), book = singly;
    enum { RUN = 5, OF_NO_MESSAGE = 2 };
    uint64_t messages[RUN * PINUGLAW_MESSAGE_WORDS], answers[RUN + 1];
    const struct piece run[RUN] = {open_piece(101, C, 10, 5), match_piece(102, A, 2), open_piece(103, D, 9, 1), match_piece(102, A, 2), open_piece(103, D, 9, 1)};
    for (size_t i = 0; i < RUN; i++)
        read_into(messages + i * PINUGLAW_MESSAGE_WORDS, run[i]);
    messages[OF_NO_MESSAGE * PINUGLAW_MESSAGE_WORDS + PINUGLAW_MESSAGE_SIDE] = NO_VALUE;
    fill(LENT(answers), JUNK);
    SAME(pinuglaw_apply_all(LENT(book.state), LENT(book.rows), LENT(book.segments), LENT(messages), answers, RUN - 1), PINUGLAW_OUTPUT_TOO_SMALL);
    SAME(pinuglaw_apply_all(LENT(book.state), book.rows, 0, LENT(book.segments), LENT(messages), answers, RUN - 1), PINUGLAW_MEMORY_TOO_SHORT);
    SAME_BOOK(&book, &singly);
    WORDS(answers, JUNK, JUNK, JUNK, JUNK, JUNK, JUNK);
    SAME(pinuglaw_apply_all(LENT(book.state), LENT(book.rows), LENT(book.segments), LENT(messages), LENT(answers)), PINUGLAW_OK);
    WORDS(answers, PINUGLAW_BOOK_CHANGED, PINUGLAW_BOOK_CHANGED, PINUGLAW_NOT_A_PIECE, PINUGLAW_INVALIDATED, PINUGLAW_AWAITING_SNAPSHOT, JUNK);
    for (size_t i = 0; i < RUN; i++)
        SAME(apply_words(&singly, messages + i * PINUGLAW_MESSAGE_WORDS, PINUGLAW_MESSAGE_WORDS), answers[i]);
    SAME_BOOK(&book, &singly);
}

/* ---- A day file: the snapshot of E, an open, a match, and the match as the line re-sent it. */

static struct piece day_of_e(void)
{
    enum { PIECES = 4, COUNT_BYTES = 4, PAIR_BYTES = 8 };
    const struct piece pieces[PIECES] = {snapshot_of_e(100), open_piece(101, C, 10, 5), match_piece(102, A, 2), match_piece(102, A, 2)};
    struct piece day = {.length = 0};
    size_t offset = COUNT_BYTES + PAIR_BYTES * PIECES;
    put_little(&day, PIECES, COUNT_BYTES);
    for (size_t i = 0; i < PIECES; i++) {
        put_little(&day, offset, PAIR_BYTES / 2);
        put_little(&day, pieces[i].length, PAIR_BYTES / 2);
        offset += pieces[i].length;
    }
    for (size_t i = 0; i < PIECES; i++)
        for (size_t k = 0; k < pieces[i].length; k++)
            put_byte(&day, pieces[i].bytes[k]);
    return day;
}

/* The file is listed as `expected`, in a slice that it fills and in one with a byte to spare; in one a byte short it is 7. No other byte is written. */
static void check_listing(const uint8_t *file, size_t length, const char *expected)
{
    uint8_t listing[PINUGLAW_LISTING_BYTES];
    const size_t n = strlen(expected);
    memset(listing, JUNK, sizeof listing);
    SAME(pinuglaw_replay(file, length, listing, n - 1), PINUGLAW_OUTPUT_TOO_SMALL);
    for (size_t i = 0; i <= n; i++)
        SAME(listing[i], JUNK);
    for (size_t spare = 0; spare < 2; spare++) {
        memset(listing, JUNK, sizeof listing);
        SAME(pinuglaw_replay(file, length, listing, n + spare), n);
        SAME(memcmp(listing, expected, n), 0);
        SAME(listing[n], JUNK);
    }
}

static void check_day(void)
{
    static const char NO_DAY[] = "counts 0 0 0 0 0 0 0 0 0 0 0 0\nstop 0 60\n";
    static const uint8_t too_long[PINUGLAW_DAY_FILE_BYTES + 1];
    const struct piece day = day_of_e();
    check_listing(day.bytes, day.length, "segment 1 100 102 21 1000\ncounts 0 1 0 1 0 0 0 0 0 0 0 0\n");
    check_listing(day.bytes, day.length - 1, NO_DAY);
    check_listing(day.bytes, 0, NO_DAY);
    check_listing(too_long, sizeof too_long, NO_DAY);
    check_listing(too_long, sizeof too_long - 1, "counts 0 0 0 0 0 0 0 0 0 0 0 0\n");
}

int main(void)
{
    struct book b = new_book();
    check_reader();
    check_fields();
    check_new();
    check_bootstrap(&b);
    check_handshake(&b);
    check_small_reads(&b);
    check_level_reads(&b);
    check_estimates(&b);
    check_resent(&b);
    check_fresh();
    check_outputs_last();
    check_short_inputs();
    check_words_of_no_value();
    check_states_of_no_book();
    check_apply_all();
    check_day();
    printf("C: %u checks, %u failed\n", checks, failures);
    return failures != 0;
}
