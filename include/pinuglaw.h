/*
 * Pinuglaw for C: the functions that crate `host_c` exports (`.ci/library host` writes target/staticlib/libhost.a).
 *
 * A book is memory that the caller owns: a state of PINUGLAW_STATE_WORDS, which pinuglaw_new writes, rows of PINUGLAW_ROW_WORDS an order, segment records of
 * PINUGLAW_SEGMENT_WORDS. A call keeps none of it, allocates nothing and always returns. Every slice is a pointer and a length in elements. What one call is
 * lent must not overlap. A slice of length 0 may have any pointer that is not null.
 *
 * "01" is docs/01-scope.md; what each call answers and writes is proved in crates/host. A call answers 0 or a number (enum pinuglaw_number), the first of these
 * that holds; pinuglaw_replay, which is lent no book, answers as its comment says:
 *
 *   768      An input of fixed size is lent too short: a state, a message, a handshake, an estimate.
 *   4        Words that no value has: a kind, side, reason, presence, own, ended or size_decrease word that the layouts below do not give, an unsupported number
 *            of 2^32 or more. Words that no field names, and the value of an optional amount that is not there, may be anything.
 *   1, 2, 3  Limits, memory, book. A state that no book has is number 3's: a size_decrease above 1, a status above 2, of an invalid book a reason that is not
 *            20 to 22 or 30 to 44, of reason 38 a detail above 1. Calls that are lent no rows (pinuglaw_handshake, pinuglaw_invalidation, pinuglaw_segment)
 *            say 3 for no other cause.
 *   ...      What the call's own comment says.
 *   7        An output is too small: always last, once the call is decided.
 *
 * Unless said, every answer but a success leaves every lent word.
 *
 * Amounts (prices, sizes) are whole units of 10^-8 in two's complement, from -10^15 to 10^15. An id and a product are 16 bytes as two words, high first, each
 * the big-endian number of eight bytes.
 */
#ifndef PINUGLAW_H
#define PINUGLAW_H

#include <stdbool.h>
#include <stddef.h>
#include <stdint.h>

#ifdef __cplusplus
extern "C" {
#endif

/* The table of numbers in force (docs/NUMBERS.md), three answers that are no refusals, and 768. */
enum pinuglaw_number {
    PINUGLAW_OK = 0, /* of a message: applied, the book unchanged */
    PINUGLAW_LIMIT_ABOVE_CEILING = 1, /* an order or level limit above 4,096 */
    PINUGLAW_MEMORY_TOO_SHORT = 2, /* rows, scratch or the segment list */
    PINUGLAW_BROKEN_BOOK = 3, /* the words lent are no book */
    PINUGLAW_NOT_A_PIECE = 4, /* bytes that are no piece, or words that no value has */
    PINUGLAW_AMOUNT_OUT_OF_RANGE = 5,
    PINUGLAW_SEGMENT_LIST_FULL = 6,
    PINUGLAW_OUTPUT_TOO_SMALL = 7, /* always said last */
    PINUGLAW_AHEAD_LIST_UNUSABLE = 8, /* above 4,096 orders, or fewer words than its orders need */
    PINUGLAW_HANDSHAKE_OVER = 9, /* ended, or of another segment */
    PINUGLAW_WRONG_PRODUCT = 10,
    PINUGLAW_SNAPSHOT_DUPLICATE_ID = 11,
    PINUGLAW_SNAPSHOT_INVALID_VALUE = 12,
    PINUGLAW_SNAPSHOT_CROSSED = 13,
    PINUGLAW_SNAPSHOT_CAPACITY_EXCEEDED = 14,
    PINUGLAW_NOT_BOOTSTRAPPED = 15,
    PINUGLAW_INVALIDATED = 16, /* this message ended the segment; the state holds the reason, 20 to 44 */
    PINUGLAW_AWAITING_SNAPSHOT = 17, /* the segment had ended before */
    PINUGLAW_VIEW_INVALIDATED = 18, /* a read of an invalid book */
    PINUGLAW_GAP = 20,
    PINUGLAW_OUT_OF_ORDER_OR_DUPLICATE = 21,
    PINUGLAW_SEQUENCE_OVERFLOW = 22,
    PINUGLAW_UNKNOWN_MAKER = 30,
    PINUGLAW_TAKER_RESTING = 31,
    PINUGLAW_MATCH_MISMATCH = 32,
    PINUGLAW_MATCH_EXCEEDS_REMAINING = 33,
    PINUGLAW_DUPLICATE_OPEN = 34,
    PINUGLAW_MISSING_MATCH = 35,
    PINUGLAW_REMAINING_MISMATCH = 36,
    PINUGLAW_DONE_MISMATCH = 37,
    PINUGLAW_MALFORMED_CHANGE = 38,
    PINUGLAW_CHANGE_MISMATCH = 39,
    PINUGLAW_UNSUPPORTED_MODIFICATION = 40,
    PINUGLAW_CROSSED_AFTER_APPLY = 41,
    PINUGLAW_INVALID_VALUE = 42,
    PINUGLAW_CAPACITY_EXCEEDED = 43,
    PINUGLAW_UNSUPPORTED_INPUT = 44,
    PINUGLAW_STALE_ESTIMATE = 50,
    PINUGLAW_PRIORITY_UNKNOWN = 51,
    PINUGLAW_NOT_RESTING = 52,
    PINUGLAW_NOT_A_DAY_FILE = 60, /* listed by pinuglaw_replay, never answered */
    PINUGLAW_BOOK_CHANGED = 256, /* of a message: applied, the book changed */
    PINUGLAW_NOT_STALE = 256, /* of pinuglaw_stale_l2 and pinuglaw_invalidation: the book is not invalid, nothing is written */
    PINUGLAW_NO_RECORD = 256, /* of pinuglaw_segment: no record there, nothing is written */
    PINUGLAW_DROPPED = 512, /* of pinuglaw_step: at or below the snapshot's sequence, counted as handshake_dropped */
    PINUGLAW_SHORT_INPUT = 768 /* a state, message, handshake or estimate of fewer words than it has */
};

/* Sides. */
enum pinuglaw_side {
    PINUGLAW_BUY = 0,
    PINUGLAW_SELL = 1
};

/* What a size decrease does to an order's priority. */
enum pinuglaw_size_decrease {
    PINUGLAW_DECREASE_KEEPS_PRIORITY = 0,
    PINUGLAW_DECREASE_PRIORITY_UNKNOWN = 1 /* an estimate that depends on it is 51 */
};

/* The state, as pinuglaw_new writes it and every call leaves it. */
enum pinuglaw_state {
    PINUGLAW_STATE_PRODUCT_HIGH = 0,
    PINUGLAW_STATE_PRODUCT_LOW = 1,
    PINUGLAW_STATE_SIZE_DECREASE = 2, /* enum pinuglaw_size_decrease */
    PINUGLAW_STATE_MAX_ORDERS = 3, /* at most 4,096 */
    PINUGLAW_STATE_MAX_LEVELS = 4, /* at most 4,096 */
    PINUGLAW_STATE_NUMBER = 5, /* the reconstructor's number; another one for each book, or estimates of one book pass on another */
    PINUGLAW_STATE_STATUS = 6, /* enum pinuglaw_status */
    PINUGLAW_STATE_LAST = 7, /* the last sequence; of an invalid book the last good one */
    PINUGLAW_STATE_OFFENDING = 8, /* of an invalid book */
    PINUGLAW_STATE_REASON = 9, /* of an invalid book: 20 to 22 or 30 to 44 */
    PINUGLAW_STATE_FIRST = 10, /* of 20 the expected sequence, of 21 the last one */
    PINUGLAW_STATE_SECOND = 11, /* of 20 and 21 the sequence that came */
    PINUGLAW_STATE_DETAIL = 12, /* of 38: 1 funds, 0 no size */
    PINUGLAW_STATE_ROWS = 13, /* rows in use */
    PINUGLAW_STATE_SEGMENTS = 14, /* segment records in use */
    PINUGLAW_STATE_RECEIVED = 15, /* the twelve counts; each stops at 2^64-1 */
    PINUGLAW_STATE_OPEN = 16,
    PINUGLAW_STATE_DONE = 17,
    PINUGLAW_STATE_MATCHED = 18,
    PINUGLAW_STATE_STP_DECREASE = 19,
    PINUGLAW_STATE_OFF_BOOK_DONE = 20,
    PINUGLAW_STATE_OFF_BOOK_CHANGE = 21,
    PINUGLAW_STATE_NOOP_CHANGE = 22,
    PINUGLAW_STATE_HANDSHAKE_DROPPED = 23,
    PINUGLAW_STATE_SKIPPED_WHILE_INVALID = 24,
    PINUGLAW_STATE_WRONG_PRODUCT = 25,
    PINUGLAW_STATE_REJECTED_SNAPSHOTS = 26,
    PINUGLAW_STATE_WORDS = 27
};

enum pinuglaw_status {
    PINUGLAW_STATUS_EMPTY = 0, /* no snapshot yet */
    PINUGLAW_STATUS_VALID = 1,
    PINUGLAW_STATUS_INVALID = 2
};

/* The ceiling of both limits. */
#define PINUGLAW_CEILING 4096

/* A row: an order, in order of arrival. Rows need 8 words for each of max_orders. */
enum pinuglaw_row {
    PINUGLAW_ROW_ID_HIGH = 0,
    PINUGLAW_ROW_ID_LOW = 1,
    PINUGLAW_ROW_PRICE = 2,
    PINUGLAW_ROW_REMAINING = 3,
    PINUGLAW_ROW_KIND = 4, /* 0 buy, 1 sell of a snapshot; 2 buy, 3 sell of an observed open */
    PINUGLAW_ROW_ENTERED_AT = 5,
    PINUGLAW_ROW_DECREASED = 6, /* 1 where a change made it smaller */
    PINUGLAW_ROW_DECREASED_AT = 7,
    PINUGLAW_ROW_WORDS = 8
};

/* A segment record: the messages accepted since one snapshot. A snapshot needs room for one more record than are in use (6). */
enum pinuglaw_segment {
    PINUGLAW_SEGMENT_START_SEQ = 0,
    PINUGLAW_SEGMENT_LAST_GOOD_SEQ = 1,
    PINUGLAW_SEGMENT_END = 2, /* 0 open, 1 superseded, else the reason, 20 to 44 */
    PINUGLAW_SEGMENT_END_GOOD = 3, /* of a reason: the last good sequence */
    PINUGLAW_SEGMENT_END_SEQ = 4, /* of a reason: the offending sequence */
    PINUGLAW_SEGMENT_END_DETAIL = 5, /* of 38: 1 funds, 0 no size */
    PINUGLAW_SEGMENT_FIRST_US = 6, /* time_us of the first and of the latest accepted message */
    PINUGLAW_SEGMENT_LAST_US = 7,
    PINUGLAW_SEGMENT_WORDS = 8,
    PINUGLAW_SEGMENT_ELAPSED = 8, /* pinuglaw_segment adds these two */
    PINUGLAW_SEGMENT_ACCEPTED = 9,
    PINUGLAW_RECORD_WORDS = 10
};

/* An invalidation, as pinuglaw_invalidation writes it: words 7 to 12 of the state. */
enum pinuglaw_invalidated {
    PINUGLAW_INVALIDATION_LAST_GOOD_SEQ = 0,
    PINUGLAW_INVALIDATION_FIRST_OFFENDING_SEQ = 1,
    PINUGLAW_INVALIDATION_REASON = 2, /* 20 to 22 or 30 to 44 */
    PINUGLAW_INVALIDATION_FIRST = 3, /* of 20 the expected sequence, of 21 the last one */
    PINUGLAW_INVALIDATION_SECOND = 4, /* of 20 and 21 the sequence that came */
    PINUGLAW_INVALIDATION_DETAIL = 5, /* of 38: 1 funds, 0 no size */
    PINUGLAW_INVALIDATION_WORDS = 6
};

/* A message. Fields from word 5 on depend on the kind; an optional amount is two words, whether it is there (0 or 1) and its value. */
enum pinuglaw_message {
    PINUGLAW_MESSAGE_KIND = 0, /* enum pinuglaw_kind */
    PINUGLAW_MESSAGE_PRODUCT_HIGH = 1,
    PINUGLAW_MESSAGE_PRODUCT_LOW = 2,
    PINUGLAW_MESSAGE_SEQUENCE = 3,
    PINUGLAW_MESSAGE_TIME_US = 4,
    PINUGLAW_MESSAGE_ID_HIGH = 5, /* received, open, done, change; of a match the maker */
    PINUGLAW_MESSAGE_ID_LOW = 6,
    PINUGLAW_MESSAGE_SIDE = 7, /* enum pinuglaw_side; not of a match */
    PINUGLAW_OPEN_PRICE = 8,
    PINUGLAW_OPEN_REMAINING = 9,
    PINUGLAW_DONE_PRICE = 8, /* optional */
    PINUGLAW_DONE_REASON = 10, /* 0 filled, 1 canceled */
    PINUGLAW_DONE_REMAINING = 11, /* optional */
    PINUGLAW_MATCH_TAKER_HIGH = 7,
    PINUGLAW_MATCH_TAKER_LOW = 8,
    PINUGLAW_MATCH_SIDE = 9, /* the maker's */
    PINUGLAW_MATCH_PRICE = 10,
    PINUGLAW_MATCH_SIZE = 11,
    PINUGLAW_CHANGE_REASON = 8, /* 0 stp, 1 modify_order */
    PINUGLAW_CHANGE_PRICE = 9, /* optional, as the next five */
    PINUGLAW_CHANGE_OLD_SIZE = 11,
    PINUGLAW_CHANGE_NEW_SIZE = 13,
    PINUGLAW_CHANGE_OLD_PRICE = 15,
    PINUGLAW_CHANGE_NEW_PRICE = 17,
    PINUGLAW_CHANGE_NEW_FUNDS = 19,
    PINUGLAW_UNSUPPORTED_NUMBER = 5, /* below 2^32 */
    PINUGLAW_MESSAGE_WORDS = 21
};

/* Kinds of pieces and of messages. */
enum pinuglaw_kind {
    PINUGLAW_KIND_SNAPSHOT = 0, /* of a piece only */
    PINUGLAW_KIND_RECEIVED = 1,
    PINUGLAW_KIND_OPEN = 2,
    PINUGLAW_KIND_DONE = 3,
    PINUGLAW_KIND_MATCH = 4,
    PINUGLAW_KIND_CHANGE = 5,
    PINUGLAW_KIND_UNSUPPORTED = 6
};

/* What pinuglaw_read_snapshot writes. */
enum pinuglaw_snapshot {
    PINUGLAW_SNAPSHOT_PRODUCT_HIGH = 0,
    PINUGLAW_SNAPSHOT_PRODUCT_LOW = 1,
    PINUGLAW_SNAPSHOT_SEQUENCE = 2,
    PINUGLAW_SNAPSHOT_BIDS = 3, /* numbers of orders */
    PINUGLAW_SNAPSHOT_ASKS = 4,
    PINUGLAW_SNAPSHOT_WORDS = 5
};

/* What pinuglaw_snapshot_order writes. */
enum pinuglaw_order {
    PINUGLAW_ORDER_ID_HIGH = 0,
    PINUGLAW_ORDER_ID_LOW = 1,
    PINUGLAW_ORDER_PRICE = 2,
    PINUGLAW_ORDER_SIZE = 3,
    PINUGLAW_ORDER_WORDS = 4
};

/* A handshake after a snapshot. */
enum pinuglaw_handshake_words {
    PINUGLAW_HANDSHAKE_NUMBER = 0, /* its segment: the reconstructor's number and the place in the list */
    PINUGLAW_HANDSHAKE_PLACE = 1,
    PINUGLAW_HANDSHAKE_ENDED = 2, /* 0 not, 1 ended */
    PINUGLAW_HANDSHAKE_APPLIED = 3, /* messages applied */
    PINUGLAW_HANDSHAKE_WORDS = 4
};

/* What pinuglaw_last_sequence writes, and the number of entries that a level read writes. */
#define PINUGLAW_LAST_SEQUENCE_WORDS 1
#define PINUGLAW_COUNT_WORDS 1

/* What pinuglaw_best writes; a price that is not there is 0. */
enum pinuglaw_best_words {
    PINUGLAW_BEST_HAS_BID = 0,
    PINUGLAW_BEST_BID = 1,
    PINUGLAW_BEST_HAS_ASK = 2,
    PINUGLAW_BEST_ASK = 3,
    PINUGLAW_BEST_WORDS = 4
};

/* An entry of pinuglaw_level_queue. */
enum pinuglaw_queue {
    PINUGLAW_QUEUE_ID_HIGH = 0,
    PINUGLAW_QUEUE_ID_LOW = 1,
    PINUGLAW_QUEUE_REMAINING = 2,
    PINUGLAW_QUEUE_OBSERVED = 3, /* 1 where its open was seen, else 0 */
    PINUGLAW_QUEUE_ENTERED_AT = 4, /* 0 unless observed */
    PINUGLAW_QUEUE_WORDS = 5
};

/* An entry of pinuglaw_priority_profile; one of pinuglaw_l2 and pinuglaw_stale_l2 has its first two words. */
enum pinuglaw_profile {
    PINUGLAW_PROFILE_PRICE = 0,
    PINUGLAW_PROFILE_TOTAL = 1,
    PINUGLAW_PROFILE_UNKNOWN = 2, /* of unknown priority: from the snapshot */
    PINUGLAW_L2_WORDS = 2,
    PINUGLAW_PROFILE_WORDS = 3
};

/* An estimate. */
enum pinuglaw_estimate {
    PINUGLAW_ESTIMATE_SIDE = 0, /* enum pinuglaw_side */
    PINUGLAW_ESTIMATE_PRICE = 1,
    PINUGLAW_ESTIMATE_NUMBER = 2, /* its segment */
    PINUGLAW_ESTIMATE_PLACE = 3,
    PINUGLAW_ESTIMATE_OWN = 4, /* 0 of a hypothetical order, 1 of an own one */
    PINUGLAW_ESTIMATE_ORDERS = 5, /* hypothetical: orders in the ahead-list */
    PINUGLAW_ESTIMATE_CREATED_AT = 6,
    PINUGLAW_ESTIMATE_ID_HIGH = 5, /* own */
    PINUGLAW_ESTIMATE_ID_LOW = 6,
    PINUGLAW_ESTIMATE_ENTERED_AT = 7,
    PINUGLAW_ESTIMATE_WORDS = 8
};

/* An order of an ahead-list. */
enum pinuglaw_ahead {
    PINUGLAW_AHEAD_ID_HIGH = 0,
    PINUGLAW_AHEAD_ID_LOW = 1,
    PINUGLAW_AHEAD_ENTERED_AT = 2,
    PINUGLAW_AHEAD_WORDS = 3
};

/* What pinuglaw_volume_ahead writes. */
enum pinuglaw_volume {
    PINUGLAW_VOLUME_AT_SEQ = 0, /* the sequence that the figure was read at */
    PINUGLAW_VOLUME_TOTAL = 1,
    PINUGLAW_VOLUME_FROM_SNAPSHOT = 2,
    PINUGLAW_VOLUME_OBSERVED = 3,
    PINUGLAW_VOLUME_ORDERS = 4,
    PINUGLAW_VOLUME_ASSUMPTION = 5, /* 0 back of the visible queue at creation, 1 entry sequence is priority */
    PINUGLAW_VOLUME_KEEPS_PRIORITY = 6, /* 1 where a decrease is assumed to keep its place */
    PINUGLAW_VOLUME_WORDS = 7
};

/* ---- Pieces: 4, then 5, then 7. */

/* Reads a message piece into PINUGLAW_MESSAGE_WORDS. */
uint64_t pinuglaw_read_message(const uint8_t *bytes, size_t bytes_len, uint64_t *out, size_t out_len);

/* Reads a snapshot piece's header into PINUGLAW_SNAPSHOT_WORDS. */
uint64_t pinuglaw_read_snapshot(const uint8_t *bytes, size_t bytes_len, uint64_t *out, size_t out_len);

/*
 * Reads the order at a place of a snapshot piece, bids first, into PINUGLAW_ORDER_WORDS; an order of zeros where the bytes do not reach. Tests nothing but the
 * output (7).
 */
uint64_t pinuglaw_snapshot_order(const uint8_t *bytes, size_t bytes_len, size_t place, uint64_t *out, size_t out_len);

/* ---- A day file. */

/* The most bytes that a day file has, and a length that no listing exceeds. */
#define PINUGLAW_DAY_FILE_BYTES 65536
#define PINUGLAW_LISTING_BYTES 8192

/*
 * Replays a day file on a book of its own, and writes the listing of its segments at the front of `listing`, as lines of ASCII. Answers the listing's length,
 * never 7 and at most PINUGLAW_LISTING_BYTES; or 7, and nothing is written, where the slice is shorter. Any bytes have a listing: those that are no day file,
 * a zero count of everything and `stop 0 60`. A day file (integers little-endian): a count of 4 bytes, as many pairs of offset and length, 4 bytes each, and
 * the pieces, snapshots and messages in their order, in PINUGLAW_DAY_FILE_BYTES at most. Offsets count from the first byte and rise strictly; the first piece
 * starts behind the pairs, and none reaches past the next one's offset or the file's end.
 */
uint64_t pinuglaw_replay(const uint8_t *file, size_t file_len, uint8_t *listing, size_t listing_len);

/* ---- A new book. */

/*
 * Writes the state of a book without a snapshot, PINUGLAW_STATE_WORDS; words past them are left. 4 where size_decrease is none of enum pinuglaw_size_decrease,
 * then 7. Limits are not tested here: the calls say 1.
 */
uint64_t pinuglaw_new(uint64_t *state, size_t state_len, uint64_t product_high, uint64_t product_low, uint64_t size_decrease, uint64_t max_orders,
                      uint64_t max_levels, uint64_t number);

/* ---- Rebuilding. */

/* Whether n rows are no book: number 3's part on the rows. */
bool pinuglaw_rows_broken(const uint64_t *rows, size_t rows_len, size_t n, size_t max_levels);

/*
 * Applies a message. PINUGLAW_BOOK_CHANGED, PINUGLAW_OK, or in this order 768 (state, message), 4 (message), 1, 2, 3, 5, 10, 15, 17, 16. A refusal leaves every
 * word but the count that 10 and 17 raise; 16 sets the status and ends the segment's record.
 */
uint64_t pinuglaw_apply(uint64_t *state, size_t state_len, uint64_t *rows, size_t rows_len, uint64_t *segments, size_t segments_len, const uint64_t *message,
                        size_t message_len);

/*
 * Applies the messages, PINUGLAW_MESSAGE_WORDS each, in turn: what as many calls of pinuglaw_apply answer and leave, the number of each in a word of `answers`,
 * 4 of words that no message has among them. Answers 0, or in this order 768 (state), 1, 2, 3, and 7 where there are fewer answer words than whole messages:
 * then nothing is touched, whatever the messages are. Words past the last whole message are not read.
 */
uint64_t pinuglaw_apply_all(uint64_t *state, size_t state_len, uint64_t *rows, size_t rows_len, uint64_t *segments, size_t segments_len,
                            const uint64_t *messages, size_t messages_len, uint64_t *answers, size_t answers_len);

/*
 * Takes a snapshot piece: 0, or in this order 768 (state), 1, 2, 3, 4 (the bytes are no snapshot), 5, 6, 10, 14 of orders, then order by order 11, 12, 14 of
 * levels, last 13. A refusal leaves every word but the count that 10 to 14 raise.
 */
uint64_t pinuglaw_bootstrap(uint64_t *state, size_t state_len, uint64_t *rows, size_t rows_len, uint64_t *segments, size_t segments_len, const uint8_t *bytes,
                            size_t bytes_len);

/*
 * Makes a handshake for the segment that the book is in, into PINUGLAW_HANDSHAKE_WORDS: 0, or 768 (state), 3 (the state alone), 7. Without a snapshot there is
 * no segment, and the handshake is written as ended: every step of it is 9.
 */
uint64_t pinuglaw_handshake(const uint64_t *state, size_t state_len, uint64_t *handshake, size_t handshake_len);

/*
 * Steps a handshake by one message: 768 (state, handshake, message), 4 (handshake, message), 1, 2, 3, 9, 5; then PINUGLAW_DROPPED for the same product at or
 * below the snapshot's sequence; else as pinuglaw_apply. 10 passes by; 16 and 17 end the handshake.
 */
uint64_t pinuglaw_step(uint64_t *state, size_t state_len, uint64_t *rows, size_t rows_len, uint64_t *segments, size_t segments_len, uint64_t *handshake,
                       size_t handshake_len, const uint64_t *message, size_t message_len);

/* ---- Reads: 768 (state), 4 (the side), 1, 2, 3, then 15 or 18, then 7. */

/* The last sequence applied, into PINUGLAW_LAST_SEQUENCE_WORDS. */
uint64_t pinuglaw_last_sequence(const uint64_t *state, size_t state_len, const uint64_t *rows, size_t rows_len, uint64_t *out, size_t out_len);

/* The best bid and ask, into PINUGLAW_BEST_WORDS. */
uint64_t pinuglaw_best(const uint64_t *state, size_t state_len, const uint64_t *rows, size_t rows_len, uint64_t *out, size_t out_len);

/* The audit of a valid book. Writes nothing, so never 7. */
uint64_t pinuglaw_audit(const uint64_t *state, size_t state_len, const uint64_t *rows, size_t rows_len);

/*
 * The invalidation in force, into PINUGLAW_INVALIDATION_WORDS: 0, or 768, 3 (the state alone), PINUGLAW_NOT_STALE of a book that is not invalid, 7. Asks for no
 * rows.
 */
uint64_t pinuglaw_invalidation(const uint64_t *state, size_t state_len, uint64_t *out, size_t out_len);

/*
 * The record of the segment at a place of the list, into PINUGLAW_RECORD_WORDS: 0, or 768, 3 (the state alone), PINUGLAW_NO_RECORD where the book or the list
 * has none there, 7.
 */
uint64_t pinuglaw_segment(const uint64_t *state, size_t state_len, const uint64_t *segments, size_t segments_len, size_t place, uint64_t *out, size_t out_len);

/*
 * The level reads. Scratch is at least max_orders words (2), of which success zeroes as many. Entries go into out, their number into PINUGLAW_COUNT_WORDS of
 * count; 7 where either is too small, and then scratch too is left. Buys run from the highest price, sells from the lowest.
 */

/* The orders at a side and price in order of arrival, PINUGLAW_QUEUE_WORDS each. */
uint64_t pinuglaw_level_queue(const uint64_t *state, size_t state_len, const uint64_t *rows, size_t rows_len, uint64_t *scratch, size_t scratch_len,
                              uint64_t side, uint64_t price, uint64_t *out, size_t out_len, uint64_t *count, size_t count_len);

/* The levels of a side, PINUGLAW_PROFILE_WORDS each. */
uint64_t pinuglaw_priority_profile(const uint64_t *state, size_t state_len, const uint64_t *rows, size_t rows_len, uint64_t *scratch, size_t scratch_len,
                                   uint64_t side, uint64_t *out, size_t out_len, uint64_t *count, size_t count_len);

/* The levels of a side, PINUGLAW_L2_WORDS each. */
uint64_t pinuglaw_l2(const uint64_t *state, size_t state_len, const uint64_t *rows, size_t rows_len, uint64_t *scratch, size_t scratch_len, uint64_t side,
                     uint64_t *out, size_t out_len, uint64_t *count, size_t count_len);

/*
 * The same of an invalid book: the volumes that stood before the message that made it invalid. Neither 15 nor 18: PINUGLAW_NOT_STALE of any other book, before
 * 7.
 */
uint64_t pinuglaw_stale_l2(const uint64_t *state, size_t state_len, const uint64_t *rows, size_t rows_len, uint64_t *scratch, size_t scratch_len, uint64_t side,
                           uint64_t *out, size_t out_len, uint64_t *count, size_t count_len);

/* ---- Queue estimates: 768, 4, 1, 2, 3, then 15 or 18, then as said, then 7. */

/*
 * An estimate for an order created now, behind all that rest at a side and price: PINUGLAW_AHEAD_WORDS an order ahead, and PINUGLAW_ESTIMATE_WORDS. 7 where
 * either is too small.
 */
uint64_t pinuglaw_queue_estimate(const uint64_t *state, size_t state_len, const uint64_t *rows, size_t rows_len, uint64_t side, uint64_t price, uint64_t *ahead,
                                 size_t ahead_len, uint64_t *estimate, size_t estimate_len);

/* An estimate for our own order, into PINUGLAW_ESTIMATE_WORDS: 52, 51. */
uint64_t pinuglaw_queue_estimate_own(const uint64_t *state, size_t state_len, const uint64_t *rows, size_t rows_len, uint64_t id_high, uint64_t id_low,
                                     uint64_t *estimate, size_t estimate_len);

/*
 * The volume now ahead of an estimate, into PINUGLAW_VOLUME_WORDS: 8, 50, 52, 51. 768 and 4 look at the estimate too. The ahead-list is the one written with
 * the estimate; an own order has none.
 */
uint64_t pinuglaw_volume_ahead(const uint64_t *state, size_t state_len, const uint64_t *rows, size_t rows_len, const uint64_t *estimate, size_t estimate_len,
                               const uint64_t *ahead, size_t ahead_len, uint64_t *out, size_t out_len);

#ifdef __cplusplus
}
#endif

#endif
