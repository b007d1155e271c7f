/* Orizhgum: stream, frames, records, entries, tracker and writer of the Shenzhen binary market data gateway, for a C or C++ host.
 *
 * Every call of the archive is proved against its definition, for every input; orizhgum_tick, orizhgum_heard, orizhgum_join and
 * orizhgum_request are inline functions here, which hand a tracker's arrays to such calls. A call answers with a number: 0 is the
 * plain answer, 1 to 99 are the refusals, 100 and up the other answers. Look at it first. Beside a refusal, and beside
 * ORIZHGUM_NO_SUCH_ENTRY, every number and text is 0 and what was lent is as it stood. Three kinds of calls give back more beside
 * it: a frame how many bytes are missing, at 1; a step its cursor as it was handed in; and a stream what was taken, the next state,
 * at 1 how many bytes are missing and, at 2 and 3, the bytes that it gathered in its buffer.
 *
 * The archive links memcpy, memmove and memset, which the host has, and nothing else; it has no divide instruction.
 *
 * Calls are reentrant: there is no state but what the host lends, and no heap. Threads may call at the same time, as long as
 * none writes what another reads or writes.
 *
 * The stack that a call takes, in bytes, above what an empty function takes: at most 1,000 for stream, frames, records, groups,
 * entries and the writer; at most 1,000 for orizhgum_tick, orizhgum_heard, orizhgum_join and orizhgum_request; at most 5,000 for
 * orizhgum_set_up, which answers with a whole tracker.
 *
 * The host's part, which no proof covers:
 * - a pointer with a length refers to as many elements as the length says; NULL goes with length 0 only; a pointer to an
 *   array of a tracker refers to as many as the struct has;
 * - an output, a stream's buffer and the int64_t that is lent for a price are the host's to write, and overlap none of the inputs
 *   of the same call; nor does a tracker that an arrival or a join changes. */
#ifndef ORIZHGUM_H
#define ORIZHGUM_H

#include <stddef.h>
#include <stdint.h>

#ifdef __cplusplus
extern "C" {
#endif

/* ---- the version of this header and of the archive that goes with it */

#define ORIZHGUM_VERSION_MAJOR 0
#define ORIZHGUM_VERSION_MINOR 7
#define ORIZHGUM_VERSION_PATCH 0
#define ORIZHGUM_VERSION "0.7.0"

/* ---- sizes in bytes, and decimals */

enum {
    ORIZHGUM_HEADER = 8,           /* a frame's type and body length; the body stands behind them */
    ORIZHGUM_CHECKSUM = 4,         /* behind the body */
    ORIZHGUM_BODY_LIMIT = 16384,   /* the longest body */
    ORIZHGUM_FRAME_LIMIT = 16396,  /* the longest frame: header, body and checksum */
    ORIZHGUM_REQUEST = 56          /* the frame that orizhgum_request writes */
};

/* the texts of each type, one behind the other; a type that is not here has none. A record's answer has room for 24, of which
 * unused ones are 0. No text is ended by a zero: print one by its width. The writer takes exactly so many bytes. */
enum {
    ORIZHGUM_TEXTS = 24,
    ORIZHGUM_ORDER_TEXTS = 15,
    ORIZHGUM_TRADE_TEXTS = 15,
    ORIZHGUM_RESEND_TEXTS = 24,
    ORIZHGUM_SNAPSHOT_TEXTS = 23,
    ORIZHGUM_INDEX_TEXTS = 23,
    ORIZHGUM_VOLUME_INDEX_TEXTS = 23,
    ORIZHGUM_SECURITY_STATUS_TEXTS = 20
};

/* a number of a field is its value times ten to the decimals */
enum {
    ORIZHGUM_PRICE_DECIMALS = 4,       /* prices of orders and trades, and the previous close */
    ORIZHGUM_ENTRY_PRICE_DECIMALS = 6, /* prices of entries */
    ORIZHGUM_QUANTITY_DECIMALS = 2,    /* quantities, sizes and volumes */
    ORIZHGUM_AMOUNT_DECIMALS = 4,
    /* the same by the names of fields */
    ORIZHGUM_ORDER_PRICE_DECIMALS = ORIZHGUM_PRICE_DECIMALS,
    ORIZHGUM_TRADE_PRICE_DECIMALS = ORIZHGUM_PRICE_DECIMALS,
    ORIZHGUM_PREVIOUS_CLOSE_DECIMALS = ORIZHGUM_PRICE_DECIMALS,
    ORIZHGUM_SIZE_DECIMALS = ORIZHGUM_QUANTITY_DECIMALS,
    ORIZHGUM_VOLUME_DECIMALS = ORIZHGUM_QUANTITY_DECIMALS
};

/* ---- answers */

enum {
    ORIZHGUM_OK = 0,
    ORIZHGUM_TOO_SHORT = 1,        /* fewer than 8 bytes, or fewer than the frame has; missing says how many */
    ORIZHGUM_TOO_LONG = 2,         /* a body above 16,384 bytes */
    ORIZHGUM_WRONG_SUM = 3,        /* the checksum differs */
    ORIZHGUM_NOT_ITS_LAYOUT = 4,   /* the body lacks bytes; in the writer, texts or groups that are not the stated fields */
    ORIZHGUM_OUT_OF_RANGE = 5,     /* a field out of range */
    ORIZHGUM_OUTPUT_SHORT = 6,     /* the output is too short */
    ORIZHGUM_NO_SUCH_CHANNEL = 7,  /* the channel is not in the tracker */
    ORIZHGUM_NUMBER_TOO_LOW = 8,   /* a tick number below 1, or a last number below 0, whatever the channel's first number */
    ORIZHGUM_TABLE_FULL = 9,       /* the next state would need a 33rd run, in a join on any channel; never for a tick before start */
    ORIZHGUM_MALFORMED = 10,       /* a set-up's lists, a tracker, in a join either one, or a stream that breaks the rules */
    ORIZHGUM_SET_UPS_DIFFER = 11,  /* two trackers to be joined, of which channels or first numbers differ */
    ORIZHGUM_UNKNOWN = 100,        /* a type that is not listed */
    ORIZHGUM_NO_SUCH_ENTRY = 101,  /* a position not below the count */
    ORIZHGUM_NO_PRICE = 102,       /* an entry that says no price; the lent number is as it stood */
    ORIZHGUM_LATE = 103,           /* a tick that was missing */
    ORIZHGUM_DUPLICATE = 104,      /* a tick that had come before, and is not below its channel's first number */
    ORIZHGUM_NOTHING_MISSING = 105, /* a request for a channel without a missing number */
    ORIZHGUM_MORE = 106,           /* the whole cut is taken, and no frame is whole yet; missing says how many bytes */
    ORIZHGUM_END = 107,            /* the stream was told to have ended, and nothing is left over */
    ORIZHGUM_BEFORE_START = 108    /* a tick below its channel's first number; nothing changes */
};

/* ---- types */

enum {
    ORIZHGUM_HEARTBEAT = 3,
    ORIZHGUM_SNAPSHOT = 300111,
    ORIZHGUM_TRADE = 300191,
    ORIZHGUM_ORDER = 300192,
    ORIZHGUM_INDEX = 309011,
    ORIZHGUM_VOLUME_INDEX = 309111,
    ORIZHGUM_SECURITY_STATUS = 390013,
    ORIZHGUM_STATISTICS = 390090,
    ORIZHGUM_RESEND = 390094,
    ORIZHGUM_CHANNEL_HEARTBEAT = 390095
};

/* ---- the frame that some bytes begin with: its type, the length of its body, which stands behind the header, and of the frame.
 *
 * With answer 1, missing is how many bytes more let the reader judge further, at least 1: what a cut header lacks of its 8, what a
 * cut frame lacks by its header. With any fewer behind, the answer is 1 again, with as many fewer missing. With exactly so many it
 * is, behind a cut header, 2, or 1 with what is left of the frame; behind a cut frame, 0 or 3. So a host that reads what is missing,
 * first ORIZHGUM_HEADER bytes, reads at most twice a frame, where each read brings all that it asks for. For a body of 4 both numbers
 * are 8: the same number twice is no fault. With every other answer missing is 0. */

struct orizhgum_frame_answer {
    uint32_t answer;
    uint32_t kind;
    size_t len;
    size_t total;
    size_t missing;
};

struct orizhgum_frame_answer orizhgum_frame(const uint8_t *bytes, size_t length);

/* ---- the stream: bytes as the network cuts them, frames one at a time. The host lends one buffer of ORIZHGUM_FRAME_LIMIT bytes or
 * more for the whole stream, which keeps an unfinished frame between the calls; its bytes behind that are free, and nobody has to
 * clear it. A host that changes the state, or held bytes of the buffer, by hand gets 10, or a stream of its own making, and never
 * anything undefined. */

/* how many bytes of an unfinished frame the buffer begins with; and how the stream stands: 0 it goes on, 1 it has ended, 2 or 3 it
 * stopped by that refusal */
struct orizhgum_stream {
    size_t held;
    uint32_t mark;
};

/* where the bytes of a frame stand */
enum {
    ORIZHGUM_IN_CUT = 1,   /* the cut begins with them: they were not copied */
    ORIZHGUM_IN_BUFFER = 2 /* the buffer begins with them, up to the next call */
};

/* the frame's type, the length of its body, which stands behind the header, and of the frame, 0 where the answer is not 0; how many
 * bytes are missing, as above, with ORIZHGUM_MORE and with 1, 0 with every other answer; how many bytes of the cut were taken; and
 * the stream for the next call */
struct orizhgum_stream_answer {
    uint32_t answer;
    uint32_t stands;
    uint32_t kind;
    size_t len;
    size_t total;
    size_t missing;
    size_t took;
    struct orizhgum_stream next;
};

/* a stream of which nothing has come */
struct orizhgum_stream orizhgum_stream_new(void);

/* a cut of the stream, as long as it comes, also of no bytes: 0 with a frame, ORIZHGUM_MORE, or refused by 2 or 3, after which every
 * call takes nothing and repeats its answer. What is not taken is handed in again, alone or with what comes behind it. 10, before
 * all else, is for a stream and a buffer that no calls lead to; both are as they stood then */
struct orizhgum_stream_answer orizhgum_stream_push(struct orizhgum_stream stream, uint8_t *buffer, size_t buffer_length,
    const uint8_t *cut, size_t cut_length);

/* the stream has ended: ORIZHGUM_END, or refused by 1, with missing, where a frame is unfinished; then every call repeats that
 * answer */
struct orizhgum_stream_answer orizhgum_stream_end(struct orizhgum_stream stream, const uint8_t *buffer, size_t buffer_length);

/* ---- how a body of a type reads: ORIZHGUM_OK, refused by 4 or 5, or ORIZHGUM_UNKNOWN */

uint32_t orizhgum_judge(uint32_t kind, const uint8_t *body, size_t length);

/* ---- records: the numbers of a body's fixed fields, and its texts. A heartbeat (type 3) has none of either, and reads from any
 * body; a channel heartbeat (390095) is another type. */

struct orizhgum_order {
    uint16_t channel;
    int64_t number;
    int64_t order_price;
    int64_t quantity;
    uint8_t side;
    int64_t time;
    uint8_t order_type;
};

struct orizhgum_order_answer {
    uint32_t answer;
    struct orizhgum_order numbers;
    struct {
        char stream[3];
        char security[8];
        char source[4];
        char unused[9];
    } texts;
};

struct orizhgum_order_answer orizhgum_order(const uint8_t *body, size_t length);

struct orizhgum_trade {
    uint16_t channel;
    int64_t number;
    int64_t bid_number;
    int64_t offer_number;
    int64_t trade_price;
    int64_t quantity;
    uint8_t execution;
    int64_t time;
};

struct orizhgum_trade_answer {
    uint32_t answer;
    struct orizhgum_trade numbers;
    struct {
        char stream[3];
        char security[8];
        char source[4];
        char unused[9];
    } texts;
};

struct orizhgum_trade_answer orizhgum_trade(const uint8_t *body, size_t length);

struct orizhgum_channel_heartbeat {
    uint16_t channel;
    int64_t last_number;
    uint16_t end;
};

struct orizhgum_channel_heartbeat_answer {
    uint32_t answer;
    struct orizhgum_channel_heartbeat numbers;
    struct {
        char unused[24];
    } texts;
};

struct orizhgum_channel_heartbeat_answer orizhgum_channel_heartbeat(const uint8_t *body, size_t length);

struct orizhgum_resend {
    uint8_t resend_type;
    uint16_t channel;
    int64_t first_number;
    int64_t last_number;
    uint8_t status;
};

struct orizhgum_resend_answer {
    uint32_t answer;
    struct orizhgum_resend numbers;
    struct {
        char news_id[8];
        char text[16];
    } texts;
};

struct orizhgum_resend_answer orizhgum_resend(const uint8_t *body, size_t length);

struct orizhgum_common {
    int64_t time;
    uint16_t channel;
    int64_t previous_close;
    int64_t trade_count;
    int64_t volume;
    int64_t amount;
};

struct orizhgum_snapshot {
    struct orizhgum_common common;
    uint32_t count;
};

struct orizhgum_snapshot_answer {
    uint32_t answer;
    struct orizhgum_snapshot numbers;
    struct {
        char stream[3];
        char security[8];
        char source[4];
        char phase[8];
        char unused[1];
    } texts;
};

struct orizhgum_snapshot_answer orizhgum_snapshot(const uint8_t *body, size_t length);

struct orizhgum_index {
    struct orizhgum_common common;
    uint32_t count;
};

struct orizhgum_index_answer {
    uint32_t answer;
    struct orizhgum_index numbers;
    struct {
        char stream[3];
        char security[8];
        char source[4];
        char phase[8];
        char unused[1];
    } texts;
};

struct orizhgum_index_answer orizhgum_index(const uint8_t *body, size_t length);

struct orizhgum_volume_index {
    struct orizhgum_common common;
    uint32_t stock_number;
};

struct orizhgum_volume_index_answer {
    uint32_t answer;
    struct orizhgum_volume_index numbers;
    struct {
        char stream[3];
        char security[8];
        char source[4];
        char phase[8];
        char unused[1];
    } texts;
};

struct orizhgum_volume_index_answer orizhgum_volume_index(const uint8_t *body, size_t length);

struct orizhgum_statistics {
    int64_t time;
    uint16_t channel;
    uint32_t count;
};

struct orizhgum_statistics_answer {
    uint32_t answer;
    struct orizhgum_statistics numbers;
    struct {
        char unused[24];
    } texts;
};

struct orizhgum_statistics_answer orizhgum_statistics(const uint8_t *body, size_t length);

struct orizhgum_security_status {
    int64_t time;
    uint16_t channel;
    uint32_t count;
};

struct orizhgum_security_status_answer {
    uint32_t answer;
    struct orizhgum_security_status numbers;
    struct {
        char security[8];
        char source[4];
        char financial_status[8];
        char unused[4];
    } texts;
};

struct orizhgum_security_status_answer orizhgum_security_status(const uint8_t *body, size_t length);

/* ---- groups of statistics and of security status, by position from 0: the stock number, stream and phase of the first,
 * the switch type and yes/no of the second; the others are 0 */

struct orizhgum_group_answer {
    uint32_t answer;
    uint32_t stock_number;
    uint16_t switch_type;
    uint16_t yes_no;
    struct {
        char stream[3];
        char phase[8];
        char unused[13];
    } texts;
};

struct orizhgum_group_answer orizhgum_group(uint32_t kind, const uint8_t *body, size_t length, uint32_t i);

/* ---- entries of a snapshot or an index: no struct of an entry holds a price, a lent number takes it.
 * To go through them: orizhgum_cursor once, then orizhgum_next until none is left. */

/* what an entry says; 1, 3 and 5 say a price, the others none */
enum {
    ORIZHGUM_SAYS_LEVEL = 1,
    ORIZHGUM_SAYS_LEVEL_WITHOUT_PRICE = 2,
    ORIZHGUM_SAYS_PRICE = 3,
    ORIZHGUM_SAYS_SIZE = 4,
    ORIZHGUM_SAYS_PRICE_AND_SIZE = 5,
    ORIZHGUM_SAYS_NO_LIMIT = 6,
    ORIZHGUM_SAYS_UNKNOWN = 7
};

/* the two type characters, the first the higher byte; a number that the entry does not say is 0 */
struct orizhgum_entry {
    uint32_t says;
    uint16_t characters;
    uint16_t level;
    int64_t size;
    int64_t order_count;
    uint32_t shown;
};

struct orizhgum_entry_answer {
    uint32_t answer;
    struct orizhgum_entry entry;
};

/* the offset of the next entry, and how many are left */
struct orizhgum_cursor {
    size_t offset;
    uint32_t left;
};

struct orizhgum_step_answer {
    uint32_t answer;
    struct orizhgum_entry entry;
    struct orizhgum_cursor next;
};

struct orizhgum_quantity_answer {
    uint32_t answer;
    int64_t quantity;
};

/* the cursor before the first entry, for a body that its record's call accepts */
struct orizhgum_cursor orizhgum_cursor(uint32_t kind, const uint8_t *body, size_t length);

/* the entry at a cursor, its price, and the cursor behind it; with any answer but 0 the cursor as it was handed in. *entry_price is
 * written where the answer is 0 and the entry says 1, 3 or 5; everywhere else it is left as it stood */
struct orizhgum_step_answer orizhgum_next(struct orizhgum_cursor at, uint32_t kind, const uint8_t *body, size_t length, int64_t *entry_price);

/* the price alone, for a host that kept a cursor; ORIZHGUM_NO_PRICE, and every other answer but 0, leaves *entry_price as it stood */
uint32_t orizhgum_step_price(struct orizhgum_cursor at, uint32_t kind, const uint8_t *body, size_t length, int64_t *entry_price);

/* entry i, its price, and shown quantity j of it, by position from 0: each call judges the whole body */
struct orizhgum_entry_answer orizhgum_entry(uint32_t kind, const uint8_t *body, size_t length, uint32_t i);

uint32_t orizhgum_entry_price(uint32_t kind, const uint8_t *body, size_t length, uint32_t i, int64_t *entry_price);

struct orizhgum_quantity_answer orizhgum_quantity(uint32_t kind, const uint8_t *body, size_t length, uint32_t i, uint32_t j);

/* ---- the tracker: which numbers of up to eight channels never came, on each from its first number on. An arrival makes it the
 * next one, in place; a refusal leaves it as it stood. A host that changes it by hand gets 10, or a tracker of its own making, and
 * never anything undefined. */

#define ORIZHGUM_CHANNELS 8
#define ORIZHGUM_RUNS 32

/* from has each channel's first number. A channel's highest is never lower than one below its first number, and no run of it
 * begins below that number. An ended mark is 0 or 1; run r of the channel at place c stands at place ORIZHGUM_RUNS * c + r of first
 * and last. Places that no channel or run uses are 0 */
struct orizhgum_tracker {
    size_t count;
    uint16_t numbers[ORIZHGUM_CHANNELS];
    uint64_t from[ORIZHGUM_CHANNELS];
    uint64_t highest[ORIZHGUM_CHANNELS];
    uint8_t ended[ORIZHGUM_CHANNELS];
    size_t counts[ORIZHGUM_CHANNELS];
    uint64_t first[ORIZHGUM_CHANNELS * ORIZHGUM_RUNS];
    uint64_t last[ORIZHGUM_CHANNELS * ORIZHGUM_RUNS];
};

struct orizhgum_start_answer {
    uint32_t answer;
    struct orizhgum_tracker tracker;
};

/* 1 to 8 channel numbers, strictly ascending, and as many first numbers, from[i] that of channels[i], each at least 1: 1 on a
 * board that is there from the start of the day; on one that comes in at noon the first number that it is to have, for instance one
 * above the last number that it heard of. A channel's highest begins one below its first number, and no number below its first
 * number is ever missing. The largest first number, INT64_MAX, lets exactly one number come. Refused by 10: no channels, more
 * than 8, channels that don't strictly ascend; lists of different lengths; a first number below 1. The tracker is all zeros then,
 * which any later call refuses by 10 */
struct orizhgum_start_answer orizhgum_set_up(const uint16_t *channels, size_t length, const int64_t *from, size_t from_length);

/* what the archive has: the calls below over the arrays of a tracker, none of which overlaps another */
uint32_t orizhgum_tick_in(size_t count, const uint16_t *numbers, const uint64_t *from, uint64_t *highest, uint8_t *ended,
    size_t *counts, uint64_t *first, uint64_t *last, uint16_t channel, int64_t number);

uint32_t orizhgum_heard_in(size_t count, const uint16_t *numbers, const uint64_t *from, uint64_t *highest, uint8_t *ended,
    size_t *counts, uint64_t *first, uint64_t *last, uint16_t channel, int64_t last_number, uint8_t end);

/* ORIZHGUM_BEFORE_START where the number is below the channel's first number, however often it comes; else 0 where it is new,
 * ORIZHGUM_LATE where it was missing, ORIZHGUM_DUPLICATE where it had come. Before start and duplicate change nothing */
static inline uint32_t orizhgum_tick(struct orizhgum_tracker *tracker, uint16_t channel, int64_t number)
{
    return orizhgum_tick_in(tracker->count, tracker->numbers, tracker->from, tracker->highest, tracker->ended,
        tracker->counts, tracker->first, tracker->last, channel, number);
}

/* a channel heartbeat (390095) is heard, with the channel's last number; end 0 is no, anything else yes; always 0 where it is
 * not refused. A last number below the channel's first number changes nothing but the ended mark, which an end sets */
static inline uint32_t orizhgum_heard(struct orizhgum_tracker *tracker, uint16_t channel, int64_t last_number, uint8_t end)
{
    return orizhgum_heard_in(tracker->count, tracker->numbers, tracker->from, tracker->highest, tracker->ended,
        tracker->counts, tracker->first, tracker->last, channel, last_number, end);
}

/* what the archive has of the call below; those arrays of the first tracker that it changes, highest to last, overlap no other */
uint32_t orizhgum_join_in(size_t count, const uint16_t *numbers, const uint64_t *from, uint64_t *highest, uint8_t *ended,
    size_t *counts, uint64_t *first, uint64_t *last, size_t other_count, const uint16_t *other_numbers,
    const uint64_t *other_from, const uint64_t *other_highest, const uint8_t *other_ended, const size_t *other_counts,
    const uint64_t *other_first, const uint64_t *other_last);

/* joins a tracker with that of another line of the same feed: what either received is received, the highest is the larger one,
 * and a channel has ended if it has in either. 0: tracker is now the two joined. other is never changed. Refused, with tracker as
 * it stood: by 10 where either breaks the rules; by 11 where the channels or the first numbers of the two differ; by 9 where a
 * channel would need a 33rd run. The two do not overlap: a host that joins a tracker with itself makes a copy first */
static inline uint32_t orizhgum_join(struct orizhgum_tracker *tracker, const struct orizhgum_tracker *other)
{
    return orizhgum_join_in(tracker->count, tracker->numbers, tracker->from, tracker->highest, tracker->ended,
        tracker->counts, tracker->first, tracker->last, other->count, other->numbers, other->from, other->highest,
        other->ended, other->counts, other->first, other->last);
}

/* ---- the writer: a frame to the start of out, with texts and groups as bytes in wire layout: as many bytes of texts as the
 * type's constant above says, and of groups as the count in the numbers says. A type without texts, or without groups, takes
 * none of them. */

struct orizhgum_write_answer {
    uint32_t answer;
    size_t written;
};

struct orizhgum_write_answer orizhgum_write_order(struct orizhgum_order numbers, const uint8_t *texts, size_t texts_length,
    const uint8_t *groups, size_t groups_length, uint8_t *out, size_t out_length);

struct orizhgum_write_answer orizhgum_write_trade(struct orizhgum_trade numbers, const uint8_t *texts, size_t texts_length,
    const uint8_t *groups, size_t groups_length, uint8_t *out, size_t out_length);

struct orizhgum_write_answer orizhgum_write_channel_heartbeat(struct orizhgum_channel_heartbeat numbers, const uint8_t *texts, size_t texts_length,
    const uint8_t *groups, size_t groups_length, uint8_t *out, size_t out_length);

struct orizhgum_write_answer orizhgum_write_resend(struct orizhgum_resend numbers, const uint8_t *texts, size_t texts_length,
    const uint8_t *groups, size_t groups_length, uint8_t *out, size_t out_length);

struct orizhgum_write_answer orizhgum_write_snapshot(struct orizhgum_snapshot numbers, const uint8_t *texts, size_t texts_length,
    const uint8_t *groups, size_t groups_length, uint8_t *out, size_t out_length);

struct orizhgum_write_answer orizhgum_write_index(struct orizhgum_index numbers, const uint8_t *texts, size_t texts_length,
    const uint8_t *groups, size_t groups_length, uint8_t *out, size_t out_length);

struct orizhgum_write_answer orizhgum_write_volume_index(struct orizhgum_volume_index numbers, const uint8_t *texts, size_t texts_length,
    const uint8_t *groups, size_t groups_length, uint8_t *out, size_t out_length);

struct orizhgum_write_answer orizhgum_write_statistics(struct orizhgum_statistics numbers, const uint8_t *texts, size_t texts_length,
    const uint8_t *groups, size_t groups_length, uint8_t *out, size_t out_length);

struct orizhgum_write_answer orizhgum_write_security_status(struct orizhgum_security_status numbers, const uint8_t *texts, size_t texts_length,
    const uint8_t *groups, size_t groups_length, uint8_t *out, size_t out_length);

/* type 3, which no channel has */
struct orizhgum_write_answer orizhgum_write_heartbeat(const uint8_t *texts, size_t texts_length,
    const uint8_t *groups, size_t groups_length, uint8_t *out, size_t out_length);

/* ---- the request: a frame of ORIZHGUM_RESEND, ORIZHGUM_REQUEST bytes, to the start of out, that asks for the first run of a
 * channel, or for its first 200 numbers; with any answer but 0 nothing is written, and out is as it stood. No number below the
 * channel's first number is asked for */
struct orizhgum_write_answer orizhgum_request_in(size_t count, const uint16_t *numbers, const uint64_t *from,
    const uint64_t *highest, const uint8_t *ended, const size_t *counts, const uint64_t *first, const uint64_t *last,
    uint16_t channel, uint8_t *out, size_t out_length);

static inline struct orizhgum_write_answer orizhgum_request(const struct orizhgum_tracker *tracker, uint16_t channel,
    uint8_t *out, size_t out_length)
{
    return orizhgum_request_in(tracker->count, tracker->numbers, tracker->from, tracker->highest, tracker->ended,
        tracker->counts, tracker->first, tracker->last, channel, out, out_length);
}

#ifdef __cplusplus
}
#endif

#endif
