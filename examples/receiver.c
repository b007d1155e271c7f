/* A receiver of two channels that comes to them late: reads a capture of any length from standard input, as it would read a socket,
 * prints the levels of each snapshot, tracks which numbers never came, from its first numbers on, and asks for them. It reads two
 * captures as two lines of the same feed, joins their records, and asks for what came on neither line.
 *
 *     ./install target/prefix
 *     export PKG_CONFIG_PATH=$PWD/target/prefix/lib/pkgconfig
 *     cc examples/receiver.c $(pkg-config --cflags --libs orizhgum) -o receiver
 *     ./receiver < samples/opening.bin
 *     ./receiver < samples/noon.bin
 *     ./receiver samples/line_a.bin samples/line_b.bin
 *
 * It counts from the first numbers of its set-up on. Of opening.bin it gets numbers below them too, which are before start;
 * noon.bin is the same feed for a board that is switched on later: the numbers below never come, and are not missing.
 *
 * It reads in cuts of any size, at most 65536 bytes; `./receiver BYTES` makes them smaller. `./receiver exact` reads what is
 * missing and no more: first a header, then as many bytes as the last answer says. Where no read is short these are two reads a
 * frame, and no byte of the next frame is read early. What it prints is the same.
 *
 * `./receiver [BYTES | exact] LINE LINE` reads two captures. Each line has a stream, a buffer and a tracker of its own, and is
 * printed under `line 1` or `line 2` as standard input is. Under `both lines` stands the joined record: a number is missing there
 * only if neither line brought it. A request for each channel that misses something asks for its first run; when that has come, a
 * host asks for the next. The join makes the first line's tracker that of both: a host that still counts each line by itself joins
 * a copy. A line that is refused by 1 to 3, or that cannot be read, ends the run without a join.
 *
 * What a host does on each refusal:
 *  1 TOO_SHORT       only from orizhgum_stream_end: the capture is cut, or the line broke inside a frame: stops, or connects anew
 *                    with a new stream. missing tells how much was lost: of the header where that is cut, else of the frame
 *  2 TOO_LONG        the bytes are no frames: stops, or closes the line and connects anew with a new stream
 *  3 WRONG_SUM       the same: behind a damaged frame nobody knows where the next one begins
 *  4 NOT_ITS_LAYOUT  passes the record over, and goes on behind its frame; from the writer: its own fault, texts or groups that
 *                    are not the type's
 *  5 OUT_OF_RANGE    passes the record over; from the writer: its own fault, a field out of range
 *  6 OUTPUT_SHORT    its own fault: lends ORIZHGUM_FRAME_LIMIT bytes, for a request ORIZHGUM_REQUEST
 *  7 NO_SUCH_CHANNEL a channel that it did not ask for: passes the arrival over
 *  8 NUMBER_TOO_LOW  never for a number of an accepted record: passes the arrival over
 *  9 TABLE_FULL      the channel has more gaps than the tracker holds, and the arrival is not counted: asks for what is missing,
 *                    or sets up a tracker anew, with a later first number
 * 10 MALFORMED       channels that do not ascend, first numbers below 1 or not as many as channels, a tracker or a stream that was
 *                    changed by hand, or a buffer of fewer than ORIZHGUM_FRAME_LIMIT bytes: its own fault, stops
 * 11 SET_UPS_DIFFER  only from orizhgum_join: the two trackers were not set up alike: its own fault, stops; both are to have the
 *                    same channels and first numbers
 *
 * A join is refused by 10, 11 or 9, and leaves both trackers as they stood. Of it
 *  9 TABLE_FULL      says that a channel has more gaps on which the lines agree than a tracker holds: goes on with both records
 *                    apart, asks on each line for what it misses, and joins them again when gaps have closed
 * 10 MALFORMED       says that one of the two was never set up, or was changed by hand: its own fault, stops
 *
 * On a tick's other answers:
 * 103 LATE           a number that was missing: takes the record, and asks for it no more
 * 104 DUPLICATE      a number that had come, and is not before start: passes the record over
 * 108 BEFORE_START   a number below the channel's first number: passes the record over, and never asks for it
 *
 * And on the stream's other answers:
 * 106 MORE           the cut is taken, and no frame is whole yet: reads the next cut, of any size. missing is what the header lacks
 *                    or, behind it, the frame: a host that reads so many bytes waits for no more than it needs
 * 107 END            from orizhgum_stream_end: the stream ended behind a whole frame, and nothing is lost */
#define _POSIX_C_SOURCE 200809L

#include "orizhgum.h"

#include <assert.h>
#include <errno.h>
#include <fcntl.h>
#include <inttypes.h>
#include <stdbool.h>
#include <stdio.h>
#include <string.h>
#include <unistd.h>

#define CUT_LIMIT 65536

static_assert(ORIZHGUM_FRAME_LIMIT <= CUT_LIMIT, "a cut has room for what a frame lacks");

/* a line: what it is called, and the descriptor that it is read from; its stream, and the buffer that is lent to it; the offset of
 * the next frame, how many frames there were, and how many bytes are missing: a header behind a frame, else what the last answer
 * says, at least 1 and fewer than the longest frame has; and its tracker */
struct line {
    const char *name;
    int input;
    struct orizhgum_stream stream;
    uint8_t buffer[ORIZHGUM_FRAME_LIMIT];
    uint64_t offset;
    uint64_t frames;
    size_t missing;
    struct orizhgum_tracker tracker;
};

/* standard input is the first, and then the only one */
static struct line lines[2];

/* a number with so many decimals */
static void print_decimal(int64_t number, int decimals)
{
    const char *sign = number < 0 ? "-" : "";
    uint64_t part = number < 0 ? 0 - (uint64_t)number : (uint64_t)number;
    uint64_t one = 1;

    for (int i = 0; i < decimals; i++) {
        one *= 10;
    }
    printf("%s%" PRIu64 ".%0*" PRIu64, sign, part / one, decimals, part % one);
}

/* 4 and 5: the record is passed over; 2, 3 and 10: the stream is over */
static void refused(uint64_t offset, uint32_t answer)
{
    printf("%" PRIu64 " refused %" PRIu32 "\n", offset, answer);
}

/* 1: the stream ended inside a frame */
static void refused_short(uint64_t offset, size_t missing)
{
    printf("%" PRIu64 " refused %d %zu\n", offset, ORIZHGUM_TOO_SHORT, missing);
}

/* a level without a price has none: the lent number was not written */
static void print_level(const struct orizhgum_entry *entry, int64_t price)
{
    printf("  %s %u: ", entry->characters >> 8 == '0' ? "bid" : "offer", (unsigned)entry->level);
    if (entry->says == ORIZHGUM_SAYS_LEVEL) {
        print_decimal(price, ORIZHGUM_ENTRY_PRICE_DECIMALS);
    } else {
        printf("-");
    }
    printf(" ");
    print_decimal(entry->size, ORIZHGUM_SIZE_DECIMALS);
    printf("\n");
}

/* a text is as wide as its field, and not ended by a zero */
#define WIDTH(text) (int)sizeof(text), (text)

static int print_snapshot(uint64_t offset, const uint8_t *body, size_t length)
{
    struct orizhgum_snapshot_answer snapshot = orizhgum_snapshot(body, length);
    struct orizhgum_cursor at;

    if (snapshot.answer != ORIZHGUM_OK) {
        refused(offset, snapshot.answer);
        return 0;
    }
    printf("%" PRIu64 " snapshot of %.*s at %" PRId64 "\n", offset, WIDTH(snapshot.texts.security),
        snapshot.numbers.common.time);
    at = orizhgum_cursor(ORIZHGUM_SNAPSHOT, body, length);
    for (;;) {
        int64_t price = 0;
        struct orizhgum_step_answer step = orizhgum_next(at, ORIZHGUM_SNAPSHOT, body, length, &price);
        if (step.answer == ORIZHGUM_NO_SUCH_ENTRY) {
            return 0;
        }
        if (step.answer != ORIZHGUM_OK) {
            refused(offset, step.answer); /* never, for a body that was accepted */
            return 1;
        }
        if (step.entry.says == ORIZHGUM_SAYS_LEVEL || step.entry.says == ORIZHGUM_SAYS_LEVEL_WITHOUT_PRICE) {
            print_level(&step.entry, price);
        }
        at = step.next;
    }
}

static size_t runs(const struct orizhgum_tracker *tracker)
{
    size_t sum = 0;

    for (size_t c = 0; c < ORIZHGUM_CHANNELS; c++) {
        sum += tracker->counts[c];
    }
    return sum;
}

/* 7 and 10 would be the host's own fault here, and 6 cannot be: the room is the request's */
static void print_request(const struct orizhgum_tracker *tracker, uint16_t channel)
{
    uint8_t out[ORIZHGUM_REQUEST];
    struct orizhgum_write_answer request = orizhgum_request(tracker, channel, out, sizeof out);

    printf("request for channel %u:", (unsigned)channel);
    if (request.answer != ORIZHGUM_OK) {
        printf(" %" PRIu32 "\n", request.answer);
        return;
    }
    for (size_t i = 0; i < request.written; i++) {
        printf(" %02X", (unsigned)out[i]);
    }
    printf("\n");
}

/* what a tick is that is not new; NULL where it is new or refused, and for a heartbeat */
static const char *word(uint32_t answer)
{
    switch (answer) {
    case ORIZHGUM_LATE:
        return "late";
    case ORIZHGUM_DUPLICATE:
        return "duplicate";
    case ORIZHGUM_BEFORE_START:
        return "before start";
    default:
        return NULL;
    }
}

/* tells of an arrival, and asks where it opened a run: there were `before` of them. One that is refused by 7, 8 or 9 is passed
 * over; the tracker is as it stood */
static void arrived(const struct line *line, uint16_t channel, int64_t number, uint32_t answer, size_t before)
{
    const char *told = word(answer);

    if (told != NULL) {
        printf("%" PRIu64 " channel %u number %" PRId64 " %s\n", line->offset, (unsigned)channel, number, told);
    } else if (answer != ORIZHGUM_OK) {
        printf("%" PRIu64 " channel %u number %" PRId64 " refused %" PRIu32 "\n", line->offset, (unsigned)channel, number, answer);
    }
    if (runs(&line->tracker) > before) {
        printf("%" PRIu64 " ", line->offset);
        print_request(&line->tracker, channel);
    }
}

static void tick(struct line *line, uint16_t channel, int64_t number)
{
    size_t before = runs(&line->tracker);

    arrived(line, channel, number, orizhgum_tick(&line->tracker, channel, number), before);
}

static void hear(struct line *line, uint16_t channel, int64_t last_number, uint16_t end)
{
    size_t before = runs(&line->tracker);

    arrived(line, channel, last_number, orizhgum_heard(&line->tracker, channel, last_number, end != 0), before);
}

/* one frame's body; 0 where the receiver goes on. A type that it has no use for, listed or not, is passed over */
static int receive(struct line *line, uint32_t kind, const uint8_t *body, size_t length)
{
    if (kind == ORIZHGUM_SNAPSHOT) {
        return print_snapshot(line->offset, body, length);
    }
    if (kind == ORIZHGUM_ORDER) {
        struct orizhgum_order_answer order = orizhgum_order(body, length);
        if (order.answer == ORIZHGUM_OK) {
            tick(line, order.numbers.channel, order.numbers.number);
        } else {
            refused(line->offset, order.answer);
        }
    } else if (kind == ORIZHGUM_TRADE) {
        struct orizhgum_trade_answer trade = orizhgum_trade(body, length);
        if (trade.answer == ORIZHGUM_OK) {
            tick(line, trade.numbers.channel, trade.numbers.number);
        } else {
            refused(line->offset, trade.answer);
        }
    } else if (kind == ORIZHGUM_CHANNEL_HEARTBEAT) {
        struct orizhgum_channel_heartbeat_answer heartbeat = orizhgum_channel_heartbeat(body, length);
        if (heartbeat.answer == ORIZHGUM_OK) {
            hear(line, heartbeat.numbers.channel, heartbeat.numbers.last_number, heartbeat.numbers.end);
        } else {
            refused(line->offset, heartbeat.answer);
        }
    }
    return 0;
}

/* where highest is one below from, no number from there on came or was announced */
static void print_channels(const struct orizhgum_tracker *tracker)
{
    for (size_t c = 0; c < tracker->count; c++) {
        printf("channel %u: from %" PRIu64 ", highest %" PRIu64 "%s, missing", (unsigned)tracker->numbers[c], tracker->from[c],
            tracker->highest[c], tracker->ended[c] ? ", ended" : "");
        for (size_t r = ORIZHGUM_RUNS * c; r < ORIZHGUM_RUNS * c + tracker->counts[c]; r++) {
            printf(" %" PRIu64 "-%" PRIu64, tracker->first[r], tracker->last[r]);
        }
        printf("%s\n", tracker->counts[c] == 0 ? " nothing" : "");
    }
}

/* a cut of what has come, 0 bytes at the end; below 0 where the read fails */
static ssize_t read_cut(const struct line *line, uint8_t *cut, size_t most)
{
    ssize_t length;

    do {
        length = read(line->input, cut, most);
    } while (length < 0 && errno == EINTR);
    if (length < 0) {
        perror(line->name);
    }
    return length;
}

/* all frames that a cut completes; what a call does not take of it is handed in again. 0 where the receiver goes on */
static int push_cut(struct line *line, const uint8_t *cut, size_t length)
{
    while (length > 0) {
        struct orizhgum_stream_answer told = orizhgum_stream_push(line->stream, line->buffer, sizeof line->buffer, cut, length);
        line->stream = told.next;
        if (told.answer == ORIZHGUM_OK) {
            const uint8_t *frame = told.stands == ORIZHGUM_IN_CUT ? cut : line->buffer;
            if (receive(line, told.kind, frame + ORIZHGUM_HEADER, told.len)) {
                return 1;
            }
            line->offset += told.total;
            line->frames++;
            line->missing = ORIZHGUM_HEADER;
        } else if (told.answer == ORIZHGUM_MORE) {
            line->missing = told.missing;
        } else {
            refused(line->offset, told.answer);
            return 1;
        }
        cut += told.took;
        length -= told.took;
    }
    return 0;
}

/* 0 where the stream ended behind a whole frame */
static int end_line(struct line *line)
{
    struct orizhgum_stream_answer told = orizhgum_stream_end(line->stream, line->buffer, sizeof line->buffer);

    line->stream = told.next;
    if (told.answer == ORIZHGUM_END) {
        printf("%" PRIu64 " end %" PRIu64 "\n", line->offset, line->frames);
        return 0;
    }
    if (told.answer == ORIZHGUM_TOO_SHORT) {
        refused_short(line->offset, told.missing);
    } else {
        refused(line->offset, told.answer);
    }
    return 1;
}

/* all cuts of a line, each of at most so many bytes, or of what is missing */
static int receive_all(struct line *line, size_t most, bool exact)
{
    static uint8_t cut[CUT_LIMIT];
    ssize_t length;

    while ((length = read_cut(line, cut, exact ? line->missing : most)) > 0) {
        if (push_cut(line, cut, (size_t)length)) {
            return 1;
        }
    }
    return length < 0 ? 1 : end_line(line);
}

/* the most bytes of a cut; 0 where the word is not a number from 1 to the limit */
static size_t cut_size(const char *word)
{
    size_t bytes = 0;

    for (; *word >= '0' && *word <= '9' && bytes <= CUT_LIMIT; word++) {
        bytes = 10 * bytes + (size_t)(*word - '0');
    }
    return *word == '\0' && bytes <= CUT_LIMIT ? bytes : 0;
}

#define LENGTH(list) (sizeof(list) / sizeof *(list))

/* the channels, and of each the first number that the receiver is to have; on a board that is there from the start of the day these
 * are 1. It comes to 2011 at number 4, and wants 2012 from number 3 on. noon.bin begins there on 2011, but behind 3 and 4 on 2012:
 * these it misses, and asks for. The trackers of all lines are set up alike, so that they can be joined. Returns 0 when the tracker
 * is set up, else 1 */
static int set_up(struct orizhgum_tracker *tracker)
{
    static const uint16_t channels[] = {2011, 2012};
    static const int64_t from[] = {4, 3};
    struct orizhgum_start_answer start = orizhgum_set_up(channels, LENGTH(channels), from, LENGTH(from));

    if (start.answer != ORIZHGUM_OK) {
        fprintf(stderr, "set-up refused %" PRIu32 "\n", start.answer);
        return 1;
    }
    *tracker = start.tracker;
    return 0;
}

/* a line from its start to its end, and what is missing of it; 0 where nothing failed */
static int receive_line(struct line *line, size_t most, bool exact)
{
    line->stream = orizhgum_stream_new();
    line->missing = ORIZHGUM_HEADER;
    if (set_up(&line->tracker) || receive_all(line, most, exact)) {
        return 1;
    }
    print_channels(&line->tracker);
    return 0;
}

static int receive_standard_input(size_t most, bool exact)
{
    lines[0].name = "standard input";
    lines[0].input = STDIN_FILENO;
    return receive_line(&lines[0], most, exact);
}

/* a line that stands in a file; a board connects here */
static int receive_file(struct line *line, const char *name, size_t most, bool exact)
{
    int failed;

    line->name = name;
    line->input = open(name, O_RDONLY);
    if (line->input < 0) {
        perror(name);
        return 1;
    }
    failed = receive_line(line, most, exact);
    close(line->input);
    return failed;
}

/* makes the first line's record that of both, and asks for what neither line brought. Where that is refused it stops: by 9, as 10
 * and 11 cannot be, for set_up made both trackers, and none was changed by hand */
static int join_lines(void)
{
    struct orizhgum_tracker *both = &lines[0].tracker;
    uint32_t answer = orizhgum_join(both, &lines[1].tracker);

    printf("both lines\n");
    if (answer != ORIZHGUM_OK) {
        printf("refused %" PRIu32 "\n", answer);
        return 1;
    }
    print_channels(both);
    for (size_t c = 0; c < both->count; c++) {
        if (both->counts[c] > 0) {
            print_request(both, both->numbers[c]);
        }
    }
    return 0;
}

/* one line behind the other, and then both. A board reads them in turn: a line has all of its state to itself */
static int receive_two(char *const *names, size_t most, bool exact)
{
    for (size_t i = 0; i < LENGTH(lines); i++) {
        printf("line %zu\n", i + 1);
        if (receive_file(&lines[i], names[i], most, exact)) {
            return 1;
        }
    }
    return join_lines();
}

/* an even count of words, the program's own among them, has one for the size of the cuts */
int main(int argc, char **argv)
{
    bool sized = argc == 2 || argc == 4;
    bool exact = sized && strcmp(argv[1], "exact") == 0;
    size_t most = sized && !exact ? cut_size(argv[1]) : CUT_LIMIT;
    int failed;

    if (argc > 4 || most == 0) {
        fprintf(stderr, "usage: receiver [BYTES | exact] [LINE LINE]; a cut has at most BYTES, 1 to %d, or what is missing;\n"
            "two captures are two lines, which are joined; without them standard input is the line\n", CUT_LIMIT);
        return 2;
    }
    failed = argc > 2 ? receive_two(argv + argc - 2, most, exact) : receive_standard_input(most, exact);
    if (fflush(stdout) != 0 || ferror(stdout)) {
        perror("standard output");
        return 1;
    }
    return failed;
}
