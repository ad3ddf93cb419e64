/* Conversations through include/sojimu_conversation.h: those of the examples, whole, cut at every byte and with no more room
 * than is needed, by batches and message by message; every way to end; what waits, what is written and what is logged. Prints a
 * line for each check that fails, and at the end `N passed, M failed`. */
#include "sojimu_conversation.h"

#include "check.h"

enum { LONG = 4096 };

/* Bytes that came, went or were logged, one behind the other. */
struct bytes {
    uint8_t bytes[LONG];
    size_t length;
};

static void append(struct bytes *to, const uint8_t *bytes, size_t length)
{
    if (length > 0 && to->length + length <= LONG) {
        memcpy(to->bytes + to->length, bytes, length);
    }
    to->length += length;
}

static bool same(const struct bytes *a, const uint8_t *bytes, size_t length)
{
    return a->length == length && length <= LONG && memcmp(a->bytes, bytes, length) == 0;
}

/* ---- what is said, and what comes of it */

/* Messages in the order of a log, which is the order in which they come, and what the protocol makes of them: so many are
 * judged, the last of them blamed or all forwarded, and so it ends. */
struct script {
    struct sojimu_table protocol;
    struct bytes log;
    size_t judged;
    struct sojimu_verdict ended;
};

/* An entry of a log: whose, where its message begins, and how long that is. */
struct entry {
    uint32_t side;
    const uint8_t *message;
    size_t length;
};

static struct entry entry_at(const struct bytes *log, size_t at)
{
    const uint8_t *const message = log->bytes + at + 1;
    const struct entry entry = {log->bytes[at] == 0 ? SOJIMU_DEVICE : SOJIMU_HOST, message,
                                sojimu_front(message, log->length - at - 1).length};
    return entry;
}

/* The length of the log's first entries, so many, or of all. */
static size_t logged_by(const struct bytes *log, size_t entries)
{
    size_t at = 0;
    for (; entries > 0 && at < log->length; entries--) {
        at += 1 + entry_at(log, at).length;
    }
    return at;
}

static bool blames(const struct script *s)
{
    return s->ended.outcome == SOJIMU_BLAMED;
}

/* What a side has said of the first entries, so many. */
static void said_by(const struct script *s, uint32_t side, size_t entries, struct bytes *said)
{
    const size_t end = logged_by(&s->log, entries);
    size_t at = 0;
    said->length = 0;
    while (at < end) {
        const struct entry entry = entry_at(&s->log, at);
        if (entry.side == side) {
            append(said, entry.message, entry.length);
        }
        at += 1 + entry.length;
    }
}

static size_t longest_of(const struct bytes *log)
{
    size_t longest = 0, at = 0;
    while (at < log->length) {
        const size_t length = entry_at(log, at).length;
        longest = length > longest ? length : longest;
        at += 1 + length;
    }
    return longest;
}

/* ---- a conversation that is held */

/* How much room there is on either side, on either output and in the log; no log is kept where that has none. */
struct rooms {
    size_t waiting, output, log;
};

/* One side: all that has come from it, how many bytes of that are taken, and what was written to it. */
struct line {
    struct bytes came, written;
    size_t taken;
    uint8_t waiting[LONG];
};

struct held {
    struct sojimu_conversation talk;
    struct rooms rooms;
    struct line device, host;
    struct bytes log;
};

static struct held held;

static struct line *line_of(uint32_t side)
{
    return side == SOJIMU_DEVICE ? &held.device : &held.host;
}

static bool begin(const struct sojimu_table *protocol, struct rooms rooms)
{
    held.rooms = rooms;
    held.device.came.length = held.device.written.length = held.device.taken = 0;
    held.host.came.length = held.host.written.length = held.host.taken = held.log.length = 0;
    return sojimu_begin(&held.talk, protocol, SETTING, held.device.waiting, rooms.waiting, held.host.waiting, rooms.waiting) == 0;
}

static bool goes_on(void)
{
    return held.talk.ended.outcome == SOJIMU_GOES_ON;
}

/* Two outputs and a log, which have their marks before each call. */
static uint8_t to_device[LONG], to_host[LONG], log_of_call[LONG], marks[LONG];

static void mark_all(void)
{
    memset(marks, MARK, LONG);
    memset(to_device, MARK, LONG);
    memset(to_host, MARK, LONG);
    memset(log_of_call, MARK, LONG);
}

/* Takes the first bytes of an output, and marks them again. Says whether the others still have their marks. */
static bool taken_from(uint8_t *output, size_t written, struct bytes *to)
{
    append(to, output, written);
    memset(output, MARK, written);
    return memcmp(output, marks, LONG) == 0;
}

/* Passes on once. Says whether nothing behind what is written is changed. */
static bool pass(struct sojimu_passed *given)
{
    const struct rooms rooms = held.rooms;
    *given = rooms.log == 0
                 ? sojimu_pass(&held.talk, to_device, rooms.output, to_host, rooms.output)
                 : sojimu_pass_logged(&held.talk, to_device, rooms.output, to_host, rooms.output, log_of_call, rooms.log);
    return taken_from(to_device, given->to_device, &held.device.written) &&
           taken_from(to_host, given->to_host, &held.host.written) && taken_from(log_of_call, given->logged, &held.log);
}

/* Passes on until nothing waits for room. Each time that something does, something has gone out. */
static bool pass_all(void)
{
    struct sojimu_passed given = {0, 0, 0, true};
    bool right = true;
    while (right && given.more) {
        right = pass(&given) && (!given.more || given.to_device + given.to_host + given.logged > 0);
    }
    return right;
}

/* What has come and is not taken yet is heard, as far as there is room. */
static size_t offer(uint32_t side)
{
    struct line *const line = line_of(side);
    const size_t left = line->came.length - line->taken;
    const size_t taken = sojimu_hear(&held.talk, side, left == 0 ? NULL : line->came.bytes + line->taken, left);
    line->taken += taken;
    return taken;
}

/* Nothing of a side is lost: what was taken is what was written to the other side, the blamed message, and what waits still. */
static bool accounted(uint32_t side, size_t blamed)
{
    const struct line *const line = line_of(side);
    const struct sojimu_waiting *const waiting = side == SOJIMU_DEVICE ? &held.talk.device : &held.talk.host;
    const struct bytes *const written = side == SOJIMU_DEVICE ? &held.host.written : &held.device.written;
    const size_t used = line->taken - waiting->length;
    return waiting->length <= held.rooms.waiting && used == written->length + blamed &&
           same(written, line->came.bytes, used - blamed) && memcmp(line->came.bytes + used, waiting->bytes, waiting->length) == 0;
}

/* The side whose turn it is can be heard: it has room for what makes its bytes a message. */
static bool can_be_heard(void)
{
    const struct sojimu_turn turn = sojimu_turn(held.talk.protocol, &held.talk.state);
    const struct sojimu_waiting *const waiting = turn.side == SOJIMU_DEVICE ? &held.talk.device : &held.talk.host;
    return !goes_on() || (turn.question == 0 && waiting->length < waiting->room);
}

/* Hears what has come, and passes on what is due, until all is taken that can be. `blamed` is the length of the message that
 * the conversation may end with. */
static bool go_on(size_t blamed)
{
    bool right;
    do {
        right = pass_all();
        const bool blame = held.talk.ended.outcome == SOJIMU_BLAMED;
        right = right && accounted(SOJIMU_DEVICE, blame && held.talk.ended.party == SOJIMU_DEVICE ? blamed : 0) &&
                accounted(SOJIMU_HOST, blame && held.talk.ended.party == SOJIMU_HOST ? blamed : 0) && can_be_heard();
    } while (right && offer(SOJIMU_DEVICE) + offer(SOJIMU_HOST) > 0);
    return right;
}

static bool same_verdicts(struct sojimu_verdict a, struct sojimu_verdict b)
{
    return memcmp(&a, &b, sizeof a) == 0;
}

static bool same_conversations(const struct sojimu_conversation *a, const struct sojimu_conversation *b)
{
    return same_states(&a->state, &b->state) && a->device.length == b->device.length && a->host.length == b->host.length &&
           same_verdicts(a->ended, b->ended);
}

/* After the end nothing is taken or written, and nothing changes. */
static bool stays(void)
{
    static struct held before;
    const size_t blamed = held.device.taken - held.talk.device.length - held.host.written.length +
                          (held.host.taken - held.talk.host.length - held.device.written.length);
    const uint8_t more[] = {0};
    before = held;
    append(&held.device.came, more, 1);
    append(&held.host.came, more, 1);
    const bool right = go_on(blamed);
    held.device.came.length--;
    held.host.came.length--;
    return right && same_conversations(&held.talk, &before.talk) && held.device.taken == before.device.taken &&
           held.host.taken == before.host.taken && held.device.written.length == before.device.written.length &&
           held.host.written.length == before.host.written.length && held.log.length == before.log.length;
}

/* The log, put through steps, comes to the same state. */
static bool replays(const struct sojimu_table *protocol, const struct bytes *log)
{
    struct sojimu_state state = fresh(protocol);
    size_t at = 0;
    while (at < log->length) {
        const struct entry entry = entry_at(log, at);
        const struct sojimu_verdict v = sojimu_step(protocol, &state, entry.side, entry.message, entry.length, out, ROOM);
        if (v.outcome == SOJIMU_REFUSED) {
            return false;
        }
        at += 1 + entry.length;
    }
    return same_states(&state, &held.talk.state);
}

/* All that came of it is what the script says. */
static bool came_to(const struct script *s)
{
    static struct bytes device, host, log;
    const size_t forwarded = s->judged - (blames(s) ? 1 : 0);
    said_by(s, SOJIMU_DEVICE, forwarded, &device);
    said_by(s, SOJIMU_HOST, forwarded, &host);
    log.length = 0;
    append(&log, s->log.bytes, logged_by(&s->log, s->judged));
    return same_verdicts(held.talk.ended, s->ended) && same(&held.host.written, device.bytes, device.length) &&
           same(&held.device.written, host.bytes, host.length) &&
           same(&held.log, log.bytes, held.rooms.log == 0 ? 0 : log.length) &&
           replays(&s->protocol, &log) && (goes_on() || stays());
}

static size_t blamed_length(const struct script *s)
{
    return blames(s) ? entry_at(&s->log, logged_by(&s->log, s->judged - 1)).length : 0;
}

/* ---- scripts, whole and cut */

static bool comes(uint32_t side, const uint8_t *bytes, size_t length, size_t blamed)
{
    append(&line_of(side)->came, bytes, length);
    offer(side);
    return go_on(blamed);
}

/* Each message in its turn, and that which holds the cut in two pieces. Cuts are counted in the messages' bytes. */
static bool cut_at(const struct script *s, struct rooms rooms, size_t cut)
{
    const size_t blamed = blamed_length(s);
    size_t at = 0, before = 0;
    bool right = begin(&s->protocol, rooms);
    while (right && at < s->log.length) {
        const struct entry entry = entry_at(&s->log, at);
        const size_t first = cut <= before ? 0 : cut - before < entry.length ? cut - before : entry.length;
        right = (first == 0 || comes(entry.side, entry.message, first, blamed)) &&
                (first == entry.length || comes(entry.side, entry.message + first, entry.length - first, blamed));
        at += 1 + entry.length;
        before += entry.length;
    }
    return right && came_to(s);
}

static bool byte_by_byte(const struct script *s, struct rooms rooms)
{
    const size_t blamed = blamed_length(s);
    size_t at = 0, i = 0;
    bool right = begin(&s->protocol, rooms);
    while (right && at < s->log.length) {
        const struct entry entry = entry_at(&s->log, at);
        right = comes(entry.side, entry.message + i, 1, blamed);
        i++;
        if (i == entry.length) {
            at += 1 + entry.length;
            i = 0;
        }
    }
    return right && came_to(s);
}

/* All that either side says comes in two pieces, both sides' together: under edition 1 it makes no difference what is early. */
static bool cut_at_both(const struct script *s, struct rooms rooms, const struct bytes *device, size_t i, const struct bytes *host,
                        size_t j)
{
    const size_t blamed = blamed_length(s);
    bool right = begin(&s->protocol, rooms);
    append(&held.device.came, device->bytes, i);
    append(&held.host.came, host->bytes, j);
    right = right && go_on(blamed);
    append(&held.device.came, device->bytes + i, device->length - i);
    append(&held.host.came, host->bytes + j, host->length - j);
    return right && go_on(blamed) && came_to(s);
}

/* Every pair of cuts, or every so many. */
static void cut_in_pairs(const struct script *s, struct rooms rooms, size_t stride)
{
    static struct bytes device, host;
    said_by(s, SOJIMU_DEVICE, SIZE_MAX, &device);
    said_by(s, SOJIMU_HOST, SIZE_MAX, &host);
    for (size_t pair = 0; pair <= device.length * (host.length + 1) + host.length; pair += stride) {
        CHECK(cut_at_both(s, rooms, &device, pair / (host.length + 1), &host, pair % (host.length + 1)));
    }
}

/* ---- the conversations */

static struct script script;

static struct sojimu_verdict ended(uint8_t outcome, uint8_t question, uint8_t party)
{
    const struct sojimu_verdict verdict = {outcome, question, party, 0, 0};
    return verdict;
}

static struct sojimu_verdict blamed(uint8_t party, uint8_t reason, uint8_t field)
{
    const struct sojimu_verdict verdict = {SOJIMU_BLAMED, 0, party, reason, field};
    return verdict;
}

static struct bytes file(const char *name)
{
    static struct bytes read;
    FILE *const opened = fopen(name, "rb");
    read.length = opened == NULL ? 0 : fread(read.bytes, 1, LONG, opened);
    CHECK(opened != NULL && read.length > 0 && read.length < LONG);
    if (opened != NULL) {
        fclose(opened);
    }
    return read;
}

/* A conversation under a protocol of the examples. */
static void under(const char *protocol)
{
    const struct bytes text = file(protocol);
    const struct sojimu_reading reading = sojimu_read(text.bytes, text.length);
    CHECK(reading.question == 0);
    script.protocol = reading.table;
    script.log.length = script.judged = 0;
    script.ended = ended(SOJIMU_GOES_ON, 0, 0);
}

/* A message that is said, and judged. */
static void say(uint32_t side, const char *label, const struct sojimu_field *fields, size_t count)
{
    uint8_t message[SOJIMU_MESSAGE];
    const uint8_t byte = side == SOJIMU_DEVICE ? 0 : 1;
    const struct sojimu_made made = sojimu_encode(sojimu_label(label), fields, count, message, sizeof message);
    CHECK(made.question == 0);
    append(&script.log, &byte, 1);
    append(&script.log, message, made.length);
    script.judged++;
}

#define FIELD struct sojimu_field
#define DEVICE(label, ...) say(SOJIMU_DEVICE, label, FIELDS(__VA_ARGS__))
#define HOST(label, ...) say(SOJIMU_HOST, label, FIELDS(__VA_ARGS__))
#define FIELDS(...) (const FIELD[]){__VA_ARGS__}, sizeof(FIELD[]){__VA_ARGS__} / sizeof(FIELD)
#define DEVICE_SAYS(label) say(SOJIMU_DEVICE, label, NULL, 0)
#define HOST_SAYS(label) say(SOJIMU_HOST, label, NULL, 0)
#define INT(value) sojimu_int(value)
#define FLAG(value) sojimu_flag(value)
#define TEXT(value) sojimu_text(value, strlen(value))

/* No more room than is needed for every message; no more on outputs and log than for the script's own; and much. By either way
 * of passing. */
static const struct rooms LEAST = {SOJIMU_MESSAGE, SOJIMU_MESSAGE, 0}, LOGGED = {SOJIMU_MESSAGE, SOJIMU_MESSAGE, SOJIMU_ENTRY};
static const struct rooms MUCH = {LONG, LONG, 0}, MUCH_LOGGED = {LONG, LONG, LONG};

/* The script byte by byte, and cut at every byte, or at every so many. */
static void cut_in_turn(size_t stride)
{
    const size_t most = longest_of(&script.log);
    const struct rooms rooms[] = {LEAST, LOGGED, {SOJIMU_MESSAGE, most, 0}, {SOJIMU_MESSAGE + 1, most, most + 1}};
    for (size_t i = 0; i < sizeof rooms / sizeof rooms[0]; i++) {
        CHECK(byte_by_byte(&script, rooms[i]));
        for (size_t place = 0; place <= script.log.length; place += stride) {
            CHECK(cut_at(&script, rooms[i], place));
        }
    }
}

/* The script with either side cut. */
static void cut_both(size_t stride)
{
    cut_in_pairs(&script, LEAST, stride);
    cut_in_pairs(&script, LOGGED, stride);
    cut_in_pairs(&script, MUCH, 13 * stride);
    cut_in_pairs(&script, MUCH_LOGGED, 13 * stride);
}

/* One pass of the scanner, to the protocol's end; and a frame past the 9,000 that it has, after four messages. */
static void scanner(void)
{
    under("examples/scanner/protocol.txt");
    script.log = file("examples/scanner/one-pass.log");
    script.judged = 10;
    script.ended = ended(SOJIMU_FINISHED, 0, 0);
    cut_in_turn(1);
    cut_both(3);
    script.log = file("examples/scanner/frame-off-sheet.log");
    script.judged = 5;
    script.ended = blamed(SOJIMU_DEVICE, SOJIMU_OUT_OF_RANGE, 0);
    cut_in_turn(1);
    cut_both(1);
}

/* The branches that warn, by their numbers, and their estimates. */
static bool page_is(size_t count, const uint32_t branches[], const uint32_t estimates[])
{
    struct sojimu_warned next = sojimu_next_warning(&held.talk, 0);
    for (size_t i = 0; i < count; i++) {
        if (next.branch != branches[i] || next.warning.question != 0 || next.warning.warns != 1 ||
            next.warning.sender != SOJIMU_DEVICE || next.warning.estimate != estimates[i]) {
            return false;
        }
        next = sojimu_next_warning(&held.talk, next.branch + 1);
    }
    return next.branch == SOJIMU_BRANCHES && next.warning.question == SOJIMU_NO_BRANCH && next.warning.warns == 0;
}

/* Of three messages at the scan one is a frame and two are edges: with a setting of 2.00 both are far from 950 and 45
 * thousandths, and of the other choices nothing is. Then three good passes and a bad edge sensor: 81 frames and 9 edges.
 * Branches are numbered as they stand in the text. */
static void shares(void)
{
    under("examples/shares/protocol.txt");
    HOST("Start", INT(0), INT(6200), INT(300));
    DEVICE_SAYS("Ready");
    DEVICE("Frame", INT(0), INT(62), INT(80));
    DEVICE("Edge", FLAG(true));
    HOST_SAYS("Next");
    DEVICE("Edge", FLAG(false));
    HOST_SAYS("Home");
    HOST_SAYS("Off");
    script.ended = ended(SOJIMU_FINISHED, 0, 0);
    cut_in_turn(1);
    cut_both(3);
    CHECK(page_is(2, (const uint32_t[]){2, 3}, (const uint32_t[]){333, 667}));
    script.log = file("examples/shares/edge-sensor.log");
    script.judged = 100;
    script.ended = ended(SOJIMU_GOES_ON, 0, 0);
    cut_in_turn(41);
    cut_both(2003);
    CHECK(page_is(2, (const uint32_t[]){2, 3}, (const uint32_t[]){900, 100}));
}

static void steambox(void)
{
    under("examples/steambox/protocol.txt");
    DEVICE("Status", INT(310), INT(128), FLAG(false));
    HOST_SAYS("Hold");
    DEVICE("Status", INT(312), INT(129), FLAG(true));
    HOST("Set", INT(3), INT(450));
    DEVICE("Limit", INT(3), INT(400));
    DEVICE("Trip", INT(7), TEXT("low water"));
    HOST_SAYS("Reset");
    DEVICE("Status", INT(0), INT(20), FLAG(false));
    HOST_SAYS("Stop");
    DEVICE_SAYS("Closed");
    script.ended = ended(SOJIMU_FINISHED, 0, 0);
    cut_in_turn(1);
    cut_both(3);
}

static void spray(void)
{
    under("examples/spray/protocol.txt");
    DEVICE("Hello", TEXT("D\303\274se 48"), INT(48));
    HOST_SAYS("Accept");
    HOST("Spray", INT(5), INT(1200), FLAG(true));
    DEVICE("Clogged", INT(5));
    HOST("Purge", INT(20));
    DEVICE_SAYS("Purged");
    HOST_SAYS("Dry");
    DEVICE_SAYS("Dried");
    HOST("Spray", INT(64), INT(2500), FLAG(false));
    DEVICE("Flow", INT(64), INT(2500));
    HOST("Spray", INT(0), INT(0), FLAG(false));
    script.ended = blamed(SOJIMU_HOST, SOJIMU_OUT_OF_RANGE, 0);
    cut_in_turn(1);
    cut_both(101);
}

/* Under edition 2 a message is early or not by what came before it, so each comes in its turn; but for the host's second
 * Set. */
static void editions(void)
{
    under("examples/editions/protocol.txt");
    script.log = file("examples/editions/set-twice.log");
    script.judged = 3;
    script.ended = blamed(SOJIMU_HOST, SOJIMU_EARLY, 0);
    cut_in_turn(1);
    under("examples/editions/protocol.txt");
    DEVICE("Status", INT(310), INT(128));
    HOST("Set", INT(3), INT(450));
    DEVICE("Done", INT(3));
    DEVICE_SAYS("Break");
    HOST_SAYS("Shut");
    script.ended = ended(SOJIMU_FINISHED, 0, 0);
    cut_in_turn(1);
}

/* Messages of 285 bytes both ways: each fills all the room that a side or an output may have. */
static void longest(void)
{
    char text[65];
    memset(text, 'x', 64);
    text[64] = 0;
    script.protocol = table_of("rec X.+{!Say(text[0..64],text[0..64],text[0..64],text[0..64])."
                               "&{?Say(text[0..64],text[0..64],text[0..64],text[0..64]).X}}");
    script.log.length = script.judged = 0;
    for (int i = 0; i < 2; i++) {
        DEVICE("Say", TEXT(text), TEXT(text), TEXT(text), TEXT(text));
        HOST("Say", TEXT(text), TEXT(text), TEXT(text), TEXT(text));
    }
    CHECK(longest_of(&script.log) == SOJIMU_MESSAGE);
    DEVICE("Yell", TEXT(text), TEXT(text), TEXT(text), TEXT(text));
    script.ended = blamed(SOJIMU_DEVICE, SOJIMU_NO_LABEL, 0);
    cut_in_turn(1);
    cut_both(101);
    script.protocol.edition = 2;
    cut_in_turn(1);
}

/* ---- ends */

/* Bytes that come before any is passed on. */
struct came {
    const char *device, *host;
    size_t device_length, host_length;
};

#define CAME(device, host) ((const struct came){device, host, sizeof device - 1, sizeof host - 1})

/* What comes ends the conversation so, by either way of passing, and the log has so many bytes. */
static bool ends(const char *protocol, struct came came, struct sojimu_verdict wanted, size_t logged)
{
    const struct sojimu_table table = table_of(protocol);
    const struct rooms rooms[] = {LEAST, LOGGED};
    for (size_t i = 0; i < 2; i++) {
        bool right = begin(&table, rooms[i]);
        append(&held.device.came, (const uint8_t *)came.device, came.device_length);
        append(&held.host.came, (const uint8_t *)came.host, came.host_length);
        right = right && offer(SOJIMU_DEVICE) == came.device_length && offer(SOJIMU_HOST) == came.host_length && pass_all();
        if (!right || !same_verdicts(held.talk.ended, wanted) || (rooms[i].log > 0 && held.log.length != logged)) {
            return false;
        }
        if (!goes_on() && !stays()) {
            return false;
        }
    }
    return true;
}

#define ASK_7 "Ask\0\0\0\0\0\1\0\0\0\0\7"
#define OK "Ok\0\0\0\0\0\0\0"
#define QUIT "Quit\0\0\0\0\0"
#define SAY_TEXT "Say\0\0\0\0\0\1\1\0\0\0\1"
#define EARLY_TEXT "edition 2 rec X.+{!Ask(int[0..100]).&{?Ok().X},!Quit().end}"

static const struct sojimu_verdict GOES_ON = {SOJIMU_GOES_ON, 0, 0, 0, 0};
static const struct sojimu_verdict FINISHED = {SOJIMU_FINISHED, 0, 0, 0, 0};

static struct sojimu_verdict no_message(uint8_t party, uint8_t question)
{
    return ended(SOJIMU_REFUSED, question, party);
}

/* At an end what still comes is not looked at; and a protocol may begin there. */
static void finished(void)
{
    CHECK(ends(P, CAME(QUIT, ""), FINISHED, 10) && ends(P, CAME(ASK_7 QUIT, OK), FINISHED, 35));
    CHECK(ends(P, CAME(QUIT "junk" QUIT, OK "junk and more"), FINISHED, 10) && ends(P, CAME(ASK_7, ""), GOES_ON, 15));
    const struct sojimu_table over = table_of("end");
    CHECK(begin(&over, LEAST) && same_verdicts(held.talk.ended, FINISHED) && stays());
}

/* Every reason, of either party; a blamed message is logged. */
static void blames_of_each_reason(void)
{
    CHECK(ends(P, CAME("No\0\0\0\0\0\0\0" ASK_7, OK), blamed(SOJIMU_DEVICE, SOJIMU_NO_LABEL, 0), 10));
    CHECK(ends(P, CAME("Quit\0\0\0\0\1\2\0\0\0\1", ""), blamed(SOJIMU_DEVICE, SOJIMU_OTHER_KINDS, 0), 15));
    CHECK(ends(P, CAME("Ask\0\0\0\0\0\1\0\0\0\0\145", ""), blamed(SOJIMU_DEVICE, SOJIMU_OUT_OF_RANGE, 0), 15));
    CHECK(ends("+{!A(int[0..1],int[0..1]).end}", CAME("A\0\0\0\0\0\0\0\2\0\0\0\0\0\1\0\0\0\2", ""),
               blamed(SOJIMU_DEVICE, SOJIMU_OUT_OF_RANGE, 1), 20));
    CHECK(ends(P, CAME(ASK_7, QUIT), blamed(SOJIMU_HOST, SOJIMU_NO_LABEL, 0), 25));
    CHECK(ends(P, CAME(ASK_7, "Ok\0\0\0\0\0\0\1\0\0\0\0\0"), blamed(SOJIMU_HOST, SOJIMU_OTHER_KINDS, 0), 30));
    CHECK(ends("&{?Set(flag[0..0]).end}", CAME("", "Set\0\0\0\0\0\1\2\0\0\0\1"), blamed(SOJIMU_HOST, SOJIMU_OUT_OF_RANGE, 0), 15));
}

/* Bytes that are no message, of the side whose turn it is; those that may become one wait. */
static void no_messages(void)
{
    CHECK(ends(P, CAME("GET / HTTP", ""), no_message(SOJIMU_DEVICE, SOJIMU_BAD_FRONT), 0));
    CHECK(ends(P, CAME("GET / HT", ""), GOES_ON, 0));
    CHECK(ends(P, CAME("Ask\0\0\0\0\0\5", ""), no_message(SOJIMU_DEVICE, SOJIMU_BAD_FRONT), 0));
    CHECK(ends(P, CAME("Ask\0\0\0\0\0\1\3\0\0\0\0", ""), no_message(SOJIMU_DEVICE, SOJIMU_BAD_FIELD), 0));
    CHECK(ends(P, CAME("Ask\0\0\0\0\0\1\3\0\0\0", ""), GOES_ON, 0));
    CHECK(ends(P, CAME("Say\0\0\0\0\0\1\1\0\0\0\101", ""), no_message(SOJIMU_DEVICE, SOJIMU_BAD_FIELD), 0));
    CHECK(ends(P, CAME(SAY_TEXT "\377", ""), no_message(SOJIMU_DEVICE, SOJIMU_NOT_UTF8), 0));
    CHECK(ends(P, CAME(SAY_TEXT, ""), GOES_ON, 0));
    CHECK(ends(P, CAME(ASK_7, "ok\0\0\0\0\0\0\0"), no_message(SOJIMU_HOST, SOJIMU_BAD_FRONT), 15));
    CHECK(ends(P, CAME(ASK_7, "Ok\0\0\0\0\0\0\1\2\0\0\0\2"), no_message(SOJIMU_HOST, SOJIMU_BAD_FIELD), 15));
    CHECK(ends(P, CAME(ASK_7, SAY_TEXT "\377"), no_message(SOJIMU_HOST, SOJIMU_NOT_UTF8), 15));
    CHECK(ends(P, CAME(ASK_7 "GET / HTTP", OK), no_message(SOJIMU_DEVICE, SOJIMU_BAD_FRONT), 25));
    /* It is not their turn. */
    CHECK(ends(P, CAME("", "GET / HTTP"), GOES_ON, 0) && ends(P, CAME("", SAY_TEXT "\377"), GOES_ON, 0));
    CHECK(ends(P, CAME(ASK_7 "GET / HTTP", ""), GOES_ON, 15));
}

/* Under edition 2 who speaks out of turn is blamed, once no message is due; what is no message waits. */
static void early(void)
{
    CHECK(ends(EARLY_TEXT, CAME("", OK), blamed(SOJIMU_HOST, SOJIMU_EARLY, 0), 10));
    CHECK(ends(P, CAME("", OK), GOES_ON, 0));
    CHECK(ends(EARLY_TEXT, CAME(ASK_7, OK), GOES_ON, 25) && ends(EARLY_TEXT, CAME("", "Ok\0\0\0\0\0\0"), GOES_ON, 0));
    CHECK(ends(EARLY_TEXT, CAME(ASK_7, OK OK), blamed(SOJIMU_HOST, SOJIMU_EARLY, 0), 35));
    CHECK(ends(EARLY_TEXT, CAME(ASK_7 QUIT, ""), blamed(SOJIMU_DEVICE, SOJIMU_EARLY, 0), 25));
    CHECK(ends(EARLY_TEXT, CAME(ASK_7 "No\0\0\0\0\0\0\0", ""), blamed(SOJIMU_DEVICE, SOJIMU_EARLY, 0), 25));
    CHECK(ends(EARLY_TEXT, CAME("", "GET / HTTP"), GOES_ON, 0) && ends(EARLY_TEXT, CAME("", SAY_TEXT "\377"), GOES_ON, 0));
    /* The last byte of the first is still in the room where the second waits for its own. */
    CHECK(ends(EARLY_TEXT, CAME("", SAY_TEXT "x"), blamed(SOJIMU_HOST, SOJIMU_EARLY, 0), 16));
    CHECK(ends(EARLY_TEXT, CAME("", SAY_TEXT), GOES_ON, 0));
    CHECK(ends(EARLY_TEXT, CAME(ASK_7, SAY_TEXT "\377"), no_message(SOJIMU_HOST, SOJIMU_NOT_UTF8), 15));
    CHECK(ends(EARLY_TEXT, CAME(QUIT, OK), FINISHED, 10));
    /* What the side whose turn it is has sent comes first. */
    CHECK(ends(EARLY_TEXT, CAME("GET / HTTP", OK), no_message(SOJIMU_DEVICE, SOJIMU_BAD_FRONT), 0));
    CHECK(ends(EARLY_TEXT, CAME(SAY_TEXT "\377", OK), no_message(SOJIMU_DEVICE, SOJIMU_NOT_UTF8), 0));
    CHECK(ends(EARLY_TEXT, CAME("Ask\0", OK), blamed(SOJIMU_HOST, SOJIMU_EARLY, 0), 10));
}

/* A table or a state that is written over: nothing is passed on, and nobody is blamed. */
static void damaged(void)
{
    const struct rooms rooms[] = {LEAST, LOGGED};
    for (size_t i = 0; i < 2; i++) {
        struct sojimu_table table = table_of(P);
        CHECK(begin(&table, rooms[i]));
        table.states = 0;
        append(&held.device.came, ASK_100, sizeof ASK_100);
        CHECK(offer(SOJIMU_DEVICE) == 14 && pass_all() && held.host.written.length == 0);
        CHECK(same_verdicts(held.talk.ended, ended(SOJIMU_REFUSED, SOJIMU_UNSOUND, 0)) && stays());
        CHECK(held.talk.device.length == 14 && sojimu_next_warning(&held.talk, 0).branch == SOJIMU_BRANCHES);
        table = table_of(P);
        CHECK(begin(&table, rooms[i]));
        held.talk.state.standing = 200;
        CHECK(pass_all() && same_verdicts(held.talk.ended, ended(SOJIMU_REFUSED, SOJIMU_NOT_RUNNING, 0)) && stays());
    }
}

/* ---- room */

static bool nothing(struct sojimu_passed given)
{
    return given.to_device == 0 && given.to_host == 0 && given.logged == 0 && !given.more;
}

/* All is 0, and every call takes and gives nothing. */
static bool is_none(struct sojimu_conversation *talk)
{
    static const struct sojimu_state zero;
    uint8_t byte = MARK;
    const bool zeroed = talk->protocol == NULL && same_states(&talk->state, &zero) && talk->device.bytes == NULL &&
                        talk->device.room == 0 && talk->device.length == 0 && talk->host.bytes == NULL && talk->host.room == 0 &&
                        talk->host.length == 0 && memcmp(&talk->ended, "\0\0\0\0\0", 5) == 0;
    return zeroed && sojimu_hear(talk, SOJIMU_DEVICE, &byte, 1) == 0 && sojimu_hear(talk, SOJIMU_HOST, &byte, 1) == 0 &&
           nothing(sojimu_pass(talk, &byte, 1, NULL, 0)) && nothing(sojimu_pass_logged(talk, NULL, 0, NULL, 0, &byte, 1)) &&
           sojimu_next_warning(talk, 0).branch == SOJIMU_BRANCHES && byte == MARK;
}

/* 9, then 21, then 16. */
static void refused(void)
{
    static uint8_t device[SOJIMU_MESSAGE], host[SOJIMU_MESSAGE];
    const struct sojimu_table table = table_of(P);
    struct sojimu_conversation talk;
    CHECK(sojimu_begin(&talk, &empty, 0, NULL, 0, NULL, 0) == SOJIMU_UNSOUND && is_none(&talk));
    CHECK(sojimu_begin(&talk, &table, 0, NULL, 0, NULL, 0) == SOJIMU_BAD_SETTING && is_none(&talk));
    CHECK(sojimu_begin(&talk, &table, 1001, device, sizeof device, host, sizeof host) == SOJIMU_BAD_SETTING && is_none(&talk));
    CHECK(sojimu_begin(&talk, &table, 1000, device, sizeof device - 1, host, sizeof host) == SOJIMU_OUTPUT_TOO_SHORT);
    CHECK(is_none(&talk));
    CHECK(sojimu_begin(&talk, &table, 1000, device, sizeof device, host, sizeof host - 1) == SOJIMU_OUTPUT_TOO_SHORT);
    CHECK(is_none(&talk));
    CHECK(sojimu_begin(&talk, &table, 1000, NULL, 0, NULL, 0) == SOJIMU_OUTPUT_TOO_SHORT && is_none(&talk));
    CHECK(sojimu_begin(&talk, &table, 1000, device, sizeof device, host, sizeof host) == 0 && talk.protocol == &table);
    CHECK(talk.ended.outcome == SOJIMU_GOES_ON && talk.state.setting == 1000 && talk.device.length == 0 && talk.host.length == 0);
}

/* No more is taken than there is room for, and nothing of what is no side. */
static void heard(void)
{
    static uint8_t device[SOJIMU_MESSAGE + 1], host[SOJIMU_MESSAGE + 9], bytes[1000];
    static const uint32_t sides[] = {2, 3, 255, 256, 257, 258, 65536, 65537, 0x80000000, 0x80000001, 0xFFFFFFFF};
    const struct sojimu_table table = table_of(P);
    struct sojimu_conversation talk;
    device[SOJIMU_MESSAGE] = MARK;
    CHECK(sojimu_begin(&talk, &table, SETTING, device, SOJIMU_MESSAGE, host, sizeof host) == 0);
    memset(bytes, 'x', sizeof bytes);
    for (size_t i = 0; i < sizeof sides / sizeof sides[0]; i++) {
        CHECK(sojimu_hear(&talk, sides[i], bytes, 1) == 0 && talk.device.length == 0 && talk.host.length == 0);
    }
    CHECK(sojimu_hear(&talk, SOJIMU_DEVICE, NULL, 0) == 0 && sojimu_hear(&talk, SOJIMU_DEVICE, bytes, 280) == 280);
    CHECK(sojimu_hear(&talk, SOJIMU_DEVICE, bytes, 1000) == 5 && sojimu_hear(&talk, SOJIMU_DEVICE, bytes, 1000) == 0);
    CHECK(talk.device.length == SOJIMU_MESSAGE && device[SOJIMU_MESSAGE - 1] == 'x' && device[SOJIMU_MESSAGE] == MARK);
    CHECK(talk.host.length == 0 && sojimu_hear(&talk, SOJIMU_HOST, bytes, 1000) == SOJIMU_MESSAGE + 9);
}

/* Twice asked and answered with every room on outputs and log: what does not fit waits, however often it is tried, and goes on
 * once there is room. An Ask has 14 bytes, its entry 15; an Ok 9 and 10. */
static bool short_of(size_t output, size_t log)
{
    const struct sojimu_table table = table_of(P);
    const struct rooms rooms = {SOJIMU_MESSAGE, output, log};
    struct sojimu_passed given = {0, 0, 0, false};
    bool right = begin(&table, rooms);
    append(&held.device.came, (const uint8_t *)ASK_7 ASK_7, 28);
    append(&held.host.came, (const uint8_t *)OK OK, 18);
    right = right && offer(SOJIMU_DEVICE) == 28 && offer(SOJIMU_HOST) == 18 && pass(&given);
    const size_t most = log == 0 ? 4 : log < 15 ? 0 : log < 25 ? 1 : log < 40 ? 2 : log < 50 ? 3 : 4;
    const size_t fits = output < 14 ? 0 : output < 28 ? 2 : 4, judged = fits < most ? fits : most;
    right = right && held.host.written.length == 14 * ((judged + 1) / 2) && held.device.written.length == 9 * (judged / 2);
    right = right && given.more == (judged < 4) && accounted(SOJIMU_DEVICE, 0) && accounted(SOJIMU_HOST, 0);
    if (output < 14 || (log > 0 && log < 15)) {
        right = right && pass(&given) && given.more && held.host.written.length == 0;
    }
    held.rooms = LOGGED;
    return right && pass_all() && held.host.written.length == 28 && held.device.written.length == 18 &&
           accounted(SOJIMU_DEVICE, 0) && accounted(SOJIMU_HOST, 0) && held.talk.state.n[0] == 2 && held.talk.state.n[1] == 2 && goes_on();
}

static void short_rooms(void)
{
    for (size_t output = 0; output <= 30; output++) {
        for (size_t log = 0; log <= 52; log++) {
            CHECK(short_of(output, log));
        }
    }
}

/* Under edition 2 nobody is early while a message waits for room; and one that is waits for its entry's. Under edition 1 it
 * waits for its turn alone. */
static void early_in_short_rooms(void)
{
    const struct sojimu_table table = table_of(EARLY_TEXT), first = table_of(P);
    const struct rooms none = {SOJIMU_MESSAGE, 0, SOJIMU_ENTRY}, small = {SOJIMU_MESSAGE, 0, 9}, enough = {SOJIMU_MESSAGE, 0, 10};
    struct sojimu_passed given;
    CHECK(begin(&first, small));
    append(&held.host.came, (const uint8_t *)OK, 9);
    CHECK(offer(SOJIMU_HOST) == 9 && pass(&given) && !given.more && goes_on() && held.talk.host.length == 9);
    CHECK(begin(&table, none));
    append(&held.device.came, (const uint8_t *)ASK_7, 14);
    append(&held.host.came, (const uint8_t *)OK, 9);
    CHECK(offer(SOJIMU_DEVICE) == 14 && offer(SOJIMU_HOST) == 9 && pass(&given) && given.more && goes_on());
    held.rooms = LOGGED;
    CHECK(pass(&given) && !given.more && goes_on() && held.log.length == 25);
    append(&held.host.came, (const uint8_t *)OK, 9);
    held.rooms = small;
    CHECK(offer(SOJIMU_HOST) == 9 && pass(&given) && given.more && goes_on() && held.talk.host.length == 9);
    held.rooms = enough;
    CHECK(pass(&given) && !given.more && held.talk.host.length == 0);
    CHECK(same_verdicts(held.talk.ended, blamed(SOJIMU_HOST, SOJIMU_EARLY, 0)));
    CHECK(held.log.length == 35 && replays(&table, &held.log) && stays());
}

int main(void)
{
    mark_all();
    scanner();
    shares();
    steambox();
    spray();
    editions();
    longest();
    finished();
    blames_of_each_reason();
    no_messages();
    early();
    damaged();
    refused();
    heard();
    short_rooms();
    early_in_short_rooms();
    return counts();
}
