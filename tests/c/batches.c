/* The batch through include/sojimu.h: every way in which it can end, every lent byte after it, and that it does what single calls
 * do. Prints a line for each check that fails, and at the end `N passed, M failed`. */
#include "check.h"

enum { LONG = 2400 };

static struct sojimu_table p;

/* What waits, and two outputs: all of the first `room` bytes are lent. */
struct line {
    uint8_t waiting[LONG], output[LONG];
    size_t length, room;
};

static struct line device, host;

/* Nothing waits, and there is room for all. */
static void quiet(void)
{
    memset(device.output, MARK, LONG);
    memset(host.output, MARK, LONG);
    device.length = host.length = 0;
    device.room = host.room = LONG;
}

static void ask(int32_t number)
{
    device.length += with_number(device.waiting + device.length, "Ask", SOJIMU_KIND_INT, number);
}

static void say(struct line *from, const char *label)
{
    from->length += plain(from->waiting + from->length, label);
}

static struct sojimu_batch batch(struct sojimu_state *s)
{
    return sojimu_batch(&p, s, device.waiting, device.length, host.waiting, host.length, device.output, device.room, host.output,
                        host.room);
}

/* The first `written` bytes of the output are the sender's first, and all others have their marks. */
static bool passed_on(const struct line *from, const struct line *to, size_t written)
{
    for (size_t i = 0; i < LONG; i++) {
        if (to->output[i] != (i < written ? from->waiting[i] : MARK)) {
            return false;
        }
    }
    return true;
}

/* A batch uses and passes on so many bytes of the device's and of the host's, answers this last, and leaves this state. */
static bool gives(struct sojimu_state s, const size_t counts[4], const uint8_t last[5], uint8_t position, uint8_t standing)
{
    const struct sojimu_batch b = batch(&s);
    return b.used_device == counts[0] && b.written_to_host == counts[1] && b.used_host == counts[2] &&
           b.written_to_device == counts[3] && memcmp(&b.last, last, 5) == 0 && memcmp(b.reserved, "\0\0\0", 3) == 0 &&
           s.position == position && s.standing == standing && passed_on(&device, &host, counts[1]) &&
           passed_on(&host, &device, counts[3]);
}

#define COUNTS(...) ((const size_t[4]){__VA_ARGS__})
#define LAST(...) ((const uint8_t[5]){__VA_ARGS__})

static const uint8_t NONE_DUE[5] = {SOJIMU_NONE_DUE, 0, 0, 0, 0}, FORWARDED[5] = {SOJIMU_FORWARDED, 0, 0, 0, 0};
static const uint8_t FULL[5] = {SOJIMU_REFUSED, 16, 0, 0, 0};

static const struct sojimu_state START = STATE(0, SOJIMU_RUNNING), ENDED = STATE(2, SOJIMU_RUNNING);

/* Nothing is due, at first or after some. An Ask has 14 bytes, an Ok and a Quit 9. */
static void none_due(void)
{
    quiet();
    CHECK(gives(START, COUNTS(0, 0, 0, 0), NONE_DUE, 0, SOJIMU_RUNNING));
    say(&host, "Ok");
    CHECK(gives(START, COUNTS(0, 0, 0, 0), NONE_DUE, 0, SOJIMU_RUNNING));
    ask(7);
    device.length--;
    CHECK(gives(START, COUNTS(0, 0, 0, 0), NONE_DUE, 0, SOJIMU_RUNNING));
    device.length++;
    CHECK(gives(START, COUNTS(14, 14, 9, 9), FORWARDED, 0, SOJIMU_RUNNING));
    quiet();
    ask(7);
    ask(8);
    CHECK(gives(START, COUNTS(14, 14, 0, 0), FORWARDED, 1, SOJIMU_RUNNING));
    quiet();
    say(&device, "Quit");
    ask(7);
    say(&host, "Ok");
    CHECK(gives(START, COUNTS(9, 9, 0, 0), FORWARDED, 2, SOJIMU_RUNNING));
    quiet();
    ask(7);
    say(&host, "Ok");
    CHECK(gives(ENDED, COUNTS(0, 0, 0, 0), NONE_DUE, 2, SOJIMU_RUNNING));
    device.waiting[0] = 'a';
    CHECK(gives(START, COUNTS(0, 0, 0, 0), NONE_DUE, 0, SOJIMU_RUNNING));
}

/* The bytes of a blamed message are used and not passed on, and nothing behind it is taken. */
static void blamed(void)
{
    quiet();
    ask(7);
    ask(101);
    ask(8);
    say(&host, "Ok");
    say(&host, "Ok");
    CHECK(gives(START, COUNTS(28, 14, 9, 9), LAST(SOJIMU_BLAMED, 0, SOJIMU_DEVICE, SOJIMU_OUT_OF_RANGE, 0), 0,
                SOJIMU_DEVICE_BLAMED));
    quiet();
    ask(7);
    say(&host, "No");
    say(&host, "Ok");
    CHECK(gives(START, COUNTS(14, 14, 9, 0), LAST(SOJIMU_BLAMED, 0, SOJIMU_HOST, SOJIMU_NO_LABEL, 0), 1, SOJIMU_HOST_BLAMED));
    quiet();
    device.length = with_number(device.waiting, "Quit", SOJIMU_KIND_FLAG, 1);
    CHECK(gives(START, COUNTS(14, 0, 0, 0), LAST(SOJIMU_BLAMED, 0, SOJIMU_DEVICE, SOJIMU_OTHER_KINDS, 0), 0,
                SOJIMU_DEVICE_BLAMED));
    device.room = host.room = 0;
    CHECK(gives(START, COUNTS(0, 0, 0, 0), FULL, 0, SOJIMU_RUNNING));
}

/* Three times asked and answered, then Quit, with every room on either output: what does not fit stops the batch, and nothing
 * before it is undone. */
static void short_outputs(void)
{
    quiet();
    for (int i = 0; i < 3; i++) {
        ask(i);
        say(&host, "Ok");
    }
    say(&device, "Quit");
    for (size_t to_host = 0; to_host <= 51; to_host++) {
        for (size_t to_device = 0; to_device <= 27; to_device++) {
            const size_t asks = to_host / 14 < 3 ? to_host / 14 : 3, oks = to_device / 9;
            const size_t sent = asks <= oks ? asks : oks + 1, answered = asks <= oks ? asks : oks;
            const bool quits = asks == 3 && oks == 3 && to_host == 51;
            const size_t used = 14 * sent + (quits ? 9 : 0);
            memset(device.output, MARK, LONG);
            memset(host.output, MARK, LONG);
            host.room = to_host;
            device.room = to_device;
            CHECK(gives(START, COUNTS(used, used, 9 * answered, 9 * answered), quits ? FORWARDED : FULL,
                        quits ? 2 : sent == answered ? 0 : 1, SOJIMU_RUNNING));
        }
    }
}

/* A batch that 9 or 10 refuses changes nothing, an unknown standing included. */
static void refused(void)
{
    quiet();
    ask(7);
    say(&host, "Ok");
    for (unsigned position = 0; position < 256; position = 2 * position + 1) {
        for (unsigned standing = 0; standing < 256; standing++) {
            const struct sojimu_state s = STATE((uint8_t)position, (uint8_t)standing);
            const uint8_t question = position > 2 ? 9 : 10;
            if (position > 2 || standing != SOJIMU_RUNNING) {
                CHECK(gives(s, COUNTS(0, 0, 0, 0), LAST(SOJIMU_REFUSED, question, 0, 0, 0), s.position, s.standing));
            }
        }
    }
}

/* What single calls come to, over the same bytes. */
static struct sojimu_batch singly(struct sojimu_state *s, uint8_t *to_device, uint8_t *to_host)
{
    struct sojimu_batch b = {0, 0, 0, 0, {SOJIMU_NONE_DUE, 0, 0, 0, 0}, {0, 0, 0}};
    do {
        const struct sojimu_due due = sojimu_due(&p, s, device.waiting + b.used_device, device.length - b.used_device,
                                                 host.waiting + b.used_host, host.length - b.used_host);
        const bool is_device = due.side == SOJIMU_DEVICE;
        size_t *const used = is_device ? &b.used_device : &b.used_host;
        size_t *const written = is_device ? &b.written_to_host : &b.written_to_device;
        const uint8_t *const message = (is_device ? device.waiting : host.waiting) + *used;
        if (due.length == 0) {
            break;
        }
        b.last = sojimu_step(&p, s, due.side, message, due.length, (is_device ? to_host : to_device) + *written,
                             (is_device ? host.room : device.room) - *written);
        *used += b.last.outcome == SOJIMU_REFUSED ? 0 : due.length;
        *written += b.last.outcome == SOJIMU_FORWARDED ? due.length : 0;
    } while (b.last.outcome == SOJIMU_FORWARDED);
    return b;
}

/* The batch of what waits, and single calls: the same answer, state and outputs. */
static bool same_singly(void)
{
    static uint8_t to_device[LONG], to_host[LONG];
    struct sojimu_state one = START, other = START;
    memset(device.output, MARK, LONG);
    memset(host.output, MARK, LONG);
    memset(to_device, MARK, LONG);
    memset(to_host, MARK, LONG);
    const struct sojimu_batch b = batch(&one), c = singly(&other, to_device, to_host);
    return memcmp(&b, &c, sizeof b) == 0 && memcmp(&one, &other, sizeof one) == 0 &&
           memcmp(device.output, to_device, LONG) == 0 && memcmp(host.output, to_host, LONG) == 0;
}

/* Three hundred messages, then with each of them spoilt in some way, and with each byte of the last ones missing. */
static void scan(void)
{
    quiet();
    for (int i = 0; i < 150; i++) {
        ask(i % 101);
        say(&host, "Ok");
    }
    CHECK(gives(START, COUNTS(2100, 2100, 1350, 1350), FORWARDED, 0, SOJIMU_RUNNING) && same_singly());
    for (size_t i = 0; i < 150; i++) {
        uint8_t *const asked = device.waiting + 14 * i, *const answered = host.waiting + 9 * i;
        for (unsigned bit = 0; bit < 8; bit++) {
            asked[9 + i % 5] ^= (uint8_t)(1 << bit);
            CHECK(same_singly());
            asked[9 + i % 5] ^= (uint8_t)(1 << bit);
            answered[i % 9] ^= (uint8_t)(1 << bit);
            CHECK(same_singly());
            answered[i % 9] ^= (uint8_t)(1 << bit);
        }
    }
    for (size_t cut = 0; cut < 60; cut++) {
        device.length = 2100 - cut;
        host.length = 1350 - cut / 2;
        CHECK(same_singly());
    }
}

int main(void)
{
    p = table_of(P);
    none_due();
    blamed();
    short_outputs();
    refused();
    scan();
    return counts();
}
