/* A gateway in small: one device, one host, and the bytes that come from either. */
#include <sojimu.h>
#include <stdio.h>
#include <string.h>

static const char protocol_text[] = "rec X.+{!Ask(int[0..100])@100.&{?Ok().X},!Quit()@900.end}";
static const char device_text[] = "rec X.+{!Ask(int[0..50]).&{?Ok().X,?Busy().X}}";
static const char other_text[] = "rec X.+{!Ask(int[0..200]).&{?Ok().X}}";
static const char second_text[] = "edition 2 rec X.+{!Ask(int[0..100]).&{?Ok().X},!Quit().end}";

static const char *const names[] = {"Device", "Host"};

/* How far from its share a branch may be before the page shows it: 2.00 standard deviations. */
enum { SETTING = 200 };

/* The bytes that may wait on a side, a scan's worth, and those that are passed on together. Room for the longest message is enough
 * for either. */
enum { WAITING = 24 * SOJIMU_MESSAGE, TOGETHER = 4 * SOJIMU_MESSAGE };

/* One conversation: its state, and the bytes that wait on either side. */
struct conversation {
    struct sojimu_state state;
    uint8_t waiting[2][WAITING];
    size_t length[2];
};

/* Texts are read once, when the gateway starts. */
static bool load(const char *text, struct sojimu_table *table)
{
    const struct sojimu_reading reading = sojimu_read((const uint8_t *)text, strlen(text));
    if (reading.question != 0) {
        printf("text refused %u at %u\n", reading.question, reading.at);
        return false;
    }
    *table = reading.table;
    return true;
}

/* Before installation: does the described device fit? */
static bool fits(const struct sojimu_table *device, const struct sojimu_table *protocol)
{
    uint16_t list[SOJIMU_LIST];
    const struct sojimu_fit fit = sojimu_fit(device, protocol, list, SOJIMU_LIST);
    if (fit.outcome == SOJIMU_FITS) {
        printf("fits, %u pairs\n", fit.count);
        return true;
    }
    if (fit.outcome == SOJIMU_FIT_REFUSED) {
        printf("fit check refused %u\n", fit.question);
        return false;
    }
    printf("does not fit:");
    for (uint32_t i = 0; i < fit.count; i++)
        printf(" %d", list[i]);
    if (fit.high != SOJIMU_ALL_LOW)
        printf(", field %u high", fit.high);
    printf("\n");
    return false;
}

/* Bytes have come from a side. Takes what there is room for, and says how many that were: the others are still the caller's. */
static size_t receive(struct conversation *talk, uint32_t side, const char *bytes, size_t length)
{
    const size_t room = WAITING - talk->length[side];
    const size_t taken = length < room ? length : room;
    memcpy(talk->waiting[side] + talk->length[side], bytes, taken);
    talk->length[side] += taken;
    return taken;
}

/* Nothing more is passed on. Can it be once more bytes have come? Not behind bytes that never are a message, or a text that is no
 * UTF-8. */
static bool may_go_on(const struct sojimu_table *protocol, const struct conversation *talk, struct sojimu_verdict last)
{
    const struct sojimu_turn turn = sojimu_turn(protocol, &talk->state);
    if (turn.question != 0)
        return false;
    if ((last.outcome == SOJIMU_REFUSED && last.question == 22) ||
        sojimu_broken(talk->waiting[turn.side], talk->length[turn.side])) {
        printf("no message from %s\n", names[turn.side]);
        return false;
    }
    return true;
}

/* The first bytes of a side are used, and those that were forwarded go to the other side; here, to the log. */
static void pass_on(struct conversation *talk, uint32_t from, size_t used, const uint8_t *out, size_t written)
{
    (void)out;
    if (written > 0)
        printf("from %s: %zu bytes\n", names[from], written);
    talk->length[from] -= used;
    memmove(talk->waiting[from], talk->waiting[from] + used, talk->length[from]);
}

/* A batch of what waits, of which what was forwarded is passed on. Gives its last answer. */
static struct sojimu_verdict take(const struct sojimu_table *protocol, struct conversation *talk)
{
    uint8_t to_device[TOGETHER], to_host[TOGETHER];
    const struct sojimu_batch batch =
        sojimu_batch(protocol, &talk->state, talk->waiting[SOJIMU_DEVICE], talk->length[SOJIMU_DEVICE],
                     talk->waiting[SOJIMU_HOST], talk->length[SOJIMU_HOST], to_device, sizeof to_device, to_host, sizeof to_host);
    pass_on(talk, SOJIMU_DEVICE, batch.used_device, to_host, batch.written_to_host);
    pass_on(talk, SOJIMU_HOST, batch.used_host, to_device, batch.written_to_device);
    return batch.last;
}

/* Under edition 2 who speaks out of turn is blamed: a whole message that a batch leaves on the side whose turn it is not is put to a
 * step. Gives its verdict where it blames, else the last answer. */
static struct sojimu_verdict early(const struct sojimu_table *protocol, struct conversation *talk, struct sojimu_verdict last)
{
    const struct sojimu_turn turn = sojimu_turn(protocol, &talk->state);
    const uint32_t side = turn.side == SOJIMU_DEVICE ? SOJIMU_HOST : SOJIMU_DEVICE;
    const size_t length = sojimu_front(talk->waiting[side], talk->length[side]).length;
    uint8_t out[SOJIMU_MESSAGE];
    if (protocol->edition != 2 || turn.question != 0 || length == 0 || length > talk->length[side])
        return last;
    const struct sojimu_verdict v = sojimu_step(protocol, &talk->state, side, talk->waiting[side], length, out, sizeof out);
    return v.outcome == SOJIMU_BLAMED ? v : last;
}

/* The tender's page, after each round: which branches are picked far too often or too seldom for their shares. */
static void page(const struct sojimu_table *protocol, const struct sojimu_state *state)
{
    for (uint32_t branch = 0; branch < protocol->branches; branch++) {
        const struct sojimu_warning warning = sojimu_warning(protocol, state, branch);
        if (warning.question == 0 && warning.warns)
            printf("branch %u of %s: %u in 1000, not %u\n", branch, names[warning.sender], warning.estimate, protocol->share[branch]);
    }
}

/* Whenever bytes have come: passes on what is due. Says whether the conversation goes on. */
static bool pump(const struct sojimu_table *protocol, struct conversation *talk)
{
    struct sojimu_verdict last;
    do
        last = take(protocol, talk);
    while (last.outcome == SOJIMU_REFUSED && last.question == 16); /* an output was full, and has room again */
    last = early(protocol, talk, last);
    if (last.outcome == SOJIMU_BLAMED) {
        printf("%s blamed, reason %d\n", names[last.party], last.reason);
        return false;
    }
    page(protocol, &talk->state);
    return may_go_on(protocol, talk, last); /* which asks 9 and 10, too */
}

/* A line has bytes: takes them and passes on what is due, until all are taken. Says whether the conversation goes on. */
static bool hear(const struct sojimu_table *protocol, struct conversation *talk, uint32_t side, const char *bytes, size_t length)
{
    while (length > 0) {
        const size_t taken = receive(talk, side, bytes, length);
        if (taken == 0) {
            printf("too much from %s\n", names[side]);
            return false;
        }
        if (!pump(protocol, talk))
            return false;
        bytes += taken;
        length -= taken;
    }
    return true;
}

int main(void)
{
    struct sojimu_table protocol, device, other, second;
    if (!sojimu_matches()) {
        printf("the archive is of another version\n");
        return 1;
    }
    load("rec X.X", &protocol);
    if (!load(protocol_text, &protocol) || !load(device_text, &device) || !load(other_text, &other) || !load(second_text, &second))
        return 1;
    fits(&other, &protocol);
    if (!fits(&device, &protocol))
        return 1;
    /* The host is early, and the device's first message comes in two pieces. */
    const struct sojimu_started started = sojimu_fresh(&protocol, SETTING);
    if (started.question != 0)
        return 1;
    struct conversation talk = {.state = started.state};
    hear(&protocol, &talk, SOJIMU_HOST, "Ok\0\0\0\0\0\0\0", 9);
    hear(&protocol, &talk, SOJIMU_DEVICE, "Ask\0\0\0\0\0\1\0", 10);
    hear(&protocol, &talk, SOJIMU_DEVICE, "\0\0\0\7", 4);
    if (hear(&protocol, &talk, SOJIMU_DEVICE, "Ask\0\0\0\0\0\1\0\0\0\0\145", 14))
        return 1;
    /* A device that speaks another language. */
    struct conversation strange = {.state = started.state};
    if (hear(&protocol, &strange, SOJIMU_DEVICE, "GET / HTTP/1.1\r\n", 16))
        return 1;
    /* One that names a grade in another encoding. */
    struct conversation encoded = {.state = started.state};
    if (hear(&protocol, &encoded, SOJIMU_DEVICE, "Grade\0\0\0\1\1\0\0\0\1\344", 15))
        return 1;
    /* The second edition, under which the host may not be early. */
    struct conversation strict = {.state = sojimu_fresh(&second, SETTING).state};
    if (hear(&second, &strict, SOJIMU_HOST, "Ok\0\0\0\0\0\0\0", 9))
        return 1;
    return 0;
}
