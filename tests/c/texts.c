/* Texts through include/sojimu.h: each must be well-formed UTF-8 by itself (question 22). Every row of RFC 3629, section 4, at its
 * edges; where a step, a batch and the encoder ask it. Prints a line for each check that fails, and at the end `N passed, M failed`. */
#include "check.h"

static struct sojimu_table t;

/* A message of texts, one behind the other. */
static uint8_t message[SOJIMU_MESSAGE];

static size_t say(size_t count, const char *const *texts, const size_t *lengths)
{
    size_t at = 9 + 5 * count;
    plain(message, "Say");
    message[8] = (uint8_t)count;
    for (size_t f = 0; f < count; f++) {
        message[9 + f] = SOJIMU_KIND_TEXT;
        put_number(message + 9 + count + 4 * f, (int32_t)lengths[f]);
        memcpy(message + at, texts[f], lengths[f]);
        at += lengths[f];
    }
    return at;
}

static size_t say_one(const char *text, size_t length)
{
    return say(1, &text, &length);
}

/* What is refused of one text, which ends with its last byte: alone, and behind 1 to 60 bytes of ASCII. */
static bool refuses(uint32_t question, const char *text, size_t length)
{
    char longer[64];
    for (size_t before = 0; before + length <= sizeof longer; before++) {
        memset(longer, 'g', before);
        memcpy(longer + before, text, length);
        if (sojimu_refusal(message, say_one(longer, before + length)) != question) {
            return false;
        }
    }
    return true;
}

#define YES(text) CHECK(refuses(0, text, sizeof(text) - 1))
#define NO(text) CHECK(refuses(22, text, sizeof(text) - 1))

static void rows(void)
{
    YES(""), YES("\x00"), YES("\x7F");
    NO("\x80"), NO("\xBF"), NO("\xC0"), NO("\xC1"), NO("\xF5"), NO("\xFF");
    YES("\xC2\x80"), YES("\xC2\xBF"), YES("\xDF\x80"), YES("\xDF\xBF");
    NO("\xC0\x80"), NO("\xC1\xBF"), NO("\xC2\x7F"), NO("\xC2\xC0"), NO("\xDF\x7F"), NO("\xDF\xC0");
    YES("\xE0\xA0\x80"), YES("\xE0\xBF\xBF");
    NO("\xE0\x80\x80"), NO("\xE0\x9F\xBF"), NO("\xE0\xC0\x80"), NO("\xE0\xA0\x7F"), NO("\xE0\xA0\xC0");
    YES("\xE1\x80\x80"), YES("\xEC\xBF\xBF"), YES("\xEE\x80\x80"), YES("\xEF\xBF\xBF"), YES("\xEF\xBF\xBE"), YES("\xEF\xBB\xBF");
    NO("\xE1\x7F\x80"), NO("\xEC\xC0\x80"), NO("\xEE\x80\x7F"), NO("\xEF\xBF\xC0");
    YES("\xED\x80\x80"), YES("\xED\x9F\xBF");
    NO("\xED\xA0\x80"), NO("\xED\xBF\xBF"), NO("\xED\x7F\x80");
    YES("\xF0\x90\x80\x80"), YES("\xF0\xBF\xBF\xBF");
    NO("\xF0\x80\x80\x80"), NO("\xF0\x8F\xBF\xBF"), NO("\xF0\xC0\x80\x80");
    YES("\xF1\x80\x80\x80"), YES("\xF3\xBF\xBF\xBF"), YES("\xF4\x80\x80\x80"), YES("\xF4\x8F\xBF\xBF");
    NO("\xF1\x7F\x80\x80"), NO("\xF3\xC0\x80\x80"), NO("\xF1\x80\x80\x7F"), NO("\xF1\x80\xC0\x80");
    NO("\xF4\x90\x80\x80"), NO("\xF4\x7F\x80\x80"), NO("\xF5\x80\x80\x80");
    NO("\xC3"), NO("\xE2\x82"), NO("\xE2"), NO("\xF0\x9F\x93"), NO("\xF0\x9F"), NO("\xF0"), NO("\xE2\x82g");
}

/* Each text by itself: what one leaves out, the next does not bring. */
static void borders(void)
{
    const char *const whole[] = {"\xE2\x82\xAC", "", "\xC3\xA9", "g"}, *const cut[] = {"\xE2\x82", "\xAC", "g", "g"};
    const char *const apart[] = {"\xE2", "", "\x82\xAC", "g"};
    CHECK(sojimu_refusal(message, say(4, whole, (const size_t[]){3, 0, 2, 1})) == 0);
    CHECK(sojimu_refusal(message, say(4, cut, (const size_t[]){2, 1, 1, 1})) == 22);
    CHECK(sojimu_refusal(message, say(4, apart, (const size_t[]){1, 0, 2, 1})) == 22);
}

/* A step of the device with the message's first bytes. */
static bool steps(size_t length, size_t room, uint8_t outcome, uint8_t question, uint8_t reason)
{
    struct sojimu_state s = fresh(&t), before = s;
    mark();
    const struct sojimu_verdict v = sojimu_step(&t, &s, SOJIMU_DEVICE, message, length, out, room);
    const bool same = outcome != SOJIMU_REFUSED || (same_states(&s, &before) && opens(NULL, 0));
    return v.outcome == outcome && v.question == question && v.reason == reason && same;
}

/* 22 comes after 15, before 16, and before the judgement. The protocol has a text of at most 3 bytes. */
static void order(void)
{
    const size_t whole = say_one("\xE2\x82\xAC", 3);
    CHECK(steps(whole, ROOM, SOJIMU_FORWARDED, 0, 0));
    CHECK(steps(whole, whole - 1, SOJIMU_REFUSED, 16, 0));
    const size_t broken = say_one("\xE2\x82g", 3);
    CHECK(steps(broken, ROOM, SOJIMU_REFUSED, 22, 0));
    CHECK(steps(broken, 0, SOJIMU_REFUSED, 22, 0));
    CHECK(steps(broken - 1, ROOM, SOJIMU_REFUSED, 15, 0));
    CHECK(steps(say_one("ggg\xFF", 4), ROOM, SOJIMU_REFUSED, 22, 0));
    CHECK(steps(say_one("gggg", 4), ROOM, SOJIMU_BLAMED, 0, SOJIMU_OUT_OF_RANGE));
    const size_t unknown = say_one("\xFF", 1);
    message[0] = 'B';
    CHECK(steps(unknown, ROOM, SOJIMU_REFUSED, 22, 0));
}

/* A broken text is due, and every batch stops there, whatever comes behind it and whatever is lent. */
static void batches(void)
{
    uint8_t waiting[4 * SOJIMU_MESSAGE];
    size_t length = say_one("\xC3\xA9", 2);
    memcpy(waiting, message, length);
    struct sojimu_state s = fresh(&t);
    struct sojimu_batch b = sojimu_batch(&t, &s, waiting, length, NULL, 0, NULL, 0, out, ROOM);
    CHECK(b.used_device == length && b.last.outcome == SOJIMU_FORWARDED);
    length = say_one("\xC3", 1);
    for (size_t behind = 0; behind < 3; behind++) {
        const struct sojimu_state before = s;
        memcpy(waiting + behind * length, message, length);
        CHECK(sojimu_due(&t, &s, waiting, length * (behind + 1), NULL, 0).length == length);
        mark();
        b = sojimu_batch(&t, &s, waiting, length * (behind + 1), NULL, 0, NULL, 0, out, behind * ROOM / 2);
        CHECK(b.used_device == 0 && b.written_to_host == 0 && b.last.outcome == SOJIMU_REFUSED && b.last.question == 22);
        CHECK(same_states(&s, &before) && opens(NULL, 0));
        CHECK(sojimu_front(waiting, length).length == length && !sojimu_broken(waiting, length));
    }
}

/* The encoder asks 22 before 16, and nothing is written. */
static void encoder(void)
{
    struct sojimu_field fields[2] = {sojimu_text("\xC3", 1), sojimu_text("\xA9", 1)};
    mark();
    CHECK(sojimu_encode(sojimu_label("Say"), fields, 2, out, ROOM).question == 22 && opens(NULL, 0));
    CHECK(sojimu_encode(sojimu_label("Say"), fields, 2, NULL, 0).question == 22);
    fields[0] = sojimu_text("\xC3\xA9", 2);
    CHECK(sojimu_encode(sojimu_label("Say"), fields, 1, out, 15).question == 16 && opens(NULL, 0));
    CHECK(sojimu_encode(sojimu_label("Say"), fields, 1, out, 16).length == 16);
    CHECK(opens((const uint8_t *)"Say\0\0\0\0\0\1\1\0\0\0\2\xC3\xA9", 16));
}

int main(void)
{
    t = table_of("rec X.+{!Say(text[0..3]).X}");
    rows();
    borders();
    order();
    batches();
    encoder();
    return counts();
}
