/* Editions through include/sojimu.h: how a text opens, question 9, and a message out of turn, for which its sender is blamed under
 * edition 2, after every question and ahead of every other reason. Prints a line for each check that fails, and at the end `N passed,
 * M failed`. */
#include "check.h"

static struct sojimu_table one, two;

/* ---- texts and tables */

/* The text is read, and of this edition. */
static bool edition_is(const char *text, uint32_t edition)
{
    const struct sojimu_reading r = read_text(text);
    return r.question == 0 && r.at == 0 && r.table.edition == edition && r.table.reserved == 0 && sojimu_sound(&r.table);
}

static bool refused_at(const char *text, uint32_t question, uint32_t at)
{
    const struct sojimu_reading r = read_text(text);
    return r.question == question && r.at == at && same_tables(&r.table, &empty);
}

static void openings(void)
{
    CHECK(edition_is("end", 1) && edition_is("edition 1 end", 1) && edition_is("edition 2 end", 2));
    CHECK(edition_is("edition 2end", 2) && edition_is("edition 1rec X.+{!A().X}", 1) && edition_is("\n edition\n2 \n+{!A().end}", 2));
    CHECK(refused_at("edition1 end", 2, 0) && refused_at("edition 02 end", 2, 8) && refused_at("edition -0 end", 2, 8));
    CHECK(refused_at("edition end", 3, 8) && refused_at("edition edition 2 end", 3, 8) && refused_at("edition", 3, 7));
    CHECK(refused_at("edition 2", 3, 9) && refused_at("edition 2 edition 2 end", 3, 10) && refused_at("end edition 2", 3, 4));
    CHECK(refused_at("rec X.edition 2 end", 3, 6) && refused_at("2 end", 3, 0) && refused_at("edition 2.end", 3, 9));
    CHECK(refused_at("edition 0 end", 23, 8) && refused_at("edition 3 end", 23, 8) && refused_at("edition 12 end", 23, 8));
    CHECK(refused_at("edition -1 end", 23, 8) && refused_at("edition 4294967297 end", 23, 8));
    CHECK(refused_at("edition 18446744073709551618 end", 23, 8) && refused_at("edition 3 rec X.X", 23, 8));
    CHECK(refused_at("Edition 2 end", 4, 0) && refused_at("edition 2 X", 4, 10) && refused_at("edition 2 rec X.X", 5, 16));
}

/* Texts of 8,192 bytes and of one more. */
static void longest(void)
{
    static uint8_t text[SOJIMU_TEXT + 1];
    memset(text, ' ', sizeof text);
    memcpy(text, "edition 2 end", 13);
    struct sojimu_reading r = sojimu_read(text, SOJIMU_TEXT);
    CHECK(r.question == 0 && r.table.edition == 2);
    r = sojimu_read(text, SOJIMU_TEXT + 1);
    CHECK(r.question == 1 && r.at == 0 && same_tables(&r.table, &empty));
    memset(text + 8, '2', SOJIMU_TEXT - 8);
    r = sojimu_read(text, SOJIMU_TEXT);
    CHECK(r.question == 23 && r.at == 8 && same_tables(&r.table, &empty));
}

/* But for its edition a table is the same; the dual keeps it; 9 asks that it is 1 or 2. */
static void tables(void)
{
    static const uint32_t others[] = {0, 3, 256, 257, 258, 65537, 0x80000002, 0xFFFFFFFF};
    struct sojimu_table t = two;
    t.edition = 1;
    CHECK(one.edition == 1 && two.edition == 2 && same_tables(&t, &one));
    const struct sojimu_turned d = sojimu_dual(&two), dd = sojimu_dual(&d.table);
    CHECK(d.question == 0 && d.table.edition == 2 && d.table.sort[0] == SOJIMU_RECEIVES && same_tables(&dd.table, &two));
    for (size_t i = 0; i < sizeof others / sizeof others[0]; i++) {
        t.edition = others[i];
        CHECK(!sojimu_sound(&t) && !sojimu_sound_at(&t, 0) && sojimu_fresh(&t, SETTING).question == 9);
        const struct sojimu_turned no = sojimu_dual(&t);
        CHECK(no.question == 9 && same_tables(&no.table, &empty));
        CHECK(sojimu_fit(&t, &one, list, SOJIMU_LIST).question == 9 && sojimu_fit(&one, &t, list, SOJIMU_LIST).question == 9);
    }
}

/* ---- steps */

/* A step from a state: the verdict's codes, and the standing after it. The position stays, as does the output. */
static bool stays(const struct sojimu_table *t, struct sojimu_state s, uint32_t side, const uint8_t *message, size_t n, size_t room,
                  const uint8_t verdict[5], uint8_t standing)
{
    struct sojimu_state after = s;
    mark();
    const struct sojimu_verdict v = sojimu_step(t, &after, side, message, n, room == 0 ? NULL : out, room);
    s.standing = standing;
    return memcmp(&v, verdict, 5) == 0 && same_states(&after, &s) && opens(NULL, 0);
}

static bool refuses(const struct sojimu_table *t, struct sojimu_state s, uint32_t side, const uint8_t *message, size_t n,
                    size_t room, uint8_t question)
{
    const uint8_t verdict[5] = {SOJIMU_REFUSED, question, 0, 0, 0};
    return stays(t, s, side, message, n, room, verdict, s.standing);
}

/* Under edition 2 the sender is blamed for it, reason 4; under edition 1 it is 12. */
static bool is_early(struct sojimu_state s, uint32_t side, const uint8_t *message, size_t n)
{
    const uint8_t early[5] = {SOJIMU_BLAMED, 0, (uint8_t)side, SOJIMU_EARLY, 0};
    const uint8_t standing = side == SOJIMU_DEVICE ? SOJIMU_DEVICE_BLAMED : SOJIMU_HOST_BLAMED;
    return stays(&two, s, side, message, n, n, early, standing) && refuses(&one, s, side, message, n, n, 12) &&
           refuses(&one, s, side, message, n, 0, 12);
}

static const struct sojimu_state START = STATE(0, SOJIMU_RUNNING), ANSWER = STATE(1, SOJIMU_RUNNING), ENDED = STATE(2, SOJIMU_RUNNING);

static void early(void)
{
    uint8_t ok[9], quit[9], no[9], bare[9], m[14];
    plain(ok, "Ok");
    plain(quit, "Quit");
    plain(no, "No");
    plain(bare, "Ask");
    CHECK(is_early(START, SOJIMU_HOST, ok, sizeof ok));
    CHECK(is_early(ANSWER, SOJIMU_DEVICE, ASK_100, sizeof ASK_100));
    /* what the other side may say; reasons 1, 2 and 3 */
    CHECK(is_early(START, SOJIMU_HOST, ASK_100, sizeof ASK_100) && is_early(START, SOJIMU_HOST, quit, sizeof quit));
    CHECK(is_early(ANSWER, SOJIMU_DEVICE, ok, sizeof ok));
    CHECK(is_early(START, SOJIMU_HOST, no, sizeof no) && is_early(ANSWER, SOJIMU_DEVICE, no, sizeof no));
    CHECK(is_early(START, SOJIMU_HOST, bare, sizeof bare));
    CHECK(is_early(START, SOJIMU_HOST, m, with_number(m, "Ask", SOJIMU_KIND_INT, 101)));
    CHECK(is_early(ANSWER, SOJIMU_DEVICE, m, with_number(m, "Ok", SOJIMU_KIND_FLAG, 1)));
    /* for ever */
    struct sojimu_state s = fresh(&two);
    CHECK(sojimu_step(&two, &s, SOJIMU_HOST, ok, sizeof ok, out, ROOM).reason == SOJIMU_EARLY);
    CHECK(s.standing == SOJIMU_HOST_BLAMED && sojimu_turn(&two, &s).question == 10);
    CHECK(refuses(&two, s, SOJIMU_DEVICE, ASK_100, sizeof ASK_100, ROOM, 10) && refuses(&two, s, SOJIMU_HOST, ok, 9, ROOM, 10));
}

/* Every question comes before it. */
static void questions(void)
{
    uint8_t m[32];
    const struct sojimu_state beyond = STATE(3, SOJIMU_RUNNING), blamed = STATE(0, SOJIMU_DEVICE_BLAMED), unknown = STATE(1, 200);
    struct sojimu_state uncounted = START;
    uncounted.n[0] = 1;
    const size_t n = plain(m, "Ok");
    m[n] = 0;
    CHECK(refuses(&two, beyond, SOJIMU_HOST, m, n, ROOM, 9) && refuses(&two, uncounted, SOJIMU_HOST, m, n, ROOM, 9));
    CHECK(refuses(&two, blamed, SOJIMU_HOST, m, n, ROOM, 10) && refuses(&two, unknown, SOJIMU_DEVICE, m, n, ROOM, 10));
    CHECK(refuses(&two, ENDED, SOJIMU_HOST, m, n, ROOM, 11) && refuses(&two, ENDED, SOJIMU_DEVICE, m, n, ROOM, 11));
    CHECK(refuses(&two, START, SOJIMU_HOST, NULL, 0, 0, 13) && refuses(&two, START, SOJIMU_HOST, m, n - 1, ROOM, 13));
    CHECK(refuses(&two, START, SOJIMU_HOST, m, n + 1, 0, 15));
    CHECK(refuses(&two, START, SOJIMU_HOST, m, n, 0, 16) && refuses(&two, START, SOJIMU_HOST, m, n, n - 1, 16));
    CHECK(refuses(&two, ANSWER, SOJIMU_DEVICE, m, with_number(m, "Ask", 3, 0), 0, 14));
    const size_t text = with_number(m, "Say", SOJIMU_KIND_TEXT, 1);
    m[text] = 0xFF;
    CHECK(refuses(&two, ANSWER, SOJIMU_DEVICE, m, text + 1, 0, 22) && refuses(&two, START, SOJIMU_HOST, m, text + 1, ROOM, 22));
    m[text] = 'g';
    CHECK(is_early(ANSWER, SOJIMU_DEVICE, m, text + 1));
}

/* A number that is no side's is refused by 12 under either edition, after 9, 10 and 11, and blames nobody. */
static void no_side(void)
{
    static const uint32_t sides[] = {2, 3, 255, 256, 257, 65536, 65537, 0x80000000, 0xFFFFFFFF};
    const struct sojimu_state beyond = STATE(3, SOJIMU_RUNNING), blamed = STATE(0, SOJIMU_HOST_BLAMED);
    for (size_t i = 0; i < sizeof sides / sizeof sides[0]; i++) {
        CHECK(refuses(&two, START, sides[i], ASK_100, sizeof ASK_100, ROOM, 12));
        CHECK(refuses(&two, ANSWER, sides[i], ASK_100, sizeof ASK_100, ROOM, 12) && refuses(&two, ANSWER, sides[i], NULL, 0, 0, 12));
        CHECK(refuses(&two, ENDED, sides[i], NULL, 0, 0, 11) && refuses(&two, blamed, sides[i], NULL, 0, 0, 10));
        CHECK(refuses(&two, beyond, sides[i], NULL, 0, 0, 9) && refuses(&one, START, sides[i], NULL, 0, 0, 12));
    }
}

/* In turn all is as under edition 1: a thousand rounds, with a step out of turn of a copy of the state after each message. */
static void in_turn(void)
{
    struct sojimu_state s = fresh(&two), t = fresh(&one);
    uint8_t ok[9], ask[14];
    plain(ok, "Ok");
    for (int32_t i = 0; i < 1000; i++) {
        const size_t n = with_number(ask, "Ask", SOJIMU_KIND_INT, i % 101);
        const struct sojimu_verdict v = sojimu_step(&two, &s, SOJIMU_DEVICE, ask, n, out, ROOM);
        CHECK(v.outcome == SOJIMU_FORWARDED && sojimu_step(&one, &t, SOJIMU_DEVICE, ask, n, out, ROOM).outcome == SOJIMU_FORWARDED);
        CHECK(same_states(&s, &t) && is_early(s, SOJIMU_DEVICE, ask, n));
        CHECK(sojimu_step(&two, &s, SOJIMU_HOST, ok, 9, out, ROOM).outcome == SOJIMU_FORWARDED);
        CHECK(sojimu_step(&one, &t, SOJIMU_HOST, ok, 9, out, ROOM).outcome == SOJIMU_FORWARDED);
        CHECK(same_states(&s, &t) && is_early(s, SOJIMU_HOST, ok, 9));
    }
    const struct sojimu_verdict v = sojimu_step(&two, &s, SOJIMU_DEVICE, ask, with_number(ask, "Ask", 0, 101), out, ROOM);
    CHECK(v.outcome == SOJIMU_BLAMED && v.party == SOJIMU_DEVICE && v.reason == SOJIMU_OUT_OF_RANGE && v.field == 0);
}

/* What is early is not due: it waits, and a batch blames nobody for it. */
static void waiting(void)
{
    uint8_t host[18], to_device[18];
    struct sojimu_state s = fresh(&two);
    plain(host, "Ok");
    plain(host + 9, "Ok");
    CHECK(sojimu_due(&two, &s, NULL, 0, host, 18).length == 0 && sojimu_due(&two, &ANSWER, ASK_100, 14, NULL, 0).length == 0);
    struct sojimu_batch b = sojimu_batch(&two, &s, NULL, 0, host, 18, to_device, 18, out, ROOM);
    CHECK(b.used_host == 0 && b.last.outcome == SOJIMU_NONE_DUE && same_states(&s, &START));
    b = sojimu_batch(&two, &s, ASK_100, sizeof ASK_100, host, 18, to_device, 18, out, ROOM);
    CHECK(b.used_device == 14 && b.written_to_host == 14 && b.used_host == 9 && b.written_to_device == 9);
    CHECK(b.last.outcome == SOJIMU_FORWARDED && s.position == 0 && s.standing == SOJIMU_RUNNING);
    CHECK(is_early(s, SOJIMU_HOST, host + 9, 9));
}

/* ---- the fit check */

/* It looks at the protocol's edition only, and the answer is the same under both. */
static void fits(void)
{
    const char *const device[] = {"+{!Ask(int[0..101]).&{?Ok().end}}", "edition 2 +{!Ask(int[0..101]).&{?Ok().end}}"};
    const struct sojimu_table *const protocols[] = {&one, &two};
    for (size_t i = 0; i < 4; i++) {
        const struct sojimu_table *const p = protocols[i / 2], wide = table_of(device[i % 2]);
        mark_list();
        struct sojimu_fit f = sojimu_fit(protocols[i % 2], p, list, 9);
        CHECK(f.outcome == SOJIMU_FITS && f.count == 3 && marked_from(0));
        f = sojimu_fit(&wide, p, list, 9);
        CHECK(f.outcome == SOJIMU_FAILS && f.count == 1 && f.high == 0 && list[0] == 0 && marked_from(1));
    }
    static const char report[] = "device refused 23 at 8\n";
    uint8_t page[64];
    CHECK(sojimu_report((const uint8_t *)P, strlen(P), (const uint8_t *)"edition 3 end", 13, page, 64) == strlen(report));
    CHECK(memcmp(page, report, strlen(report)) == 0);
}

int main(void)
{
    char text[80] = "edition 2 ";
    strcat(text, P);
    one = table_of(P);
    two = table_of(text);
    openings();
    longest();
    tables();
    early();
    questions();
    no_side();
    in_turn();
    waiting();
    fits();
    return counts();
}
