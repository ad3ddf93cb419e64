/* Calls the library through include/sojimu.h, as a gateway in C does: document 01's examples, every refusal that a call can give,
 * and every lent byte after it. Prints a line for each check that fails, and at the end `N passed, M failed`. */
#include "check.h"

/* ---- texts, tables, messages */

/* The text is refused: this question, this place, the empty table. */
static bool refused_at(const char *text, uint32_t question, uint32_t at)
{
    const struct sojimu_reading r = read_text(text);
    return r.question == question && r.at == at && same_tables(&r.table, &empty);
}

/* ---- texts and tables */

static void texts(void)
{
    static uint8_t long_text[SOJIMU_TEXT + 1];
    const struct sojimu_table end = table_of("end");
    CHECK(end.states == 1 && end.branches == 0 && end.sort[0] == SOJIMU_ENDS);
    CHECK(refused_at("", 3, 0));
    CHECK(refused_at("rec X.X", 5, 6));
    CHECK(refused_at("+{!A().X}", 4, 7));
    CHECK(refused_at("+{!A().end,!A().end}", 7, 12));
    CHECK(refused_at("+{!A(int[5..4]).end}", 6, 12));
    CHECK(read_text("+{!A(int[5..5]).end}").question == 0);
    CHECK(refused_at("+{!A().rec X.&{?B().X},!C().X}", 4, 28));
    CHECK(refused_at("  +{!a", 2, 5));
    CHECK(refused_at("+{!A(flag[0..1],flag[0..1],flag[0..1],flag[0..1],flag[0..1]).end}", 8, 49));

    /* a name after the dot of a rec */
    const struct sojimu_table named = table_of("rec Y.+{!A().rec X.Y}"), plain_name = table_of("rec Y.+{!A().Y}");
    CHECK(named.states == 1 && named.branches == 1 && named.target[0] == 0 && same_tables(&named, &plain_name));
    const struct sojimu_table inner = table_of("rec X.+{!A().rec X.+{!B().rec Z.X}}");
    CHECK(inner.states == 2 && inner.branches == 2 && inner.target[0] == 1 && inner.target[1] == 1);
    CHECK(refused_at("rec X.rec Y.X", 5, 12));
    CHECK(refused_at("rec X.+{!A().rec X.X}", 5, 19));
    CHECK(refused_at("+{!A().rec X.Y}", 4, 13));

    memset(long_text, ' ', sizeof long_text);
    memcpy(long_text, "end", 3);
    struct sojimu_reading r = sojimu_read(long_text, SOJIMU_TEXT);
    CHECK(r.question == 0 && same_tables(&r.table, &end));
    r = sojimu_read(long_text, SOJIMU_TEXT + 1);
    CHECK(r.question == 1 && r.at == 0 && same_tables(&r.table, &empty));
}

static void tables(void)
{
    struct sojimu_table p = table_of(P);
    const uint64_t ask = UINT64_C(0x41736B0000000000);
    CHECK(p.states == 3 && p.branches == 3);
    CHECK(p.sort[0] == SOJIMU_SENDS && p.sort[1] == SOJIMU_RECEIVES && p.sort[2] == SOJIMU_ENDS);
    CHECK(p.owner[0] == 0 && p.owner[1] == 1 && p.owner[2] == 0);
    CHECK(p.target[0] == 1 && p.target[1] == 0 && p.target[2] == 2);
    CHECK(p.fields[0] == 1 && p.fields[1] == 0 && p.fields[2] == 0);
    CHECK(p.label_high[0] == UINT32_C(0x41736B00) && p.label_low[0] == 0);
    CHECK(p.kind[0] == SOJIMU_KIND_INT && p.low[0] == SOJIMU_ORIGIN && p.high[0] == SOJIMU_ORIGIN + 100);

    const struct sojimu_turned d = sojimu_dual(&p);
    CHECK(d.question == 0 && d.table.sort[0] == SOJIMU_RECEIVES && d.table.sort[1] == SOJIMU_SENDS);
    const struct sojimu_turned dd = sojimu_dual(&d.table);
    CHECK(dd.question == 0 && same_tables(&dd.table, &p));

    CHECK(!sojimu_sound(&empty));
    const struct sojimu_table none = sojimu_empty();
    CHECK(same_tables(&none, &empty));
    CHECK(sojimu_sound_at(&p, 0) && sojimu_sound_at(&p, 2) && !sojimu_sound_at(&p, 3) && !sojimu_sound_at(&empty, 0));
    p.target[2] = 3;
    CHECK(!sojimu_sound_at(&p, 0));
    CHECK(!sojimu_sound(&p));
    const struct sojimu_turned no = sojimu_dual(&p);
    CHECK(no.question == 9 && same_tables(&no.table, &empty));

    CHECK(sojimu_label_legal(ask) && !sojimu_label_legal(0) && !sojimu_label_legal(ask >> 8));
    CHECK(sojimu_range_legal(SOJIMU_KIND_INT, 0, UINT32_MAX) && !sojimu_range_legal(SOJIMU_KIND_INT, 1, 0));
    CHECK(sojimu_range_legal(SOJIMU_KIND_TEXT, SOJIMU_ORIGIN, SOJIMU_ORIGIN + 64));
    CHECK(!sojimu_range_legal(SOJIMU_KIND_TEXT, SOJIMU_ORIGIN, SOJIMU_ORIGIN + 65));
    CHECK(!sojimu_range_legal(SOJIMU_KIND_FLAG, SOJIMU_ORIGIN, SOJIMU_ORIGIN + 2));
    CHECK(!sojimu_range_legal(3, SOJIMU_ORIGIN, SOJIMU_ORIGIN));
}

/* ---- messages */

static void questions(void)
{
    uint8_t m[32];
    size_t n = with_number(m, "Ask", SOJIMU_KIND_INT, 100);
    CHECK(n == sizeof ASK_100 && memcmp(m, ASK_100, n) == 0);
    CHECK(sojimu_refusal(m, n) == 0);
    CHECK(sojimu_refusal(m, 8) == 13 && sojimu_refusal(m, n - 1) == 13 && sojimu_refusal(m, n + 1) == 15);
    CHECK(sojimu_front(m, n).question == 0 && sojimu_front(m, n).length == n);
    CHECK(sojimu_front(m, n + 5).question == 0 && sojimu_front(m, n + 5).length == n);
    CHECK(sojimu_front(m, 13).question == 13 && sojimu_front(m, 13).length == 0);
    CHECK(sojimu_has_label(m, n, UINT64_C(0x41736B0000000000)));
    CHECK(!sojimu_has_label(m, n, UINT64_C(0x41736B0000000001)) && !sojimu_has_label(m, 7, UINT64_C(0x41736B0000000000)));

    n = with_number(m, "Ask", 3, 0);
    CHECK(sojimu_refusal(m, n) == 14 && sojimu_front(m, n).question == 14 && sojimu_front(m, n).length == 0);
    n = with_number(m, "Ask", SOJIMU_KIND_FLAG, 2);
    CHECK(sojimu_refusal(m, n) == 14);
    n = with_number(m, "Say", SOJIMU_KIND_TEXT, 3);
    CHECK(sojimu_refusal(m, n) == 15 && sojimu_front(m, n).length == n + 3);
    memcpy(m + n, "\xE2\x82\xAC", 3);
    CHECK(sojimu_refusal(m, n + 3) == 0);
    m[n] = 0xAC;
    CHECK(sojimu_refusal(m, n + 3) == 22);
    with_number(m, "ask", SOJIMU_KIND_INT, 0);
    CHECK(sojimu_refusal(m, 14) == 13);
}

static bool unmade(struct sojimu_made made, uint32_t question)
{
    return made.question == question && made.length == 0 && opens(NULL, 0);
}

static void making(void)
{
    struct sojimu_table p = table_of(P);
    const struct sojimu_table q = table_of("+{!Say(text[0..3],int[-2..7]).end}");
    uint8_t say[22];
    mark();
    struct sojimu_made made = sojimu_make(&p, 0, 0, out, ROOM);
    CHECK(made.question == 0 && made.length == sizeof ASK_100 && opens(ASK_100, sizeof ASK_100));

    mark();
    made = sojimu_make(&q, 0, SOJIMU_ALL_LOW, out, 19);
    plain(say, "Say");
    memcpy(say + 8, "\2\1\0", 3);
    put_number(say + 11, 0);
    put_number(say + 15, -2);
    CHECK(made.question == 0 && made.length == 19 && opens(say, 19));
    mark();
    made = sojimu_make(&q, 0, 0, out, ROOM);
    put_number(say + 11, 3);
    memset(say + 19, 0x20, 3);
    CHECK(made.question == 0 && made.length == 22 && opens(say, 22));

    mark();
    CHECK(unmade(sojimu_make(&q, 0, 0, out, 21), 16));
    CHECK(unmade(sojimu_make(&p, 0, SOJIMU_ALL_LOW, NULL, 0), 16));
    CHECK(unmade(sojimu_make(&p, 3, SOJIMU_ALL_LOW, out, ROOM), 18));
    CHECK(unmade(sojimu_make(&p, 256, SOJIMU_ALL_LOW, out, ROOM), 18));
    CHECK(unmade(sojimu_make(&p, 0, 1, out, ROOM), 18));
    CHECK(unmade(sojimu_make(&p, 0, 254, out, ROOM), 18));
    p.states = 0;
    CHECK(unmade(sojimu_make(&p, 3, 1, NULL, 0), 9));
}

/* ---- the monitor */

/* One step, and whether the verdict has these five codes, the state these two bytes, and `out` begins with `length` bytes of the
 * message (0: all of it is unchanged). */
static bool steps_to(const struct sojimu_table *t, struct sojimu_state *s, uint32_t side, const uint8_t *message, size_t n,
                     size_t room, const uint8_t verdict[5], uint8_t position, uint8_t standing)
{
    mark();
    const struct sojimu_verdict v = sojimu_step(t, s, side, message, n, room == 0 ? NULL : out, room);
    return v.outcome == verdict[0] && v.question == verdict[1] && v.party == verdict[2] && v.reason == verdict[3] &&
           v.field == verdict[4] && s->position == position && s->standing == standing &&
           opens(message, v.outcome == SOJIMU_FORWARDED ? n : 0);
}

/* A step that is refused by this question, and changes neither state nor output. */
static bool refuses(const struct sojimu_table *t, struct sojimu_state s, uint32_t side, const uint8_t *message, size_t n,
                    size_t room, uint8_t question)
{
    const uint8_t verdict[5] = {SOJIMU_REFUSED, question, 0, 0, 0};
    return steps_to(t, &s, side, message, n, room, verdict, s.position, s.standing);
}

static const uint8_t FORWARD[5] = {SOJIMU_FORWARDED, 0, 0, 0, 0};

static void examples(void)
{
    const struct sojimu_table p = table_of(P);
    const uint8_t outside[5] = {SOJIMU_BLAMED, 0, SOJIMU_DEVICE, SOJIMU_OUT_OF_RANGE, 0};
    uint8_t m[16];
    struct sojimu_state s = fresh(&p);
    CHECK(s.position == 0 && s.standing == SOJIMU_RUNNING);
    CHECK(steps_to(&p, &s, SOJIMU_DEVICE, ASK_100, sizeof ASK_100, ROOM, FORWARD, 1, SOJIMU_RUNNING));

    s = fresh(&p);
    size_t n = with_number(m, "Ask", SOJIMU_KIND_INT, 101);
    CHECK(steps_to(&p, &s, SOJIMU_DEVICE, m, n, ROOM, outside, 0, SOJIMU_DEVICE_BLAMED));
    CHECK(refuses(&p, s, SOJIMU_DEVICE, ASK_100, sizeof ASK_100, ROOM, 10));

    n = plain(m, "Ok");
    CHECK(refuses(&p, fresh(&p), SOJIMU_HOST, m, n, ROOM, 12));
}

static void blames(void)
{
    const struct sojimu_table p = table_of(P);
    const struct sojimu_table two = table_of("+{!Set(int[0..9],flag[1..1]).end}");
    const uint8_t no_label[5] = {SOJIMU_BLAMED, 0, SOJIMU_HOST, SOJIMU_NO_LABEL, 0};
    const uint8_t kinds[5] = {SOJIMU_BLAMED, 0, SOJIMU_DEVICE, SOJIMU_OTHER_KINDS, 0};
    const uint8_t second[5] = {SOJIMU_BLAMED, 0, SOJIMU_DEVICE, SOJIMU_OUT_OF_RANGE, 1};
    uint8_t m[32];
    struct sojimu_state s = STATE(1, SOJIMU_RUNNING);
    size_t n = plain(m, "No");
    CHECK(steps_to(&p, &s, SOJIMU_HOST, m, n, ROOM, no_label, 1, SOJIMU_HOST_BLAMED));
    CHECK(refuses(&p, s, SOJIMU_HOST, m, n, ROOM, 10));

    s = fresh(&p);
    n = with_number(m, "Ask", SOJIMU_KIND_FLAG, 1);
    CHECK(steps_to(&p, &s, SOJIMU_DEVICE, m, n, ROOM, kinds, 0, SOJIMU_DEVICE_BLAMED));

    s = fresh(&two);
    mark();
    const struct sojimu_made made = sojimu_make(&two, 0, 0, out, ROOM);
    memcpy(m, out, made.length);
    put_number(m + 15, 0);
    CHECK(made.length == 19);
    CHECK(steps_to(&two, &s, SOJIMU_DEVICE, m, made.length, ROOM, second, 0, SOJIMU_DEVICE_BLAMED));
}

static void refusals(void)
{
    struct sojimu_table p = table_of(P);
    const struct sojimu_state start = fresh(&p), beyond = STATE(3, SOJIMU_RUNNING), ended = STATE(2, SOJIMU_RUNNING);
    const struct sojimu_state unknown = STATE(0, 3), largest = STATE(1, 255), ended_blamed = STATE(2, SOJIMU_HOST_BLAMED);
    uint8_t m[32];
    size_t n = sizeof ASK_100;
    memset(m, 0, sizeof m);
    memcpy(m, ASK_100, n);

    CHECK(refuses(&p, beyond, SOJIMU_DEVICE, m, n, ROOM, 9));
    CHECK(refuses(&p, beyond, 7, m, n, ROOM, 9));
    CHECK(refuses(&p, unknown, SOJIMU_DEVICE, m, n, ROOM, 10));
    CHECK(refuses(&p, largest, SOJIMU_HOST, m, n, ROOM, 10));
    CHECK(refuses(&p, unknown, 2, m, n, ROOM, 10));
    for (unsigned standing = 0; standing < 256; standing++) {
        const struct sojimu_state other = STATE(0, (uint8_t)standing);
        CHECK(standing == SOJIMU_RUNNING || refuses(&p, other, SOJIMU_DEVICE, m, n, ROOM, 10));
    }
    CHECK(refuses(&p, ended_blamed, SOJIMU_DEVICE, m, n, ROOM, 10));
    CHECK(refuses(&p, ended, SOJIMU_DEVICE, m, n, ROOM, 11));
    CHECK(refuses(&p, ended, SOJIMU_HOST, m, n, ROOM, 11));
    CHECK(refuses(&p, ended, 255, m, n, ROOM, 11));
    CHECK(refuses(&p, start, SOJIMU_HOST, m, n, ROOM, 12));
    for (uint32_t side = 2; side < 300; side++) {
        const struct sojimu_state receiving = STATE(1, SOJIMU_RUNNING);
        CHECK(refuses(&p, start, side, m, n, ROOM, 12));
        CHECK(refuses(&p, receiving, side, m, n, ROOM, 12));
    }
    CHECK(refuses(&p, start, SOJIMU_HOST, NULL, 0, 0, 12));
    CHECK(refuses(&p, start, SOJIMU_DEVICE, NULL, 0, 0, 13));
    CHECK(refuses(&p, start, SOJIMU_DEVICE, m, n - 1, 0, 13));
    CHECK(refuses(&p, start, SOJIMU_DEVICE, m, n + 1, 0, 15));
    CHECK(refuses(&p, start, SOJIMU_DEVICE, m, n, 0, 16));
    CHECK(refuses(&p, start, SOJIMU_DEVICE, m, n, n - 1, 16));
    m[9] = 3;
    CHECK(refuses(&p, start, SOJIMU_DEVICE, m, n, 0, 14));
    p.sort[1] = 3;
    CHECK(refuses(&p, unknown, 2, NULL, 0, 0, 9));
}

static bool turn_is(struct sojimu_turn t, uint32_t question, uint32_t side)
{
    return t.question == question && t.side == side;
}

static void conversation(void)
{
    const struct sojimu_table p = table_of(P);
    struct sojimu_state s = fresh(&p);
    uint8_t ok[9], quit[9], ask[14];
    plain(ok, "Ok");
    plain(quit, "Quit");
    for (int32_t i = 0; i < 1000; i++) {
        const size_t n = with_number(ask, "Ask", SOJIMU_KIND_INT, i % 101);
        CHECK(turn_is(sojimu_turn(&p, &s), 0, SOJIMU_DEVICE));
        CHECK(steps_to(&p, &s, SOJIMU_DEVICE, ask, n, n, FORWARD, 1, SOJIMU_RUNNING));
        CHECK(turn_is(sojimu_turn(&p, &s), 0, SOJIMU_HOST));
        CHECK(steps_to(&p, &s, SOJIMU_HOST, ok, sizeof ok, ROOM, FORWARD, 0, SOJIMU_RUNNING));
    }
    CHECK(steps_to(&p, &s, SOJIMU_DEVICE, quit, sizeof quit, ROOM, FORWARD, 2, SOJIMU_RUNNING));
    CHECK(turn_is(sojimu_turn(&p, &s), 11, 0));
    CHECK(refuses(&p, s, SOJIMU_DEVICE, quit, sizeof quit, ROOM, 11));
}

static bool due_is(struct sojimu_due d, uint32_t side, size_t length)
{
    return d.side == side && d.length == length;
}

static void due(void)
{
    struct sojimu_table p = table_of(P);
    const struct sojimu_state sends = fresh(&p), receives = STATE(1, SOJIMU_RUNNING), ended = STATE(2, SOJIMU_RUNNING);
    const struct sojimu_state blamed = STATE(0, SOJIMU_HOST_BLAMED), unknown = STATE(1, 9), beyond = STATE(3, SOJIMU_RUNNING);
    uint8_t device[23], host[10];
    const size_t n = with_number(device, "Ask", SOJIMU_KIND_INT, 500);
    plain(device + n, "Quit");
    plain(host, "Ok");
    host[9] = 'X';
    CHECK(due_is(sojimu_due(&p, &sends, device, sizeof device, host, sizeof host), SOJIMU_DEVICE, n));
    CHECK(due_is(sojimu_due(&p, &sends, device + n, 9, host, sizeof host), SOJIMU_DEVICE, 9));
    CHECK(due_is(sojimu_due(&p, &receives, device, sizeof device, host, sizeof host), SOJIMU_HOST, 9));
    CHECK(due_is(sojimu_due(&p, &receives, NULL, 0, host, 9), SOJIMU_HOST, 9));
    CHECK(due_is(sojimu_due(&p, &sends, device, n - 1, host, sizeof host), SOJIMU_DEVICE, 0));
    CHECK(due_is(sojimu_due(&p, &receives, device, n, host, 8), SOJIMU_HOST, 0));
    CHECK(due_is(sojimu_due(&p, &sends, NULL, 0, NULL, 0), SOJIMU_DEVICE, 0));
    CHECK(due_is(sojimu_due(&p, &receives, NULL, 0, NULL, 0), SOJIMU_HOST, 0));
    CHECK(due_is(sojimu_due(&p, &ended, device, n, host, 9), SOJIMU_DEVICE, 0));
    CHECK(due_is(sojimu_due(&p, &blamed, device, n, host, 9), SOJIMU_DEVICE, 0));
    CHECK(due_is(sojimu_due(&p, &unknown, device, n, host, 9), SOJIMU_DEVICE, 0));
    CHECK(due_is(sojimu_due(&p, &beyond, device, n, host, 9), SOJIMU_DEVICE, 0));
    CHECK(turn_is(sojimu_turn(&p, &beyond), 9, 0) && turn_is(sojimu_turn(&p, &ended), 11, 0));
    CHECK(turn_is(sojimu_turn(&p, &blamed), 10, 0) && turn_is(sojimu_turn(&p, &unknown), 10, 0));
    device[9] = 3;
    CHECK(due_is(sojimu_due(&p, &sends, device, n, host, 9), SOJIMU_DEVICE, 0));
    p.states = 33;
    CHECK(turn_is(sojimu_turn(&p, &ended), 9, 0) && turn_is(sojimu_turn(&p, &blamed), 9, 0));
    CHECK(due_is(sojimu_due(&p, &receives, device, n, host, 9), SOJIMU_DEVICE, 0));
}

/* ---- the fit check */

static bool fit_is(struct sojimu_fit f, uint32_t outcome, uint32_t question, uint32_t count, uint32_t high)
{
    return f.outcome == outcome && f.question == question && f.count == count && f.high == high;
}

/* Plays the moves shown against the protocol's monitor, and gives the last verdict. The others have to be forwarded. */
static struct sojimu_verdict play(const struct sojimu_table *device, const struct sojimu_table *protocol, struct sojimu_fit f)
{
    struct sojimu_state s = fresh(protocol);
    struct sojimu_verdict v = {SOJIMU_FORWARDED, 0, 0, 0, 0};
    uint8_t m[SOJIMU_MESSAGE];
    for (uint32_t i = 0; i < f.count; i++) {
        const uint32_t side = sojimu_turn(protocol, &s).side;
        const uint32_t named = i + 1 == f.count ? f.high : SOJIMU_ALL_LOW;
        const struct sojimu_made made = sojimu_make(side == SOJIMU_DEVICE ? device : protocol, list[i], named, m, sizeof m);
        CHECK(v.outcome == SOJIMU_FORWARDED && made.question == 0);
        v = sojimu_step(protocol, &s, side, m, made.length, out, ROOM);
    }
    return v;
}

static void fits(void)
{
    const struct sojimu_table p = table_of(P);
    const struct sojimu_table q = table_of("rec X.+{!Ping().&{?Pong().X},!Quit().end}");
    const struct sojimu_table quit = table_of("+{!Quit().end}");
    mark_list();
    CHECK(fit_is(sojimu_fit(&p, &p, list, SOJIMU_LIST), SOJIMU_FITS, 0, 3, SOJIMU_ALL_LOW) && marked_from(0));
    CHECK(fit_is(sojimu_fit(&quit, &q, list, 6), SOJIMU_FITS, 0, 2, SOJIMU_ALL_LOW) && marked_from(0));
    CHECK(fit_is(sojimu_fit(&quit, &q, list, 5), SOJIMU_FIT_REFUSED, 17, 0, SOJIMU_ALL_LOW) && marked_from(0));
    CHECK(fit_is(sojimu_fit(&quit, &q, NULL, 0), SOJIMU_FIT_REFUSED, 17, 0, SOJIMU_ALL_LOW));
    CHECK(fit_is(sojimu_fit(&empty, &q, list, SOJIMU_LIST), SOJIMU_FIT_REFUSED, 9, 0, SOJIMU_ALL_LOW) && marked_from(0));
    CHECK(fit_is(sojimu_fit(&q, &empty, list, SOJIMU_LIST), SOJIMU_FIT_REFUSED, 9, 0, SOJIMU_ALL_LOW) && marked_from(0));
}

static void failures(void)
{
    const struct sojimu_table p = table_of(P);
    const struct sojimu_table q = table_of("rec X.+{!Ping().&{?Pong().X},!Quit().end}");
    const struct sojimu_table end = table_of("end");
    const struct sojimu_table busy = table_of("+{!Ping().&{?Busy().end}}");
    const struct sojimu_table wide = table_of("+{!Ask(int[0..101]).&{?Ok().end}}");
    mark_list();
    struct sojimu_fit f = sojimu_fit(&end, &p, list, SOJIMU_LIST);
    CHECK(fit_is(f, SOJIMU_FAILS, 0, 0, SOJIMU_ALL_LOW) && marked_from(0));

    f = sojimu_fit(&busy, &q, list, SOJIMU_LIST);
    CHECK(fit_is(f, SOJIMU_FAILS, 0, 2, SOJIMU_ALL_LOW) && list[0] == 0 && list[1] == 1 && marked_from(2));
    CHECK(play(&busy, &q, f).outcome == SOJIMU_FORWARDED);

    mark_list();
    f = sojimu_fit(&wide, &p, list, 9);
    CHECK(fit_is(f, SOJIMU_FAILS, 0, 1, 0) && list[0] == 0 && marked_from(1));
    const struct sojimu_verdict v = play(&wide, &p, f);
    CHECK(v.outcome == SOJIMU_BLAMED && v.party == SOJIMU_DEVICE && v.reason == SOJIMU_OUT_OF_RANGE && v.field == 0);
}

/* The list is these two moves, all low, whatever it held before and with whatever room. */
static void two_moves(const char *device, const char *protocol, uint16_t first, uint16_t second)
{
    const struct sojimu_table d = table_of(device), p = table_of(protocol);
    mark_list();
    CHECK(fit_is(sojimu_fit(&d, &p, list, SOJIMU_LIST), SOJIMU_FAILS, 0, 2, SOJIMU_ALL_LOW));
    CHECK(list[0] == first && list[1] == second && marked_from(2));
    CHECK(fit_is(sojimu_fit(&d, &p, list, d.states * p.states), SOJIMU_FAILS, 0, 2, SOJIMU_ALL_LOW));
    CHECK(list[0] == first && list[1] == second && marked_from(2));
}

/* Of two ways to fail the shorter is shown, though the longer stands first in the texts; sorts that differ after two moves, though a
 * lower pair there fails by a third; and of two shortest lists the one of the lower pair. */
static void fewest(void)
{
    two_moves("+{!A().+{!B().+{!C().end}},!D().+{!E().end}}", "+{!A().+{!B().+{!X().end}},!D().+{!Y().end}}", 3, 4);
    two_moves("+{!A().+{!B().+{!C().end},!D().end}}", "+{!A().+{!B().+{!X().end},!D().+{!E().end}}}", 0, 3);
    two_moves("+{!A().+{!B().end},!C().+{!D().end}}", "+{!A().+{!X().end},!C().+{!Y().end}}", 0, 1);
}

/* The report of two texts is this one, with just enough room; with a byte less nothing changes. */
static void report_is(const char *protocol, const char *device, const char *text)
{
    uint8_t page[64];
    const size_t length = strlen(text);
    const uint8_t *const p = (const uint8_t *)protocol, *const d = (const uint8_t *)device;
    memset(page, 0xEE, sizeof page);
    CHECK(sojimu_report(p, strlen(protocol), d, strlen(device), page, length - 1) == 0 && page[0] == 0xEE);
    CHECK(sojimu_report(p, strlen(protocol), d, strlen(device), page, length) == length);
    CHECK(memcmp(page, text, length) == 0 && page[length] == 0xEE);
}

static void reports(void)
{
    static const char q[] = "rec X.+{!Ping().&{?Pong().X},!Quit().end}";
    report_is(q, "+{!Ping().&{?Busy().end}}", "no fit 2\nin Ping\nout Pong\njammed\n");
    report_is(q, "+{!Quit().end}", "fit 2\n");
    report_is(P, "+{!Ask(int[0..101]).&{?Ok().end}}", "no fit 1\nin Ask high 0\nblamed\n");
    report_is("+{!A().+{!B().+{!X().end}},!C().end}", "+{!A().+{!B().+{!D().end}},!C().+{!E().end}}", "no fit 1\nin C\njammed\n");
    report_is("", "end", "protocol refused 3 at 0\n");
    report_is(q, "rec X.X", "device refused 5 at 6\n");
}

int main(void)
{
    texts();
    reports();
    tables();
    questions();
    making();
    examples();
    blames();
    refusals();
    conversation();
    due();
    fits();
    failures();
    fewest();
    return counts();
}
