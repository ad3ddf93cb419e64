/* What holds of every call whatever it is given: each byte of what it gives back is determined, NULL is taken where there is
 * nothing, numbers are never cut, a table's words may have any value; and the functions that are the header's own. Prints a line
 * for each check that fails, and at the end `N passed, M failed`. */
#include "check.h"

static struct sojimu_table p, broken_table, second_edition;

static const struct sojimu_state START = STATE(0, SOJIMU_RUNNING);

static const uint32_t WIDE[] = {256, 257, 65535, 65536, 65537, 0x7FFFFFFF, 0x80000000, 0xFFFFFFFF};

enum { WIDES = sizeof WIDE / sizeof WIDE[0] };

/* ---- every byte is determined */

/* The calls whose struct is given back in memory, with the place for it, as the ABI hands it over. */
void read_into(void *place, const uint8_t *text, size_t length) __asm__("sojimu_raw_read");
void dual_into(void *place, const struct sojimu_table *table) __asm__("sojimu_dual");
void empty_into(void *place) __asm__("sojimu_empty");
void fresh_into(void *place, const struct sojimu_table *table, uint32_t setting) __asm__("sojimu_fresh");
void batch_into(void *place, const struct sojimu_table *table, uint8_t *state, uint16_t *counts, const uint8_t *device,
                size_t device_length, const uint8_t *host, size_t host_length, uint8_t *to_device, size_t device_room,
                uint8_t *to_host, size_t host_room) __asm__("sojimu_raw_batch");

/* Leaves bytes of one value where the stack of the next call will be. */
static __attribute__((noinline)) void litter(uint8_t value)
{
    volatile uint8_t stack[100000];
    for (size_t i = 0; i < sizeof stack; i++) {
        stack[i] = value;
    }
}

/* Whether a call gives the same bytes at places that held others, and none beyond them. */
static bool determined(void (*give)(void *place), size_t size)
{
    static _Alignas(8) uint8_t one[sizeof(struct sojimu_reading) + 8], two[sizeof(struct sojimu_reading) + 8];
    memset(one, 0xAA, sizeof one);
    memset(two, 0x55, sizeof two);
    litter(0xAA);
    give(one);
    litter(0x55);
    give(two);
    return memcmp(one, two, size) == 0 && one[size] == 0xAA && two[size] == 0x55;
}

static void give_read(void *place)
{
    read_into(place, (const uint8_t *)P, strlen(P));
}

static void give_read_refused(void *place)
{
    read_into(place, (const uint8_t *)"rec X.X", 7);
}

static void give_dual(void *place)
{
    dual_into(place, &p);
}

static void give_dual_refused(void *place)
{
    dual_into(place, &empty);
}

/* A batch of one message, under this table, with so much room. */
static void batch_of(void *place, const struct sojimu_table *table, const uint8_t *message, size_t length, size_t room)
{
    struct sojimu_state s = START;
    uint8_t to_device[1];
    batch_into(place, table, sojimu_place(&s), sojimu_counts(&s), message, length, message, length, to_device, 0, out, room);
}

static void give_fresh(void *place)
{
    fresh_into(place, &p, 1000);
}

static void give_fresh_refused(void *place)
{
    fresh_into(place, &p, 1001);
}

static void give_batch(void *place)
{
    batch_of(place, &p, ASK_100, sizeof ASK_100, ROOM);
}

static void give_batch_full(void *place)
{
    batch_of(place, &p, ASK_100, sizeof ASK_100, 13);
}

static void give_batch_none_due(void *place)
{
    batch_of(place, &p, ASK_100, 13, ROOM);
}

static void give_batch_blamed(void *place)
{
    batch_of(place, &p, (const uint8_t *)"No\0\0\0\0\0\0", 9, ROOM);
}

static void give_batch_refused(void *place)
{
    batch_of(place, &empty, ASK_100, sizeof ASK_100, ROOM);
}

#define GIVES(name, type, call)                     \
    static void name(void *place)                   \
    {                                               \
        struct sojimu_state s = START;              \
        const struct type given = call;             \
        memcpy(place, &given, sizeof given);        \
        (void)s;                                    \
    }

GIVES(give_front, sojimu_head, sojimu_front(ASK_100, sizeof ASK_100))
GIVES(give_front_refused, sojimu_head, sojimu_front(ASK_100, 3))
GIVES(give_made, sojimu_made, sojimu_make(&p, 0, 0, out, ROOM))
GIVES(give_made_refused, sojimu_made, sojimu_make(&p, 7, 0, out, ROOM))
GIVES(give_forwarded, sojimu_verdict, sojimu_step(&p, &s, SOJIMU_DEVICE, ASK_100, sizeof ASK_100, out, ROOM))
GIVES(give_refused, sojimu_verdict, sojimu_step(&p, &s, SOJIMU_HOST, ASK_100, sizeof ASK_100, out, ROOM))
GIVES(give_blamed, sojimu_verdict, sojimu_step(&p, &s, SOJIMU_DEVICE, (const uint8_t *)"No\0\0\0\0\0\0", 9, out, ROOM))
GIVES(give_early, sojimu_verdict, sojimu_step(&second_edition, &s, SOJIMU_HOST, ASK_100, sizeof ASK_100, out, ROOM))
GIVES(give_warning, sojimu_warning, sojimu_warning(&p, &s, 2))
GIVES(give_warning_refused, sojimu_warning, sojimu_warning(&p, &s, 3))
GIVES(give_turn, sojimu_turn, sojimu_turn(&p, &s))
GIVES(give_turn_refused, sojimu_turn, sojimu_turn(&empty, &s))
GIVES(give_due, sojimu_due, sojimu_due(&p, &s, ASK_100, sizeof ASK_100, NULL, 0))
GIVES(give_due_none, sojimu_due, sojimu_due(&empty, &s, ASK_100, sizeof ASK_100, NULL, 0))
GIVES(give_fits, sojimu_fit, sojimu_fit(&p, &p, list, SOJIMU_LIST))
GIVES(give_fit_refused, sojimu_fit, sojimu_fit(&p, &p, list, 8))
GIVES(give_fails, sojimu_fit, sojimu_fit(&broken_table, &p, list, SOJIMU_LIST))

static void bytes_determined(void)
{
    broken_table = table_of("+{!Ask(int[0..101]).end}");
    second_edition = table_of("edition 2 +{!Ask(int[0..100]).end}");
    CHECK(determined(give_read, sizeof(struct sojimu_reading)));
    CHECK(determined(give_read_refused, sizeof(struct sojimu_reading)));
    CHECK(determined(give_dual, sizeof(struct sojimu_turned)));
    CHECK(determined(give_dual_refused, sizeof(struct sojimu_turned)));
    CHECK(determined(empty_into, sizeof(struct sojimu_table)));
    CHECK(determined(give_front, sizeof(struct sojimu_head)));
    CHECK(determined(give_front_refused, sizeof(struct sojimu_head)));
    CHECK(determined(give_fresh, sizeof(struct sojimu_started)));
    CHECK(determined(give_fresh_refused, sizeof(struct sojimu_started)));
    CHECK(determined(give_warning, sizeof(struct sojimu_warning)));
    CHECK(determined(give_warning_refused, sizeof(struct sojimu_warning)));
    CHECK(determined(give_made, sizeof(struct sojimu_made)));
    CHECK(determined(give_made_refused, sizeof(struct sojimu_made)));
    CHECK(determined(give_forwarded, sizeof(struct sojimu_verdict)));
    CHECK(determined(give_refused, sizeof(struct sojimu_verdict)));
    CHECK(determined(give_blamed, sizeof(struct sojimu_verdict)));
    CHECK(determined(give_early, sizeof(struct sojimu_verdict)));
    CHECK(determined(give_batch, sizeof(struct sojimu_batch)));
    CHECK(determined(give_batch_full, sizeof(struct sojimu_batch)));
    CHECK(determined(give_batch_none_due, sizeof(struct sojimu_batch)));
    CHECK(determined(give_batch_blamed, sizeof(struct sojimu_batch)));
    CHECK(determined(give_batch_refused, sizeof(struct sojimu_batch)));
    CHECK(determined(give_turn, sizeof(struct sojimu_turn)));
    CHECK(determined(give_turn_refused, sizeof(struct sojimu_turn)));
    CHECK(determined(give_due, sizeof(struct sojimu_due)));
    CHECK(determined(give_due_none, sizeof(struct sojimu_due)));
    CHECK(determined(give_fits, sizeof(struct sojimu_fit)));
    CHECK(determined(give_fit_refused, sizeof(struct sojimu_fit)));
    CHECK(determined(give_fails, sizeof(struct sojimu_fit)));
}

/* ---- NULL where there is nothing */

static void nothing(void)
{
    static const char refused[] = "protocol refused 3 at 0\n";
    const uint8_t *const text = (const uint8_t *)P;
    struct sojimu_state s = START;
    const struct sojimu_reading r = sojimu_read(NULL, 0);
    CHECK(r.question == 3 && r.at == 0 && same_tables(&r.table, &empty));
    mark();
    CHECK(sojimu_report(NULL, 0, NULL, 0, NULL, 0) == 0);
    CHECK(sojimu_report(NULL, 0, text, strlen(P), out, ROOM) == strlen(refused));
    CHECK(opens((const uint8_t *)refused, strlen(refused)));
    CHECK(sojimu_report(text, strlen(P), NULL, 0, out, ROOM) == strlen("device refused 3 at 0\n"));
    CHECK(sojimu_report(text, strlen(P), text, strlen(P), NULL, 0) == 0);
    CHECK(sojimu_front(NULL, 0).question == 13 && sojimu_front(NULL, 0).length == 0);
    CHECK(!sojimu_broken(NULL, 0) && sojimu_refusal(NULL, 0) == 13);
    CHECK(!sojimu_has_label(NULL, 0, 0));
    CHECK(sojimu_make(&p, 0, SOJIMU_ALL_LOW, NULL, 0).question == 16);
    CHECK(sojimu_step(&p, &s, SOJIMU_DEVICE, NULL, 0, NULL, 0).question == 13);
    CHECK(sojimu_step(&p, &s, SOJIMU_DEVICE, NULL, 0, out, ROOM).question == 13);
    CHECK(sojimu_step(&p, &s, SOJIMU_DEVICE, ASK_100, sizeof ASK_100, NULL, 0).question == 16);
    CHECK(sojimu_batch(&p, &s, NULL, 0, NULL, 0, NULL, 0, NULL, 0).last.outcome == SOJIMU_NONE_DUE);
    CHECK(sojimu_batch(&p, &s, ASK_100, sizeof ASK_100, NULL, 0, NULL, 0, NULL, 0).last.question == 16);
    CHECK(same_states(&s, &START));
    CHECK(sojimu_due(&p, &s, NULL, 0, NULL, 0).length == 0);
    CHECK(sojimu_due(&p, &s, ASK_100, sizeof ASK_100, NULL, 0).length == sizeof ASK_100);
    CHECK(sojimu_due(&p, &s, NULL, 0, ASK_100, sizeof ASK_100).length == 0);
    CHECK(sojimu_fit(&p, &p, NULL, 0).question == 17);
    CHECK(sojimu_encode(sojimu_label("Ok"), NULL, 0, NULL, 0).question == 16);
}

/* ---- numbers are never cut */

static bool unmade(struct sojimu_made made, uint32_t question)
{
    return made.question == question && made.length == 0 && opens(NULL, 0);
}

/* A step by a number that is no side's is refused by this question, and changes nothing. */
static bool no_side(uint32_t side, uint8_t position, uint8_t standing, uint32_t question)
{
    const struct sojimu_state before = STATE(position, standing);
    struct sojimu_state s = before;
    const struct sojimu_verdict v = sojimu_step(&p, &s, side, ASK_100, sizeof ASK_100, out, ROOM);
    return v.outcome == SOJIMU_REFUSED && v.question == question && same_states(&s, &before) && opens(NULL, 0);
}

static void wide_numbers(void)
{
    mark();
    for (size_t i = 0; i < WIDES; i++) {
        const uint32_t n = WIDE[i];
        CHECK(unmade(sojimu_make(&p, n, SOJIMU_ALL_LOW, out, ROOM), 18));
        CHECK(unmade(sojimu_make(&p, n, n, out, ROOM), 18));
        CHECK(unmade(sojimu_make(&p, 0, n, out, ROOM), 18));
        CHECK(unmade(sojimu_make(&p, 0, n, NULL, 0), 18));
        CHECK(unmade(sojimu_make(&empty, n, n, out, ROOM), 9));
        CHECK(no_side(n, 0, SOJIMU_RUNNING, 12) && no_side(n, 1, SOJIMU_RUNNING, 12));
        CHECK(no_side(n, 2, SOJIMU_RUNNING, 11) && no_side(n, 0, SOJIMU_HOST_BLAMED, 10) && no_side(n, 3, SOJIMU_RUNNING, 9));
        CHECK(!sojimu_sound_at(&p, n));
        CHECK(sojimu_warning(&p, &START, n).question == 18 && sojimu_warning(&empty, &START, n).question == 9);
        CHECK(sojimu_fresh(&p, n).question == (n == 256 || n == 257 ? 0 : 21) && sojimu_fresh(&empty, n).question == 9);
        CHECK(!sojimu_range_legal(n, SOJIMU_ORIGIN, SOJIMU_ORIGIN));
    }
    for (uint32_t field = 1; field < 600; field++) {
        CHECK(field == SOJIMU_ALL_LOW || unmade(sojimu_make(&p, 0, field, out, ROOM), 18));
    }
}

/* ---- a table's words may have any value */

static uint8_t other_out[ROOM];

static const uint8_t unwritten[ROOM];

/* Every call that takes this table answers 9. */
static bool all_nine(const struct sojimu_table *t)
{
    struct sojimu_state s = START;
    const struct sojimu_turned d = sojimu_dual(t);
    const struct sojimu_verdict v = sojimu_step(t, &s, SOJIMU_DEVICE, ASK_100, sizeof ASK_100, out, ROOM);
    const struct sojimu_batch b =
        sojimu_batch(t, &s, ASK_100, sizeof ASK_100, ASK_100, sizeof ASK_100, other_out, ROOM, out, ROOM);
    const struct sojimu_turn turn = sojimu_turn(t, &s);
    const struct sojimu_warning w = sojimu_warning(t, &s, 0);
    const struct sojimu_due due = sojimu_due(t, &s, ASK_100, sizeof ASK_100, ASK_100, sizeof ASK_100);
    const struct sojimu_fit f = sojimu_fit(t, &p, list, SOJIMU_LIST), g = sojimu_fit(&p, t, list, SOJIMU_LIST);
    return !sojimu_sound(t) && !sojimu_sound_at(t, 0) && d.question == 9 && same_tables(&d.table, &empty) &&
           sojimu_fresh(t, SETTING).question == 9 && w.question == 9 && w.warns == 0 && w.estimate == SOJIMU_NO_ESTIMATE &&
           v.outcome == SOJIMU_REFUSED && v.question == 9 && same_states(&s, &START) &&
           b.last.outcome == SOJIMU_REFUSED && b.last.question == 9 && b.used_device == 0 && b.used_host == 0 &&
           b.written_to_device == 0 && b.written_to_host == 0 && memcmp(other_out, unwritten, ROOM) == 0 &&
           turn.question == 9 && turn.side == 0 && due.side == SOJIMU_DEVICE && due.length == 0 &&
           f.outcome == SOJIMU_FIT_REFUSED && f.question == 9 && g.outcome == SOJIMU_FIT_REFUSED && g.question == 9 &&
           unmade(sojimu_make(t, 0, SOJIMU_ALL_LOW, out, ROOM), 9) && marked_from(0);
}

/* The table with one word changed is refused by 9 everywhere. */
static bool word_refused(size_t place, uint32_t value)
{
    uint32_t words[2340];
    struct sojimu_table t;
    memcpy(words, &p, sizeof words);
    words[place] = value;
    memcpy(&t, words, sizeof t);
    return all_nine(&t);
}

static void any_words(void)
{
    const size_t states = 0, branches = 1, sort = 2, owner = 34, target = 162, fields = 290, high_label = 418, low_label = 546;
    const size_t kind = 674, low = 1186, high = 1698, share = 2210, edition = 2338;
    struct sojimu_table t;
    mark();
    mark_list();
    for (size_t i = 0; i < WIDES; i++) {
        CHECK(word_refused(states, WIDE[i]) && word_refused(branches, WIDE[i]));
        CHECK(word_refused(sort, WIDE[i]) && word_refused(sort + 1, WIDE[i]) && word_refused(sort + 2, WIDE[i]));
        CHECK(word_refused(owner, WIDE[i]) && word_refused(target + 2, WIDE[i]) && word_refused(fields + 1, WIDE[i]));
        CHECK(word_refused(high_label, WIDE[i]) && word_refused(low_label, WIDE[i]) && word_refused(kind, WIDE[i]));
        CHECK(word_refused(share, WIDE[i]) && word_refused(share + 1, WIDE[i]) && word_refused(share + 2, WIDE[i]));
        CHECK(word_refused(edition, WIDE[i]));
    }
    CHECK(word_refused(states, UINT32_C(4000000000)) && word_refused(states, 0) && word_refused(states, 33));
    CHECK(word_refused(states, 1) && word_refused(states, 2));
    CHECK(word_refused(branches, 0) && word_refused(branches, 1) && word_refused(branches, 4) && word_refused(branches, 129));
    CHECK(word_refused(sort, 0) && word_refused(sort, 3) && word_refused(sort + 2, 1) && word_refused(owner, 2));
    CHECK(word_refused(owner, 3) && word_refused(target, 3) && word_refused(fields, 5) && word_refused(kind, 3));
    CHECK(word_refused(kind, 1) && word_refused(kind, 2) && word_refused(low, SOJIMU_ORIGIN + 101) && word_refused(high, 0));
    /* one of two branches with a share; a choice of one branch, with less than all, all, and more */
    CHECK(word_refused(share, 1) && word_refused(share, 1000) && word_refused(share + 2, 500));
    CHECK(word_refused(share + 1, 999) && word_refused(share + 1, 1001));
    CHECK(word_refused(edition, 0) && word_refused(edition, 3));
    t = p;
    t.share[1] = 1000;
    CHECK(sojimu_sound(&t));
    memset(&t, 0xFF, sizeof t);
    CHECK(all_nine(&t) && all_nine(&empty));
    /* numbers that pass in 8 or 16 bits do not in 32 */
    for (size_t place = 0; place < 2; place++) {
        uint32_t words[2340];
        memcpy(words, &p, sizeof words);
        CHECK(word_refused(place, words[place] + 256) && word_refused(place, words[place] + 65536));
    }
}

/* What lies beyond a table's states and branches is not looked at. */
static void words_beyond(void)
{
    struct sojimu_table t;
    struct sojimu_state s = START;
    memset(&t, 0xFF, sizeof t);
    t.states = p.states;
    t.branches = p.branches;
    memcpy(t.sort, p.sort, 4 * 3);
    memcpy(t.owner, p.owner, 4 * 3);
    memcpy(t.target, p.target, 4 * 3);
    memcpy(t.fields, p.fields, 4 * 3);
    memcpy(t.label_high, p.label_high, 4 * 3);
    memcpy(t.label_low, p.label_low, 4 * 3);
    t.kind[0] = p.kind[0];
    t.low[0] = p.low[0];
    t.high[0] = p.high[0];
    memcpy(t.share, p.share, 4 * 3);
    t.edition = p.edition;
    mark();
    CHECK(sojimu_sound(&t) && sojimu_sound_at(&t, 2) && !sojimu_sound_at(&t, 3));
    CHECK(sojimu_dual(&t).question == 0 && sojimu_dual(&t).table.sort[0] == SOJIMU_RECEIVES);
    CHECK(sojimu_make(&t, 0, 0, out, ROOM).length == sizeof ASK_100 && opens(ASK_100, sizeof ASK_100));
    CHECK(sojimu_step(&t, &s, SOJIMU_DEVICE, ASK_100, sizeof ASK_100, out, ROOM).outcome == SOJIMU_FORWARDED);
    CHECK(s.position == 1 && sojimu_turn(&t, &s).question == 0 && sojimu_turn(&t, &s).side == SOJIMU_HOST);
    CHECK(sojimu_fit(&t, &p, list, 9).outcome == SOJIMU_FITS && sojimu_fit(&p, &t, list, 9).outcome == SOJIMU_FITS);
}

/* Words at random: each call comes back, and answers 9 exactly where the table is not sound. */
static void random_words(void)
{
    static uint32_t words[2340];
    uint64_t seed = 1;
    unsigned sound = 0;
    mark();
    mark_list();
    for (int round = 0; round < 3000; round++) {
        struct sojimu_table t;
        memcpy(words, &p, sizeof words);
        for (int k = 0; k < 1 + round % 3; k++) {
            seed = seed * UINT64_C(6364136223846793005) + 1442695040888963407;
            const uint32_t place = (uint32_t)(seed >> 33) % (round % 2 == 0 ? 40 : 2340);
            seed = seed * UINT64_C(6364136223846793005) + 1442695040888963407;
            words[place] = (uint32_t)(seed >> 32) >> (seed >> 27 & 31);
        }
        memcpy(&t, words, sizeof t);
        sound += sojimu_sound(&t);
        CHECK(sojimu_sound(&t) ? sojimu_fit(&t, &t, list, SOJIMU_LIST).outcome == SOJIMU_FITS && marked_from(0) : all_nine(&t));
    }
    CHECK(sound > 500 && sound < 2500);
}

/* ---- the header's own functions */

static void labels(void)
{
    const uint64_t ask = UINT64_C(0x41736B0000000000);
    CHECK(sojimu_label("Ask") == ask && sojimu_has_label(ASK_100, sizeof ASK_100, ask));
    CHECK(sojimu_label("A") == UINT64_C(0x4100000000000000) && sojimu_label("Z9z") == UINT64_C(0x5A397A0000000000));
    CHECK(sojimu_label("A2345678") == UINT64_C(0x4132333435363738) && sojimu_label("A23456789") == 0);
    CHECK(sojimu_label("") == 0 && sojimu_label("ask") == 0 && sojimu_label("9A") == 0 && sojimu_label("A b") == 0);
    CHECK(sojimu_label("A_b") == 0 && sojimu_label("A\xC3\x84") == 0 && sojimu_label("\xC1sk") == 0);
}

static void broken_bytes(void)
{
    uint8_t m[SOJIMU_FRONT];
    memset(m, 0xFF, sizeof m);
    for (size_t n = 0; n <= sizeof m; n++) {
        CHECK(sojimu_broken(m, n) == (n >= 9));
    }
    memset(m, 0, sizeof m);
    memcpy(m, ASK_100, sizeof ASK_100);
    for (size_t n = 0; n <= sizeof ASK_100; n++) {
        CHECK(!sojimu_broken(m, n));
    }
    m[8] = 5;
    CHECK(!sojimu_broken(m, 8) && sojimu_broken(m, 9) && sojimu_broken(m, sizeof m));
    m[8] = 4;
    CHECK(!sojimu_broken(m, 9) && !sojimu_broken(m, 28) && !sojimu_broken(m, 29));
    CHECK(sojimu_front(m, 28).question == 13 && sojimu_front(m, 29).question == 0);
    m[12] = 3;
    CHECK(!sojimu_broken(m, 28) && sojimu_broken(m, 29) && sojimu_front(m, 29).question == 14);
    m[0] = 'a';
    CHECK(!sojimu_broken(m, 8) && sojimu_broken(m, 9));
}

/* The encoder makes these bytes with just enough room, and none with a byte less. */
static bool encodes(const char *label, const struct sojimu_field *fields, size_t count, const uint8_t *bytes, size_t length)
{
    struct sojimu_made made;
    mark();
    made = sojimu_encode(sojimu_label(label), fields, count, out, length - 1);
    if (!unmade(made, 16)) {
        return false;
    }
    made = sojimu_encode(sojimu_label(label), fields, count, out, length);
    return made.question == 0 && made.length == length && opens(bytes, length) && sojimu_refusal(out, length) == 0;
}

static void encoder(void)
{
    const struct sojimu_table t = table_of("+{!Say(int[-7..7],text[3..64],flag[0..1],text[0..0]).end,!No().end}");
    const struct sojimu_field hundred = sojimu_int(100);
    uint8_t blank[64], longest[SOJIMU_MESSAGE], made[SOJIMU_MESSAGE];
    struct sojimu_field fields[5];
    memset(blank, 0x20, sizeof blank);
    CHECK(encodes("Ask", &hundred, 1, ASK_100, sizeof ASK_100));
    CHECK(encodes("Ok", NULL, 0, (const uint8_t *)"Ok\0\0\0\0\0\0", 9));

    /* as messages are made from a branch: low, and each field high */
    for (uint32_t named = 0; named < 5; named++) {
        const uint32_t high = named == 4 ? SOJIMU_ALL_LOW : named;
        const struct sojimu_made m = sojimu_make(&t, 0, high, made, sizeof made);
        fields[0] = sojimu_int(high == 0 ? 7 : -7);
        fields[1] = sojimu_text(blank, high == 1 ? 64 : 3);
        fields[2] = sojimu_flag(high == 2);
        fields[3] = sojimu_text(NULL, 0);
        CHECK(m.question == 0 && encodes("Say", fields, 4, made, m.length));
    }

    /* the limits of each kind, and the longest message */
    fields[0] = sojimu_int(INT32_MIN);
    CHECK(encodes("Min", fields, 1, (const uint8_t *)"Min\0\0\0\0\0\1\0\x80\0\0", 14));
    fields[0] = sojimu_int(INT32_MAX);
    CHECK(encodes("Max", fields, 1, (const uint8_t *)"Max\0\0\0\0\0\1\0\x7F\xFF\xFF\xFF", 14));
    memset(longest, 0, sizeof longest);
    memcpy(longest, "Longest9\4\1\1\1\1", 13);
    for (size_t f = 0; f < 4; f++) {
        longest[13 + 4 * f + 3] = 64;
        memset(longest + 29 + 64 * f, (int)('a' + f), 64);
        fields[f] = sojimu_text(longest + 29 + 64 * f, 64);
    }
    CHECK(encodes("Longest9", fields, 4, longest, sizeof longest));

    /* what is refused */
    mark();
    fields[4] = sojimu_flag(false);
    CHECK(unmade(sojimu_encode(sojimu_label("Five"), fields, 5, out, ROOM), 13));
    CHECK(unmade(sojimu_encode(sojimu_label("Many"), fields, SIZE_MAX, out, ROOM), 13));
    CHECK(unmade(sojimu_encode(0, fields, 1, out, ROOM), 13));
    CHECK(unmade(sojimu_encode(sojimu_label("Ask") + 1, NULL, 0, NULL, 0), 13));
    fields[0] = sojimu_text(longest, 65);
    CHECK(unmade(sojimu_encode(sojimu_label("Say"), fields, 1, out, ROOM), 14));
    CHECK(unmade(sojimu_encode(0, fields, 1, NULL, 0), 13));
    fields[0] = sojimu_text(longest, SIZE_MAX);
    CHECK(unmade(sojimu_encode(sojimu_label("Say"), fields, 1, out, ROOM), 14));
    fields[0] = sojimu_flag(true);
    fields[0].number = 2;
    CHECK(unmade(sojimu_encode(sojimu_label("Say"), fields, 1, NULL, 0), 14));
    fields[0] = sojimu_int(0);
    for (size_t i = 0; i < WIDES; i++) {
        fields[0].kind = WIDE[i];
        CHECK(unmade(sojimu_encode(sojimu_label("Say"), fields, 1, out, ROOM), 14));
    }
    fields[0].kind = 3;
    CHECK(unmade(sojimu_encode(sojimu_label("Say"), fields, 1, out, ROOM), 14));
}

int main(void)
{
    p = table_of(P);
    CHECK(sojimu_version() == 6 && SOJIMU_VERSION == 6 && sojimu_matches());
    CHECK(sojimu_abi_6() == 6);
    bytes_determined();
    nothing();
    wide_numbers();
    any_words();
    words_beyond();
    random_words();
    labels();
    broken_bytes();
    encoder();
    return counts();
}
