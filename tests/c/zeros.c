/* A table, a state or a length of zeros is refused by every call that takes it; and every verdict is one of those that the header
 * has, with what it says where something does not apply. Prints a line for each check that fails, and at the end
 * `N passed, M failed`. */
#include "check.h"

static struct sojimu_table p, second;

static const struct sojimu_state START = STATE(0, SOJIMU_RUNNING), ZEROS;

/* ---- tables, states and lengths of zeros */

/* Every call that takes a table and a state refuses them by 9, and changes nothing. */
static bool nine(const struct sojimu_table *t, const struct sojimu_state *given)
{
    struct sojimu_state s = *given;
    uint8_t to_device[ROOM];
    mark();
    const struct sojimu_verdict v = sojimu_step(t, &s, SOJIMU_DEVICE, ASK_100, sizeof ASK_100, out, ROOM);
    const struct sojimu_batch b = sojimu_batch(t, &s, ASK_100, sizeof ASK_100, NULL, 0, to_device, ROOM, out, ROOM);
    const struct sojimu_due due = sojimu_due(t, &s, ASK_100, sizeof ASK_100, ASK_100, sizeof ASK_100);
    const struct sojimu_turn turn = sojimu_turn(t, &s);
    const struct sojimu_warning w = sojimu_warning(t, &s, 0);
    return v.outcome == SOJIMU_REFUSED && v.question == 9 && b.last.outcome == SOJIMU_REFUSED && b.last.question == 9 &&
           b.used_device == 0 && b.written_to_host == 0 && due.side == SOJIMU_DEVICE && due.length == 0 && turn.question == 9 &&
           turn.side == 0 && w.question == 9 && w.sender == 0 && same_states(&s, given) && opens(NULL, 0);
}

static void tables(void)
{
    const struct sojimu_reading reading = {0};
    const struct sojimu_table *const zeros = &reading.table;
    CHECK(nine(zeros, &START) && nine(zeros, &ZEROS));
    CHECK(!sojimu_sound(zeros) && !sojimu_sound_at(zeros, 0) && sojimu_dual(zeros).question == 9);
    CHECK(sojimu_fresh(zeros, SETTING).question == 9 && sojimu_make(zeros, 0, SOJIMU_ALL_LOW, out, ROOM).question == 9);
    const struct sojimu_fit one = sojimu_fit(zeros, &p, list, SOJIMU_LIST), other = sojimu_fit(&p, zeros, list, SOJIMU_LIST);
    CHECK(one.outcome == SOJIMU_FIT_REFUSED && one.question == 9);
    CHECK(other.outcome == SOJIMU_FIT_REFUSED && other.question == 9);
}

static void states(void)
{
    const struct sojimu_started started = {0};
    CHECK(nine(&p, &ZEROS) && nine(&p, &started.state) && nine(&second, &ZEROS) && !nine(&p, &START));
    CHECK(sojimu_fresh(&p, 0).question == 21);
}

/* What a length of 0 comes to in the call that takes it. */
static void lengths(void)
{
    const struct sojimu_due due = {0, 0};
    const struct sojimu_made made = {0, 0};
    struct sojimu_state s = START;
    CHECK(sojimu_step(&p, &s, due.side, ASK_100, due.length, out, ROOM).question == 13);
    CHECK(sojimu_step(&p, &s, SOJIMU_DEVICE, ASK_100, made.length, out, ROOM).question == 13);
    CHECK(sojimu_step(&second, &s, due.side, ASK_100, due.length, out, ROOM).question == 13);
    CHECK(sojimu_refusal(ASK_100, made.length) == 13 && sojimu_front(ASK_100, made.length).question == 13);
    CHECK(sojimu_decode(ASK_100, made.length).question == 13 && sojimu_read((const uint8_t *)P, 0).question == 3);
    CHECK(sojimu_fit(&p, &p, list, 0).question == 17 && same_states(&s, &START));
}

/* ---- every answer says something */

/* Whether a verdict is one of those that the header has, and what does not apply in it is as the header says. */
static bool told(struct sojimu_verdict v)
{
    const bool quiet = v.party == 0 && v.reason == 0 && v.field == 0;
    const bool field = v.reason == SOJIMU_OUT_OF_RANGE ? v.field < SOJIMU_FIELDS : v.field == 0;
    switch (v.outcome) {
    case SOJIMU_FORWARDED:
    case SOJIMU_NONE_DUE:
        return v.question == 0 && quiet;
    case SOJIMU_REFUSED:
        return ((v.question >= 9 && v.question <= 16) || v.question == 22) && quiet;
    case SOJIMU_BLAMED:
        return v.question == 0 && (v.party == SOJIMU_DEVICE || v.party == SOJIMU_HOST) && v.reason >= SOJIMU_NO_LABEL &&
               v.reason <= SOJIMU_EARLY && field;
    default:
        return false;
    }
}

/* A number below another, at random. */
static uint32_t draw(uint32_t below)
{
    static uint64_t seed = 7;
    seed = seed * UINT64_C(6364136223846793005) + 1442695040888963407;
    return (uint32_t)(seed >> 33) % below;
}

/* A message of P's, with a byte of it changed now and then. */
static size_t draw_message(uint8_t bytes[32])
{
    static const char *const labels[] = {"Ok", "Quit", "No"};
    const uint32_t label = draw(6);
    const size_t length =
        label < 3 ? plain(bytes, labels[label]) : with_number(bytes, "Ask", (uint8_t)draw(3), (int32_t)draw(120));
    if (draw(4) == 0) {
        bytes[draw((uint32_t)length)] = (uint8_t)draw(256);
    }
    return length - (draw(8) == 0);
}

/* Steps and batches over states and messages at random: each of the four outcomes comes, and no other. */
static void answers(void)
{
    static const uint8_t standings[] = {SOJIMU_RUNNING, SOJIMU_RUNNING, SOJIMU_RUNNING, 3, SOJIMU_HOST_BLAMED};
    unsigned met[SOJIMU_NONE_DUE + 1] = {0}, others = 0;
    for (int round = 0; round < 20000; round++) {
        struct sojimu_state s = STATE((uint8_t)draw(4), standings[draw(5)]), t = s;
        uint8_t message[32], to_device[ROOM];
        const size_t length = draw_message(message);
        const struct sojimu_table *const table = draw(2) == 0 ? &p : &second;
        const struct sojimu_verdict v = sojimu_step(table, &s, draw(4), message, length, out, draw(20));
        const struct sojimu_verdict last =
            sojimu_batch(table, &t, message, length, message, length, to_device, draw(20), out, draw(20)).last;
        CHECK(told(v) && v.outcome != SOJIMU_NONE_DUE && told(last));
        (*(v.outcome < SOJIMU_NONE_DUE ? met + v.outcome : &others))++;
        (*(last.outcome <= SOJIMU_NONE_DUE ? met + last.outcome : &others))++;
    }
    CHECK(others == 0 && met[SOJIMU_FORWARDED] > 100 && met[SOJIMU_REFUSED] > 100);
    CHECK(met[SOJIMU_BLAMED] > 100 && met[SOJIMU_NONE_DUE] > 100);
}

int main(void)
{
    char text[80] = "edition 2 ";
    strcat(text, P);
    p = table_of(P);
    second = table_of(text);
    tables();
    states();
    lengths();
    answers();
    return counts();
}
