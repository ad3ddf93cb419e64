/* Conversations with counts through include/sojimu.h: how they start, what is counted and when no more, question 9 on the counts, and
 * the warnings. Prints a line for each check that fails, and at the end `N passed, M failed`. */
#include "check.h"

/* P with shares: a device that asks in nine of ten cases. The branches are Ask, Ok and Quit; the states asking, answering, end. */
static const char SHARED[] = "rec X.+{!Ask(int[0..100])@900.&{?Ok().X},!Quit()@100.end}";

static struct sojimu_table p;

/* ---- starts */

static const struct sojimu_state NOTHING;

static void starts(void)
{
    static const uint32_t none[] = {0, 1001, 1002, 65535, 65536, 65537, 66536, 0x80000001, 0xFFFFFFFF};
    for (uint32_t setting = 1; setting <= 1000; setting++) {
        const struct sojimu_started started = sojimu_fresh(&p, setting);
        const struct sojimu_state wanted = {0, SOJIMU_RUNNING, (uint16_t)setting, {0}, {0}};
        CHECK(started.question == 0 && same_states(&started.state, &wanted));
    }
    for (size_t i = 0; i < sizeof none / sizeof none[0]; i++) {
        const struct sojimu_started late = sojimu_fresh(&p, none[i]), early = sojimu_fresh(&empty, none[i]);
        CHECK(late.question == 21 && same_states(&late.state, &NOTHING));
        CHECK(early.question == 9 && same_states(&early.state, &NOTHING));
    }
    CHECK(sojimu_fresh(&empty, SETTING).question == 9);
}

/* ---- question 9 on the counts */

/* Every call that takes this state answers 9, and leaves it and both outputs as they were. */
static bool all_nine(const struct sojimu_state *given)
{
    struct sojimu_state s = *given;
    uint8_t ok[9];
    plain(ok, "Ok");
    mark();
    const struct sojimu_verdict v = sojimu_step(&p, &s, SOJIMU_DEVICE, ASK_100, sizeof ASK_100, out, ROOM);
    const struct sojimu_verdict nobody = sojimu_step(&p, &s, 2, ASK_100, sizeof ASK_100, out, ROOM);
    const struct sojimu_batch b = sojimu_batch(&p, &s, ASK_100, sizeof ASK_100, ok, 9, out + 160, 160, out, 160);
    const struct sojimu_due due = sojimu_due(&p, &s, ASK_100, sizeof ASK_100, ok, 9);
    const struct sojimu_warning w = sojimu_warning(&p, &s, 0), beyond = sojimu_warning(&p, &s, 3);
    return v.outcome == SOJIMU_REFUSED && v.question == 9 && nobody.outcome == SOJIMU_REFUSED && nobody.question == 9 &&
           b.last.outcome == SOJIMU_REFUSED && b.last.question == 9 && b.used_device == 0 && b.written_to_host == 0 &&
           sojimu_turn(&p, &s).question == 9 && due.side == SOJIMU_DEVICE && due.length == 0 && w.question == 9 && w.warns == 0 &&
           w.sender == 0 && w.estimate == SOJIMU_NO_ESTIMATE && beyond.question == 9 && same_states(&s, given) && opens(NULL, 0);
}

/* Three asked and two answered, as a state has it. */
static struct sojimu_state counted(void)
{
    struct sojimu_state s = STATE(1, SOJIMU_RUNNING);
    s.n[0] = s.k[0] = 3;
    s.n[1] = s.k[1] = 2;
    return s;
}

static void nine(void)
{
    struct sojimu_state s = counted();
    CHECK(sojimu_turn(&p, &s).question == 0 && !all_nine(&s) && all_nine(&NOTHING));
    for (size_t place = 0; place < 161; place++) {
        const bool looked_at = place <= 2 || (place >= 33 && place <= 35);
        for (unsigned bit = 0; bit < 16; bit++) {
            s = counted();
            sojimu_counts(&s)[place] ^= (uint16_t)(1 << bit);
            CHECK(place == 0 ? all_nine(&s) == (s.setting == 0 || s.setting > 1000) : all_nine(&s) == looked_at);
        }
    }
    s = counted();
    s.n[0] = s.k[0] = 10000;
    CHECK(sojimu_turn(&p, &s).question == 0);
    s.n[0] = s.k[0] = 10001;
    CHECK(all_nine(&s));
    s.n[0] = 0;
    s.k[0] = s.k[2] = 32768; /* their sum is 0 in 16 bits */
    CHECK(all_nine(&s));
}

/* ---- what is counted */

static struct sojimu_verdict say(struct sojimu_state *s, uint32_t side, const char *label, int32_t number)
{
    uint8_t m[14];
    const size_t length = number < 0 ? plain(m, label) : with_number(m, label, SOJIMU_KIND_INT, number);
    return sojimu_step(&p, s, side, m, length, out, ROOM);
}

/* Asked and answered more often than is counted: n and k rise together, and stop together. */
static void rounds(void)
{
    struct sojimu_state s = fresh(&p);
    s.n[2] = 7; /* at the end nothing is counted, and nothing looked at */
    s.k[3] = 9;
    for (unsigned i = 1; i <= 10003; i++) {
        const unsigned most = i < 10000 ? i : 10000;
        const bool asked = say(&s, SOJIMU_DEVICE, "Ask", (int32_t)(i % 101)).outcome == SOJIMU_FORWARDED;
        CHECK(asked && s.n[0] == most && s.k[0] == most && s.n[1] == (i <= 10000 ? i - 1 : 10000) && s.k[1] == s.n[1]);
        CHECK(say(&s, SOJIMU_HOST, "Ok", -1).outcome == SOJIMU_FORWARDED && s.n[1] == most && s.k[1] == most);
    }
    /* the first Quit comes when no more is counted */
    CHECK(say(&s, SOJIMU_DEVICE, "Quit", -1).outcome == SOJIMU_FORWARDED && s.position == 2);
    CHECK(s.n[0] == 10000 && s.k[0] == 10000 && s.k[2] == 0 && s.n[2] == 7 && s.k[3] == 9 && s.setting == SETTING);
}

/* Refusals and blames count nothing. */
static void uncounted(void)
{
    const struct sojimu_state start = fresh(&p);
    struct sojimu_state s = start;
    CHECK(say(&s, SOJIMU_HOST, "Ok", -1).question == 12 && same_states(&s, &start));
    CHECK(sojimu_step(&p, &s, SOJIMU_DEVICE, ASK_100, sizeof ASK_100, out, 13).question == 16 && same_states(&s, &start));
    CHECK(say(&s, SOJIMU_DEVICE, "Ask", 101).outcome == SOJIMU_BLAMED && s.standing == SOJIMU_DEVICE_BLAMED);
    s.standing = SOJIMU_RUNNING;
    CHECK(same_states(&s, &start));
}

/* A batch counts what its steps count. */
static void batch_counts(void)
{
    struct sojimu_state s = fresh(&p);
    uint8_t device[14 * 3], host[9 * 2], to_device[ROOM];
    for (size_t i = 0; i < 3; i++) {
        with_number(device + 14 * i, "Ask", SOJIMU_KIND_INT, i == 2 ? 101 : 5);
    }
    plain(host, "Ok");
    plain(host + 9, "Ok");
    const struct sojimu_batch b = sojimu_batch(&p, &s, device, sizeof device, host, sizeof host, to_device, ROOM, out, ROOM);
    CHECK(b.last.outcome == SOJIMU_BLAMED && b.used_device == 42 && b.written_to_host == 28);
    CHECK(s.n[0] == 2 && s.k[0] == 2 && s.k[2] == 0 && s.n[1] == 2 && s.k[1] == 2);
}

/* ---- warnings */

/* Of a choice of two branches, the first with share w (0: none) and k of n messages. */
static struct sojimu_warning told(const char *mark_of, unsigned w, unsigned z, unsigned n, unsigned k)
{
    char text[64];
    if (w == 0) {
        sprintf(text, "%c{%cA().end,%cB().end}", mark_of[0], mark_of[1], mark_of[1]);
    } else {
        sprintf(text, "%c{%cA()@%u.end,%cB()@%u.end}", mark_of[0], mark_of[1], w, mark_of[1], 1000 - w);
    }
    const struct sojimu_table t = table_of(text);
    struct sojimu_state s = sojimu_fresh(&t, z).state;
    s.n[0] = (uint16_t)n;
    s.k[0] = (uint16_t)k;
    s.k[1] = (uint16_t)(n - k);
    return sojimu_warning(&t, &s, 0);
}

static bool tells(struct sojimu_warning w, uint32_t warns, uint32_t sender, uint32_t estimate)
{
    return w.question == 0 && w.warns == warns && w.sender == sender && w.estimate == estimate;
}

static void warnings(void)
{
    /* document 02's example: 10,000 (2,000 - 60)^2 = 37,636,000,000, and 442^2 10 990 6 = 11,604,621,600 */
    CHECK(tells(told("+!", 10, 442, 6, 2), 1, SOJIMU_DEVICE, 333));
    /* 795^2 59,400 = 37,542,285,000 and 796^2 59,400 = 37,636,790,400 */
    CHECK(tells(told("+!", 10, 795, 6, 2), 1, SOJIMU_DEVICE, 333) && tells(told("+!", 10, 796, 6, 2), 0, SOJIMU_DEVICE, 333));
    /* the edge is inside: 10,000 2,000^2 = 200^2 500 500 4 */
    CHECK(tells(told("&?", 500, 200, 4, 4), 0, SOJIMU_HOST, 1000) && tells(told("&?", 500, 199, 4, 4), 1, SOJIMU_HOST, 1000));
    CHECK(tells(told("&?", 500, 200, 4, 0), 0, SOJIMU_HOST, 0) && tells(told("&?", 500, 199, 4, 0), 1, SOJIMU_HOST, 0));
    /* the largest numbers: 10,000 (10,000,000 - 10,000)^2, all picks of a branch that should get one in a thousand */
    CHECK(tells(told("+!", 1, 1000, 10000, 10000), 1, SOJIMU_DEVICE, 1000));
    CHECK(tells(told("+!", 999, 1, 10000, 0), 1, SOJIMU_DEVICE, 0) && tells(told("+!", 999, 1, 10000, 9990), 0, SOJIMU_DEVICE, 999));
    /* nothing counted; no share */
    CHECK(tells(told("+!", 10, 1, 0, 0), 0, SOJIMU_DEVICE, SOJIMU_NO_ESTIMATE));
    CHECK(tells(told("&?", 0, 1, 0, 0), 0, SOJIMU_HOST, SOJIMU_NO_ESTIMATE));
    CHECK(tells(told("&?", 0, 1, 10000, 10000), 0, SOJIMU_HOST, 1000) && tells(told("+!", 0, 1, 3, 0), 0, SOJIMU_DEVICE, 0));
}

/* 1,000k / n to the nearest whole, halves up. */
static void estimates(void)
{
    CHECK(told("+!", 0, 1, 16, 1).estimate == 63 && told("+!", 0, 1, 16, 3).estimate == 188);
    CHECK(told("+!", 0, 1, 3, 1).estimate == 333 && told("+!", 0, 1, 3, 2).estimate == 667);
    CHECK(told("+!", 0, 1, 2000, 1).estimate == 1 && told("+!", 0, 1, 2001, 1).estimate == 0);
    CHECK(told("+!", 0, 1, 10000, 9994).estimate == 999 && told("+!", 0, 1, 10000, 9995).estimate == 1000);
}

/* Whoever is blamed, and wherever the conversation is, the page can be shown; 18 comes after 9. */
static void anywhere(void)
{
    struct sojimu_state s = counted();
    for (unsigned position = 0; position < 3; position++) {
        for (unsigned standing = 0; standing < 256; standing++) {
            s.position = (uint8_t)position;
            s.standing = (uint8_t)standing;
            CHECK(tells(sojimu_warning(&p, &s, 0), 0, SOJIMU_DEVICE, 1000) && tells(sojimu_warning(&p, &s, 1), 0, SOJIMU_HOST, 1000));
            CHECK(sojimu_warning(&p, &s, 3).question == 18 && sojimu_warning(&p, &s, 3).estimate == SOJIMU_NO_ESTIMATE);
        }
    }
    s.position = 3;
    CHECK(sojimu_warning(&p, &s, 0).question == 9 && sojimu_warning(&p, &s, 3).question == 9);
}

int main(void)
{
    p = table_of(SHARED);
    starts();
    nine();
    rounds();
    uncounted();
    batch_counts();
    warnings();
    estimates();
    anywhere();
    return counts();
}
