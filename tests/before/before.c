/* Steps and batches by two archives, which take turns in ROUNDS rounds; a time is that of the best round, in ns for a message, a
 * ratio the median of all. */
#include "side.h"

#include <sojimu.h>
#include <stdio.h>
#include <stdlib.h>
#include <string.h>

enum { ROUNDS = 1001 };

static size_t length;

static void must(bool holds, const char *what)
{
    if (!holds) {
        fprintf(stderr, "%s\n", what);
        exit(2);
    }
}

/* Both take a protocol, and a message of one field. */
static void take(const char *text, const char *label, struct sojimu_field field)
{
    uint8_t message[SOJIMU_MESSAGE];
    length = sojimu_encode(sojimu_label(label), &field, 1, message, sizeof message).length;
    must(length > 0 && side_take(text, message, length) && before_side_take(text, message, length), text);
}

static int lower(const void *a, const void *b)
{
    const double x = *(const double *)a, y = *(const double *)b;
    return (x > y) - (x < y);
}

static void race(const char *name, double (*now)(void), double (*before)(void))
{
    static double ratios[ROUNDS];
    double best[2] = {1e9, 1e9};
    for (int i = 0; i < ROUNDS; i++) {
        double took[2];
        for (int k = 0; k < 2; k++) {
            const bool earlier = (i + k) % 2 == 0;
            took[earlier] = (earlier ? before : now)();
            must(took[earlier] > 0, name);
            best[earlier] = took[earlier] < best[earlier] ? took[earlier] : best[earlier];
        }
        ratios[i] = took[0] / took[1];
    }
    qsort(ratios, ROUNDS, sizeof ratios[0], lower);
    printf("%-40s %4zu bytes %8.1f %8.1f %6.2f\n", name, length, best[0], best[1], ratios[ROUNDS / 2]);
}

#define STEPS(name) race("step, " name, side_steps, before_side_steps)
#define BATCHES(name) race("batch, " name, side_batches, before_side_batches)

int main(void)
{
    static const char says[] = "rec X.+{!Say(text[0..64]).X}", counts[] = "rec X.+{!Say(int[0..9]).X}";
    static const char small[] = "rec X.+{!Say(text[0..64]).X,!Ask(int[0..100]).&{?Ok().X},!Quit().end}";
    static char many[4096] = "rec X.+{!Say(text[0..64]).X";
    char ascii[64], three[64] = " ";
    memset(ascii, 'g', sizeof ascii);
    for (size_t i = 1; i < sizeof three; i++)
        three[i] = "\xE2\x82\xAC"[(i - 1) % 3];
    for (int i = 0; i < 19; i++)
        sprintf(many + strlen(many), ",!A%d(int[0..100],flag[0..1],text[0..8]).X", i);
    strcat(many, "}");
    printf("%-40s %10s %8s %8s %6s\n", "ns for a message", "", "now", "before", "ratio");
    take(says, "Say", sojimu_text(ascii, 64));
    STEPS("1 branch, 64 of ASCII");
    BATCHES("1 branch, 64 of ASCII");
    take(small, "Say", sojimu_text(ascii, 64));
    STEPS("4 branches, 64 of ASCII");
    take(many, "Say", sojimu_text(ascii, 64));
    STEPS("20 branches, 64 of ASCII");
    take(says, "Say", sojimu_text(three, 64));
    STEPS("1 branch, 21 of three bytes and one");
    take(says, "Say", sojimu_text(ascii, 0));
    STEPS("1 branch, an empty text");
    take(counts, "Say", sojimu_int(7));
    STEPS("1 branch, an int");
    BATCHES("1 branch, an int");
    return 0;
}
