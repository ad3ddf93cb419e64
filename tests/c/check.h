/* What the test programs share: counted checks, buffers that show what was written, and document 01's P. */
#include <stdio.h>
#include <string.h>

#include "sojimu.h"

static unsigned passed, failed;

#define CHECK(claim) check((claim), #claim, __LINE__)

static inline void check(bool holds, const char *claim, int line)
{
    if (holds) {
        passed++;
    } else {
        failed++;
        printf("line %d: %s\n", line, claim);
    }
}

/* The last line, and the status. */
static inline int counts(void)
{
    printf("%u passed, %u failed\n", passed, failed);
    return failed == 0 ? 0 : 1;
}

/* ---- buffers that show what was written */

enum { ROOM = 320, MARK = 0xA5 };

static uint8_t out[ROOM];

static inline void mark(void)
{
    memset(out, MARK, sizeof out);
}

/* Whether `out` begins with these bytes, and its rest still has its marks. */
static inline bool opens(const uint8_t *bytes, size_t length)
{
    for (size_t i = 0; i < ROOM; i++) {
        if (out[i] != (i < length ? bytes[i] : MARK)) {
            return false;
        }
    }
    return true;
}

static uint16_t list[SOJIMU_LIST];

static inline void mark_list(void)
{
    memset(list, MARK, sizeof list);
}

/* Whether the list has its marks from a place on. */
static inline bool marked_from(size_t place)
{
    for (size_t i = place; i < SOJIMU_LIST; i++) {
        if (list[i] != MARK * 257) {
            return false;
        }
    }
    return true;
}

/* ---- texts and tables */

static const char P[] = "rec X.+{!Ask(int[0..100]).&{?Ok().X},!Quit().end}";

static const uint8_t ASK_100[] = {0x41, 0x73, 0x6B, 0, 0, 0, 0, 0, 1, 0, 0, 0, 0, 0x64};

static const struct sojimu_table empty;

static inline struct sojimu_reading read_text(const char *text)
{
    return sojimu_read((const uint8_t *)text, strlen(text));
}

static inline struct sojimu_table table_of(const char *text)
{
    const struct sojimu_reading r = read_text(text);
    CHECK(r.question == 0 && r.at == 0);
    CHECK(sojimu_sound(&r.table));
    return r.table;
}

static inline bool same_tables(const struct sojimu_table *a, const struct sojimu_table *b)
{
    return memcmp(a, b, sizeof *a) == 0;
}

/* A text that uses all 32 states, all 128 branches and every kind, and stays within its room. */
static inline size_t largest_text(char *text)
{
    size_t n = (size_t)sprintf(text, "rec X.+{");
    for (int i = 0; i < 31; i++) {
        n += (size_t)sprintf(text + n, "%s!A%d(text[0..64],int[-2147483648..2147483647],flag[0..1],text[1..64]).&{",
                             i ? "," : "", i);
        for (int j = 0; j < (i < 4 ? 4 : 3); j++) {
            n += (size_t)sprintf(text + n, "%s?B%d(text[0..9]).X", j ? "," : "", j);
        }
        n += (size_t)sprintf(text + n, "}");
    }
    return n + (size_t)sprintf(text + n, "}");
}

/* ---- states */

/* The setting of the tests, in hundredths, and a state with nothing counted. */
enum { SETTING = 200 };

#define STATE(position, standing) {position, standing, SETTING, {0}, {0}}

/* A conversation that begins over a table. */
static inline struct sojimu_state fresh(const struct sojimu_table *table)
{
    const struct sojimu_started started = sojimu_fresh(table, SETTING);
    CHECK(started.question == 0);
    return started.state;
}

static inline bool same_states(const struct sojimu_state *a, const struct sojimu_state *b)
{
    return memcmp(a, b, sizeof *a) == 0;
}

/* ---- messages */

static inline void put_number(uint8_t *bytes, int32_t value)
{
    const uint32_t n = (uint32_t)value;
    bytes[0] = (uint8_t)(n >> 24);
    bytes[1] = (uint8_t)(n >> 16 & 255);
    bytes[2] = (uint8_t)(n >> 8 & 255);
    bytes[3] = (uint8_t)(n & 255);
}

/* A message with no field, or with one that is not a text. */
static inline size_t plain(uint8_t *bytes, const char *label)
{
    memset(bytes, 0, 9);
    memcpy(bytes, label, strlen(label));
    return 9;
}

static inline size_t with_number(uint8_t *bytes, const char *label, uint8_t kind, int32_t value)
{
    plain(bytes, label);
    bytes[8] = 1;
    bytes[9] = kind;
    put_number(bytes + 10, value);
    return 14;
}
