/* Sojimu: verified session monitoring, for C99 and C++11 or later on x86-64, which here means the System V ABI and ELF.
 *
 * A protocol is a session type, as a device sees it. A gateway reads its text into a table once (sojimu_read), keeps one state of
 * 324 bytes for each conversation (sojimu_fresh), and asks of every message whether it may pass (sojimu_step), or of all that wait
 * together (sojimu_batch). It may ask of a branch with a share whether it is picked far too often or too seldom (sojimu_warning),
 * and, before installation, whether a described device fits (sojimu_fit). Link with libsojimu.a: one of another version does not
 * link. sojimu_words.h says in words what is here in numbers; sojimu_conversation.h has a conversation ready made.
 *
 * Every function of the library is proved to meet its contract for every input. What is proved ends at the calls below: this
 * header, which is C, is tested.
 *
 * What every call keeps:
 *   - No precondition on values: any table, any bytes and any number may be given. What breaks the rules is refused by the number
 *     of a question; three calls carry no number, and answer 0 instead: sojimu_due and sojimu_report a length, sojimu_label a
 *     label. A number that is too large is refused, never cut. On a refusal nothing that was lent is changed, any table given
 *     back is empty and any count 0.
 *   - A table or a state of zeros is refused by 9 in every call that takes it, and a message of length 0 by 13.
 *   - Every byte of what is given back is determined: no struct here has padding.
 *   - No global state, no allocation, no lock, no call back, no input or output: calls may be made from any threads, as long as
 *     what one call writes (state, outputs, list) is in use by no other. Of the C library only memcpy and memset are called.
 *   - Pointers point to what they say, for the call's duration. NULL is taken wherever the length or the room is 0. What a call
 *     writes overlaps nothing else that the call is given.
 *
 * The questions, by number, and what belongs to them. Their names are below: SOJIMU_TEXT_TOO_LONG says that 1 got a no.
 * docs/NOTATION.md explains each: which call asks it and in which order, what a yes needs, and what to do on a no.
 *    1  Is the text at most 8,192 bytes long?
 *    2  Is the token well formed?
 *    3  Does the grammar allow it here? (Asked of the end of the text, too.)
 *    4  Is the name bound by a `rec` around it? (Asked of a name that is used as a type.)
 *    5  Does a choice stand between the name after the dot of a `rec` and its own binder? (The innermost `rec` of that name.)
 *    6  Is the number within its kind, and high not below low?
 *    7  Is the label new in its choice?
 *    8  Is the token within the limits? (32 states, 128 branches, 4 fields in a branch, and 16 choices and `rec`s open around one
 *       another.)
 *    9  Is the table sound, its edition 1 or 2, the position one of its states, and are the counts sound? (Its shares are part of
 *       the table. Position and counts are asked where they are given with it: does each choice's k add up to its n, at most
 *       10,000, and is the setting 1 to 1000?)
 *   10  Is the standing running?
 *   11  Is the position not an end?
 *   12  Is it this side's turn? (Under edition 1. Edition 2 does not ask it of a side: who speaks out of turn is blamed.)
 *   13  Are there nine bytes, a legal label, a count of at most 4, and both arrays whole?
 *   14  Is every kind known and every number within its kind?
 *   15  Is the length exactly what this gives?
 *   16  Does the output buffer hold the message?
 *   17  Has the list device states times protocol states entries? (More are as good.)
 *   18  Does the branch exist, and has it the named field?
 *   19  Is the share 1 to 1000? (Asked after 6.)
 *   20  Has the choice no shares, or one for each branch, which add to 1000? (Asked after 8, at its closing brace.)
 *   21  Is the setting 1 to 1000? (Asked after 9.)
 *   22  Is every text well-formed UTF-8? (Each by itself. Asked after 15, before 16.)
 *   23  Is the edition 1 or 2? (Asked after 3, at the number after the word `edition`.)
 */
#ifndef SOJIMU_H
#define SOJIMU_H

#if !defined(__x86_64__) || !defined(__ELF__)
#error "sojimu: the library is for x86-64 with the System V ABI and ELF"
#endif

#include <stdbool.h>
#include <stddef.h>
#include <stdint.h>

/* Of this header alone, which undefines them at its end: what must hold, or nothing compiles; a number, and a pointer, as another
 * type. */
#ifdef __cplusplus
extern "C" {
#define SOJIMU_HOLDS(claim) static_assert(claim, #claim)
#define SOJIMU_NUMBER(type, value) static_cast<type>(value)
#define SOJIMU_POINTER(type, value) reinterpret_cast<type>(value)
#else
#define SOJIMU_HOLDS(claim) __extension__ _Static_assert(claim, #claim)
#define SOJIMU_NUMBER(type, value) ((type)(value))
#define SOJIMU_POINTER(type, value) ((type)(value))
#endif

/* ---- constants */

/* This header's version: raised whenever a struct or a call changes. */
#define SOJIMU_VERSION UINT32_C(6)

/* Limits. A protocol's text has at most 8,192 bytes, a text in a message 64, a message 285; a list that question 17 never refuses
 * has 1,024 entries, a buffer that holds every report 16,384 bytes. As soon as SOJIMU_FRONT bytes are there, a message announces
 * its length. */
enum {
    SOJIMU_STATES = 32,
    SOJIMU_BRANCHES = 128,
    SOJIMU_FIELDS = 4,
    SOJIMU_TEXT = 8192,
    SOJIMU_TEXT_FIELD = 64,
    SOJIMU_FRONT = 29,
    SOJIMU_MESSAGE = 285,
    SOJIMU_LIST = 1024,
    SOJIMU_REPORT = 16384
};

/* The stack in bytes that a call of the library needs at most, beside the place for a struct that it gives back, which is its
 * caller's, and what memcpy and memset need. */
enum {
    SOJIMU_STACK_READ = 36864,
    SOJIMU_STACK_REPORT = 77824,
    SOJIMU_STACK_DUAL = 12288,
    SOJIMU_STACK_FIT = 6144,
    SOJIMU_STACK_TABLE = 1280, /* every other call that takes a table, a step among them */
    SOJIMU_STACK_OTHER = 256   /* every other call */
};

/* The questions, by names that say what a no means. In `question`, 0 means that none got a no. */
enum {
    SOJIMU_TEXT_TOO_LONG = 1,     /* is the text at most 8,192 bytes long? */
    SOJIMU_BAD_TOKEN = 2,         /* is the token well formed? */
    SOJIMU_MISPLACED = 3,         /* does the grammar allow it here? */
    SOJIMU_UNBOUND = 4,           /* is the name bound by a rec around it? */
    SOJIMU_UNGUARDED = 5,         /* does a choice stand between the name after the dot of a rec and its own binder? */
    SOJIMU_BAD_RANGE = 6,         /* is the number within its kind, and high not below low? */
    SOJIMU_LABEL_TWICE = 7,       /* is the label new in its choice? */
    SOJIMU_TOO_MANY = 8,          /* is the token within the limits? */
    SOJIMU_UNSOUND = 9,           /* is the table sound, its edition 1 or 2, the position one of its states, and are the counts
                                     sound? */
    SOJIMU_NOT_RUNNING = 10,      /* is the standing running? */
    SOJIMU_AT_END = 11,           /* is the position not an end? */
    SOJIMU_OUT_OF_TURN = 12,      /* is it this side's turn? */
    SOJIMU_BAD_FRONT = 13,        /* are there nine bytes, a legal label, a count of at most 4, and both arrays whole? */
    SOJIMU_BAD_FIELD = 14,        /* is every kind known and every number within its kind? */
    SOJIMU_OTHER_LENGTH = 15,     /* is the length exactly what this gives? */
    SOJIMU_OUTPUT_TOO_SHORT = 16, /* does the output buffer hold the message? */
    SOJIMU_LIST_TOO_SHORT = 17,   /* has the list device states times protocol states entries? */
    SOJIMU_NO_BRANCH = 18,        /* does the branch exist, and has it the named field? */
    SOJIMU_BAD_SHARE = 19,        /* is the share 1 to 1000? */
    SOJIMU_BAD_SHARES = 20,       /* has the choice no shares, or one for each branch, which add to 1000? */
    SOJIMU_BAD_SETTING = 21,      /* is the setting 1 to 1000? */
    SOJIMU_NOT_UTF8 = 22,         /* is every text well-formed UTF-8? */
    SOJIMU_BAD_EDITION = 23       /* is the edition 1 or 2? */
};

/* A state's sort, in a table. */
enum { SOJIMU_ENDS = 0, SOJIMU_SENDS = 1, SOJIMU_RECEIVES = 2 };

/* A field's kind, in tables and in messages. */
enum { SOJIMU_KIND_INT = 0, SOJIMU_KIND_TEXT = 1, SOJIMU_KIND_FLAG = 2 };

/* Numbers are kept in offset form: the value (of an int; a text's length; 0 or 1 of a flag) plus this. */
#define SOJIMU_ORIGIN UINT32_C(0x80000000)

/* Sides. */
enum { SOJIMU_DEVICE = 0, SOJIMU_HOST = 1 };

/* A conversation's standing. */
enum { SOJIMU_RUNNING = 0, SOJIMU_DEVICE_BLAMED = 1, SOJIMU_HOST_BLAMED = 2 };

/* A step's outcome; of the last answer of a batch also that none was due. */
enum { SOJIMU_FORWARDED = 0, SOJIMU_REFUSED = 1, SOJIMU_BLAMED = 2, SOJIMU_NONE_DUE = 3 };

/* Why a sender is blamed: no such label; field count or kinds differ; a number outside its range; under edition 2, a message out
 * of turn, whatever else is wrong with it. */
enum { SOJIMU_NO_LABEL = 1, SOJIMU_OTHER_KINDS = 2, SOJIMU_OUT_OF_RANGE = 3, SOJIMU_EARLY = 4 };

/* A fit check's outcome. */
enum { SOJIMU_FITS = 0, SOJIMU_FAILS = 1, SOJIMU_FIT_REFUSED = 2 };

/* In the place of a field's number: no field is high, all numbers are low. */
enum { SOJIMU_ALL_LOW = 255 };

/* In the place of an estimate: nothing has been counted yet. */
enum { SOJIMU_NO_ESTIMATE = 65535 };

/* ---- what calls take and give */

/* A table: the first `states` sorts, and the first `branches` entries of owner (the state that a branch is of), target (the state
 * that it leads to), fields (their count), the label's two words (its eight bytes, filled up with 0x00, high byte first) and the
 * share in thousandths (0: none). Field f of branch b stands at 4 * b + f: its kind, and the range of its number in offset form.
 * The edition is 1 or 2, and 1 where the text names none. What lies beyond is not looked at, and `reserved` never is; both are 0
 * in a table that was read. Any word may have any value: question 9 tells a table. */
struct sojimu_table {
    uint32_t states, branches;
    uint32_t sort[32];
    uint32_t owner[128], target[128], fields[128];
    uint32_t label_high[128], label_low[128];
    uint32_t kind[512], low[512], high[512];
    uint32_t share[128];
    uint32_t edition, reserved;
};

/* What reading a text gives: question 0 and its table, `at` 0; or the question that got a no, the place of its token (of which
 * sojimu_words.h tells line and column), and the empty table (all 0). */
struct sojimu_reading {
    uint32_t question, at;
    struct sojimu_table table;
};

/* The dual: question 0 and the table, or 9 and the empty table. */
struct sojimu_turned {
    uint32_t question;
    struct sojimu_table table;
};

/* What the front of some bytes tells: question 0 and the length that the message announces, or 13 or 14 and length 0. */
struct sojimu_head {
    uint32_t question, length;
};

/* A conversation's state: where it is, its standing, and its counts. A standing that is none of the three codes counts as not
 * running: question 10 refuses it, and it is kept. `setting` is z, in hundredths; `n` has for each choice the number of its
 * messages that were forwarded, and `k` for each branch the number of those that took it, both counted until n is 10,000. What
 * `n` has at an end, and what both have beyond the table, is not looked at, and is kept. */
struct sojimu_state {
    uint8_t position, standing;
    uint16_t setting, n[32], k[128];
};

/* What a conversation is started with: question 0 and its state; or 9 or 21, and a state of 0 that every call refuses by 9. */
struct sojimu_started {
    uint32_t question;
    struct sojimu_state state;
};

/* Whose turn it is: question 0 and SOJIMU_DEVICE or SOJIMU_HOST, or 9, 10 or 11 and side 0. */
struct sojimu_turn {
    uint32_t question, side;
};

/* A step's verdict, or the last answer of a batch. refused: `question` is 9 to 16 or 22, of a batch 9, 10, 16 or 22. blamed:
 * `party` is SOJIMU_DEVICE or SOJIMU_HOST, `reason` 1 to 4, of a batch 1 to 3, and with SOJIMU_OUT_OF_RANGE `field` is the first
 * field (from 0) that is outside its range. What does not apply is 0. */
struct sojimu_verdict {
    uint8_t outcome, question, party, reason, field;
};

/* What came of a batch: how many of the bytes that wait on either side are used, those of forwarded and blamed messages; how many
 * bytes are written on either output, those of the messages forwarded to it; and the last answer. That is the verdict of the last
 * step tried, also where nothing was due after it; or 9 or 10, which refused the batch; or SOJIMU_NONE_DUE, where no step was
 * tried. `reserved` is 0. */
struct sojimu_batch {
    size_t used_device, used_host;
    size_t written_to_device, written_to_host;
    struct sojimu_verdict last;
    uint8_t reserved[3];
};

/* The due part: the first `length` bytes of a side's waiting bytes. Length 0: nothing is due. */
struct sojimu_due {
    uint32_t side, length;
};

/* A made message: question 0 and its length, or the question that got a no and length 0. */
struct sojimu_made {
    uint32_t question, length;
};

/* What is told of a branch: question 0, whether it warns (1) or not (0), SOJIMU_DEVICE or SOJIMU_HOST, which sends at its choice,
 * and the estimate of its share in thousandths, or SOJIMU_NO_ESTIMATE. Or 9 or 18, and what does not apply is 0, of the estimate
 * SOJIMU_NO_ESTIMATE. */
struct sojimu_warning {
    uint32_t question, warns, sender, estimate;
};

/* A fit check's answer. fits: `count` is the number of reachable pairs of states. fails: `count` is the number of moves shown,
 * the fewest that show it, and `high` the field that is high in the last, or SOJIMU_ALL_LOW. refused: `question` is 9 or 17. What
 * does not apply is 0, of `high` SOJIMU_ALL_LOW. */
struct sojimu_fit {
    uint32_t outcome, question, count, high;
};

SOJIMU_HOLDS(sizeof(bool) == 1 && sizeof(size_t) == 8 && sizeof(void *) == 8);

#define SOJIMU_AT(name, member, place) (offsetof(struct sojimu_##name, member) == (place))
SOJIMU_HOLDS(sizeof(struct sojimu_table) == 4 * 2340 && SOJIMU_AT(table, states, 0) && SOJIMU_AT(table, branches, 4 * 1));
SOJIMU_HOLDS(SOJIMU_AT(table, sort, 4 * 2) && SOJIMU_AT(table, owner, 4 * 34) && SOJIMU_AT(table, target, 4 * 162));
SOJIMU_HOLDS(SOJIMU_AT(table, fields, 4 * 290) && SOJIMU_AT(table, label_high, 4 * 418) && SOJIMU_AT(table, label_low, 4 * 546));
SOJIMU_HOLDS(SOJIMU_AT(table, kind, 4 * 674) && SOJIMU_AT(table, low, 4 * 1186) && SOJIMU_AT(table, high, 4 * 1698));
SOJIMU_HOLDS(SOJIMU_AT(table, share, 4 * 2210) && SOJIMU_AT(table, edition, 4 * 2338) && SOJIMU_AT(table, reserved, 4 * 2339));
SOJIMU_HOLDS(sizeof(struct sojimu_reading) == 9368 && SOJIMU_AT(reading, question, 0) && SOJIMU_AT(reading, at, 4));
SOJIMU_HOLDS(SOJIMU_AT(reading, table, 8));
SOJIMU_HOLDS(sizeof(struct sojimu_turned) == 9364 && SOJIMU_AT(turned, question, 0) && SOJIMU_AT(turned, table, 4));
SOJIMU_HOLDS(sizeof(struct sojimu_head) == 8 && SOJIMU_AT(head, question, 0) && SOJIMU_AT(head, length, 4));
SOJIMU_HOLDS(sizeof(struct sojimu_state) == 324 && SOJIMU_AT(state, position, 0) && SOJIMU_AT(state, standing, 1));
SOJIMU_HOLDS(SOJIMU_AT(state, setting, 2) && SOJIMU_AT(state, n, 4) && SOJIMU_AT(state, k, 68));
SOJIMU_HOLDS(sizeof(struct sojimu_started) == 328 && SOJIMU_AT(started, question, 0) && SOJIMU_AT(started, state, 4));
SOJIMU_HOLDS(sizeof(struct sojimu_turn) == 8 && SOJIMU_AT(turn, question, 0) && SOJIMU_AT(turn, side, 4));
SOJIMU_HOLDS(sizeof(struct sojimu_verdict) == 5 && SOJIMU_AT(verdict, outcome, 0) && SOJIMU_AT(verdict, question, 1));
SOJIMU_HOLDS(SOJIMU_AT(verdict, party, 2) && SOJIMU_AT(verdict, reason, 3) && SOJIMU_AT(verdict, field, 4));
SOJIMU_HOLDS(sizeof(struct sojimu_batch) == 40 && SOJIMU_AT(batch, used_device, 0) && SOJIMU_AT(batch, used_host, 8));
SOJIMU_HOLDS(SOJIMU_AT(batch, written_to_device, 16) && SOJIMU_AT(batch, written_to_host, 24) && SOJIMU_AT(batch, last, 32));
SOJIMU_HOLDS(SOJIMU_AT(batch, reserved, 37));
SOJIMU_HOLDS(sizeof(struct sojimu_due) == 8 && SOJIMU_AT(due, side, 0) && SOJIMU_AT(due, length, 4));
SOJIMU_HOLDS(sizeof(struct sojimu_made) == 8 && SOJIMU_AT(made, question, 0) && SOJIMU_AT(made, length, 4));
SOJIMU_HOLDS(sizeof(struct sojimu_warning) == 16 && SOJIMU_AT(warning, question, 0) && SOJIMU_AT(warning, warns, 4));
SOJIMU_HOLDS(SOJIMU_AT(warning, sender, 8) && SOJIMU_AT(warning, estimate, 12));
SOJIMU_HOLDS(sizeof(struct sojimu_fit) == 16 && SOJIMU_AT(fit, outcome, 0) && SOJIMU_AT(fit, question, 4));
SOJIMU_HOLDS(SOJIMU_AT(fit, count, 8) && SOJIMU_AT(fit, high, 12));
#undef SOJIMU_AT

/* ---- the library's calls over slices and states
 *
 * These alone take no NULL. A state is lent as its two bytes and its 161 counts. Each has an inline function without `raw` below,
 * where it is explained. */

struct sojimu_reading sojimu_raw_read(const uint8_t *text, size_t length);
size_t sojimu_raw_report(const uint8_t *protocol, size_t protocol_length, const uint8_t *device, size_t device_length,
                         uint8_t *out, size_t room);
struct sojimu_head sojimu_raw_front(const uint8_t *bytes, size_t length);
bool sojimu_raw_broken(const uint8_t *bytes, size_t length);
uint32_t sojimu_raw_refusal(const uint8_t *bytes, size_t length);
bool sojimu_raw_has_label(const uint8_t *bytes, size_t length, uint64_t label);
struct sojimu_made sojimu_raw_make(const struct sojimu_table *table, uint32_t branch, uint32_t named, uint8_t *out, size_t room);
struct sojimu_turn sojimu_raw_turn(const struct sojimu_table *table, const uint8_t *state, const uint16_t *counts);
struct sojimu_verdict sojimu_raw_step(const struct sojimu_table *table, uint8_t *state, uint16_t *counts, uint32_t side,
                                      const uint8_t *message, size_t length, uint8_t *out, size_t room);
struct sojimu_batch sojimu_raw_batch(const struct sojimu_table *table, uint8_t *state, uint16_t *counts, const uint8_t *device,
                                     size_t device_length, const uint8_t *host, size_t host_length, uint8_t *to_device,
                                     size_t device_room, uint8_t *to_host, size_t host_room);
struct sojimu_due sojimu_raw_due(const struct sojimu_table *table, const uint8_t *state, const uint16_t *counts,
                                 const uint8_t *device, size_t device_length, const uint8_t *host, size_t host_length);
struct sojimu_warning sojimu_raw_warning(const struct sojimu_table *table, const uint8_t *state, const uint16_t *counts,
                                         uint32_t branch);
struct sojimu_fit sojimu_raw_fit(const struct sojimu_table *device, const struct sojimu_table *protocol, uint16_t *list,
                                 size_t room);

/* What is lent for `given`: where there is nothing, a place at which nothing is read or written. */
static inline uint8_t *sojimu_lent(const void *given, size_t length)
{
    static const uint64_t nothing = 0;
    return SOJIMU_POINTER(uint8_t *, SOJIMU_POINTER(uintptr_t, length == 0 ? &nothing : given));
}

/* A state's two bytes, and its counts. */
static inline uint8_t *sojimu_place(const struct sojimu_state *state)
{
    return SOJIMU_POINTER(uint8_t *, SOJIMU_POINTER(uintptr_t, state));
}

static inline uint16_t *sojimu_counts(const struct sojimu_state *state)
{
    return SOJIMU_POINTER(uint16_t *, SOJIMU_POINTER(uintptr_t, state) + offsetof(struct sojimu_state, setting));
}

/* ---- the version */

/* The archive's version, by a name that carries it. Whatever includes this header refers to it, even where it calls nothing: an
 * archive of another version does not link, and the linker's message has this name. (Under --gc-sections the reference stays
 * where the compiler knows the attribute `retain`, as gcc 11 and clang 13 do. With an older one ask sojimu_matches.) */
uint32_t sojimu_abi_6(void);

#ifdef __has_attribute
#if __has_attribute(retain)
#define SOJIMU_KEPT __attribute__((used, retain))
#endif
#endif
#ifndef SOJIMU_KEPT
#define SOJIMU_KEPT __attribute__((used))
#endif
static uint32_t (*const sojimu_archive_must_be_of_version_6)(void) SOJIMU_KEPT = sojimu_abi_6;
#undef SOJIMU_KEPT

/* SOJIMU_VERSION of the header that belongs to the archive. */
uint32_t sojimu_version(void);

/* Whether this header and the archive belong together. */
static inline bool sojimu_matches(void)
{
    return sojimu_version() == SOJIMU_VERSION;
}

/* ---- texts and tables */

/* Reads a protocol text, which need not end in 0x00. Asks 1, then of each token from the left 2, 3, 23, 4, 5, 6, 19, 7, 8, 20. */
static inline struct sojimu_reading sojimu_read(const uint8_t *text, size_t length)
{
    return sojimu_raw_read(sojimu_lent(text, length), length);
}

/* The report on a device's text against a protocol's: whether it fits, the fewest moves that show it where it does not, or which
 * text is refused. Its bytes open `out`, the rest of which is unchanged, and its length is the answer. Where `out` does not hold
 * it, the answer is 0 and `out` is unchanged; SOJIMU_REPORT bytes always do. */
static inline size_t sojimu_report(const uint8_t *protocol, size_t protocol_length, const uint8_t *device, size_t device_length,
                                   uint8_t *out, size_t room)
{
    return sojimu_raw_report(sojimu_lent(protocol, protocol_length), protocol_length, sojimu_lent(device, device_length),
                             device_length, sojimu_lent(out, room), room);
}

/* Question 9: is the table sound? */
bool sojimu_sound(const struct sojimu_table *table);

/* Question 9 where a position is given with the table: is it sound, and the position one of its states? */
bool sojimu_sound_at(const struct sojimu_table *table, uint32_t position);

/* The table that a refusal gives back: all 0. It is not sound. */
struct sojimu_table sojimu_empty(void);

/* The dual: sending and receiving exchanged, under the same edition. Asks 9. */
struct sojimu_turned sojimu_dual(const struct sojimu_table *table);

/* Whether a table may have this label (eight bytes as one number, high byte first). */
bool sojimu_label_legal(uint64_t label);

/* Whether a table may have a field of this kind with this range, both ends in offset form. */
bool sojimu_range_legal(uint32_t kind, uint32_t low, uint32_t high);

/* The label that a C string spells, as one number; 0 where it is no legal label. */
static inline uint64_t sojimu_label(const char *name)
{
    uint64_t label = 0;
    int i;
    for (i = 0; i < 8 && *name != 0; i++)
        label |= SOJIMU_NUMBER(uint64_t, *name++ & 255) << (56 - 8 * i);
    return *name == 0 && sojimu_label_legal(label) ? label : 0;
}

/* ---- messages
 *
 * A message: label (8 bytes, filled up with 0x00), field count n (1 byte), n kinds (1 byte each), n numbers (4 bytes each, two's
 * complement, high byte first), then the texts' bytes in field order, each text well-formed UTF-8 by itself. Lengths are bytes. */

/* 13 and 14 of bytes that may go on after the message or stop within it. The texts' bytes are not looked at. */
static inline struct sojimu_head sojimu_front(const uint8_t *bytes, size_t length)
{
    return sojimu_raw_front(sojimu_lent(bytes, length), length);
}

/* Whether nothing that follows makes a message of these bytes: nine are there without a legal label and a count of at most 4, or
 * 14 refuses. From SOJIMU_FRONT bytes on, bytes are broken or announce their length. No more is told than that: below nine bytes the
 * answer is false, whatever they are, and the texts' bytes are never looked at. */
static inline bool sojimu_broken(const uint8_t *bytes, size_t length)
{
    return sojimu_raw_broken(sojimu_lent(bytes, length), length);
}

/* The first of 13, 14, 15 and 22 that refuses a message, or 0. */
static inline uint32_t sojimu_refusal(const uint8_t *bytes, size_t length)
{
    return sojimu_raw_refusal(sojimu_lent(bytes, length), length);
}

/* Whether there are at least eight bytes and the first eight are this label. */
static inline bool sojimu_has_label(const uint8_t *bytes, size_t length, uint64_t label)
{
    return sojimu_raw_has_label(sojimu_lent(bytes, length), length, label);
}

/* Makes the message of a branch: every number low, or the one in field `named` high (SOJIMU_ALL_LOW: none), texts filled with
 * 0x20. It opens `out`, the rest of which is unchanged. Asks 9, 18, 16. */
static inline struct sojimu_made sojimu_make(const struct sojimu_table *table, uint32_t branch, uint32_t named, uint8_t *out,
                                             size_t room)
{
    return sojimu_raw_make(table, branch, named, sojimu_lent(out, room), room);
}

/* A field, for sojimu_encode and from sojimu_decode: its kind, the four bytes of its number, and of a text, whose number is its
 * length, its bytes. */
struct sojimu_field {
    uint32_t kind, number;
    const uint8_t *text;
};

static inline struct sojimu_field sojimu_int(int32_t value)
{
    const struct sojimu_field field = {SOJIMU_KIND_INT, SOJIMU_NUMBER(uint32_t, value), NULL};
    return field;
}

/* More than SOJIMU_TEXT_FIELD bytes are too many, however many they are. */
static inline struct sojimu_field sojimu_text(const void *bytes, size_t length)
{
    const size_t number = length <= SOJIMU_TEXT_FIELD ? length : SOJIMU_TEXT_FIELD + 1;
    const struct sojimu_field field = {SOJIMU_KIND_TEXT, SOJIMU_NUMBER(uint32_t, number), SOJIMU_POINTER(const uint8_t *, bytes)};
    return field;
}

static inline struct sojimu_field sojimu_flag(bool value)
{
    const struct sojimu_field field = {SOJIMU_KIND_FLAG, value, NULL};
    return field;
}

/* A number's last bytes, high byte first. */
static inline void sojimu_put(uint8_t *out, uint64_t number, size_t length)
{
    for (; length > 0; number >>= 8)
        out[--length] = SOJIMU_NUMBER(uint8_t, number & 255);
}

/* Any message: a label and up to four fields. It opens `out`, the rest of which is unchanged. Asks 13 of the label and the count,
 * 14 of the fields (of a text that it has at most SOJIMU_TEXT_FIELD bytes), 22 of the texts, 16. */
static inline struct sojimu_made sojimu_encode(uint64_t label, const struct sojimu_field *fields, size_t count, uint8_t *out,
                                               size_t room)
{
    struct sojimu_made made = {SOJIMU_BAD_FRONT, 0};
    struct sojimu_head head;
    uint8_t message[SOJIMU_MESSAGE];
    size_t f, i, at = 9 + 5 * count;
    if (count > SOJIMU_FIELDS)
        return made;
    sojimu_put(message, label, 8);
    sojimu_put(message + 8, count, 1);
    for (f = 0; f < count; f++) {
        sojimu_put(message + 9 + f, fields[f].kind < 255 ? fields[f].kind : 255, 1);
        sojimu_put(message + 9 + count + 4 * f, fields[f].number, 4);
    }
    head = sojimu_raw_front(message, at);
    made.question = head.question;
    if (made.question != 0)
        return made;
    for (f = 0; f < count; f++)
        for (i = 0; fields[f].kind == SOJIMU_KIND_TEXT && i < fields[f].number; i++)
            message[at++] = fields[f].text[i];
    made.question = sojimu_raw_refusal(message, at);
    if (made.question == 0 && room < at)
        made.question = SOJIMU_OUTPUT_TOO_SHORT;
    if (made.question != 0)
        return made;
    made.length = head.length;
    for (i = 0; i < at; i++)
        out[i] = message[i];
    return made;
}

/* A message taken apart: question 0, its label, its field count, and its fields, whose texts lie within the message's bytes; or
 * 13, 14, 15 or 22. What does not apply is 0, the fields from `count` on among it. */
struct sojimu_decoded {
    uint32_t question, count;
    uint64_t label;
    struct sojimu_field fields[SOJIMU_FIELDS];
};

SOJIMU_HOLDS(sizeof(struct sojimu_field) == 16 && sizeof(struct sojimu_decoded) == 80);

/* The number of some bytes, high byte first. */
static inline uint64_t sojimu_get(const uint8_t *bytes, size_t length)
{
    uint64_t number = 0;
    size_t i;
    for (i = 0; i < length; i++)
        number = number << 8 | bytes[i];
    return number;
}

/* What sojimu_encode has put together. Asks 13, 14, 15, 22. */
static inline struct sojimu_decoded sojimu_decode(const uint8_t *bytes, size_t length)
{
    const struct sojimu_field none = {0, 0, NULL};
    struct sojimu_decoded decoded = {sojimu_refusal(bytes, length), 0, 0, {none, none, none, none}};
    size_t f, at;
    if (decoded.question != 0)
        return decoded;
    decoded.label = sojimu_get(bytes, 8);
    decoded.count = bytes[8];
    at = 9 + 5 * SOJIMU_NUMBER(size_t, decoded.count);
    for (f = 0; f < decoded.count; f++) {
        struct sojimu_field *const field = decoded.fields + f;
        field->kind = bytes[9 + f];
        field->number = SOJIMU_NUMBER(uint32_t, sojimu_get(bytes + 9 + decoded.count + 4 * f, 4));
        if (field->kind == SOJIMU_KIND_TEXT) {
            field->text = bytes + at;
            at += field->number;
        }
    }
    return decoded;
}

/* The value of an int's field; of another kind its number: a text's length, or 0 or 1. */
static inline int32_t sojimu_int_of(struct sojimu_field field)
{
    return SOJIMU_NUMBER(int32_t, field.number);
}

/* Whether a field is a flag that is true. */
static inline bool sojimu_flag_of(struct sojimu_field field)
{
    return field.kind == SOJIMU_KIND_FLAG && field.number == 1;
}

/* ---- the monitor */

/* A conversation begins: position 0, running, nothing counted, with the setting of its warnings in hundredths. Asks 9, 21. */
struct sojimu_started sojimu_fresh(const struct sojimu_table *table, uint32_t setting);

/* Five of the functions below have the names of the structs that they return, as `stat` has. C++ allows that, and g++ warns of
 * it. */
#if defined(__cplusplus) && defined(__GNUC__)
#pragma GCC diagnostic push
#pragma GCC diagnostic ignored "-Wshadow"
#endif

/* Whose turn it is, under either edition. Asks 9, 10, 11. */
static inline struct sojimu_turn sojimu_turn(const struct sojimu_table *table, const struct sojimu_state *state)
{
    return sojimu_raw_turn(table, sojimu_place(state), sojimu_counts(state));
}

/* One step. `side` says who sends the message; any number but SOJIMU_DEVICE and SOJIMU_HOST is no side's, and 12 refuses it under
 * either edition. Asks 9, 10, 11, 12, 13, 14, 15, 22, 16, under edition 2 without 12; on a refusal state and `out` are unchanged.
 * Else the message is judged: under edition 2 first whether it is its sender's turn, then against the position's branches. If one
 * allows it, it is forwarded: its bytes open `out`, the rest of which is unchanged, the position moves on, and n of its choice
 * and k of its branch rise by one, unless n is 10,000. If it is out of turn or none does, the sender is blamed, for ever: the
 * standing says so, and position, counts and `out` are unchanged. State and `out` overlap neither each other nor the table nor the
 * message. */
static inline struct sojimu_verdict sojimu_step(const struct sojimu_table *table, struct sojimu_state *state, uint32_t side,
                                                const uint8_t *message, size_t length, uint8_t *out, size_t room)
{
    return sojimu_raw_step(table, sojimu_place(state), sojimu_counts(state), side, sojimu_lent(message, length), length,
                           sojimu_lent(out, room), room);
}

/* A batch: takes the due messages of the bytes that wait on either side, in turn, each by a step, until none is due, a step
 * refuses or a blame falls. The device's messages go to `to_host`, the host's to `to_device`, one behind the other. What comes
 * early waits, under either edition: it is not due, and nobody is blamed for it here. Asks 9 and 10, and on a refusal by them
 * nothing is changed. All that it does is what sojimu_due and sojimu_step do one after another, each step given what is left of
 * its output; but 9 is asked once. A step that 16 refuses changes nothing, and its bytes are not used: make room, and call again
 * with the rest. Nor are those of a message that 22 refuses, and every further batch stops there too: drop it (its length is
 * sojimu_front's), or close the line. Either way the first used_.. bytes of a side are done with, and the others wait. State and
 * outputs overlap neither one another nor anything else that is given: an output is never the bytes that wait, of either side. */
static inline struct sojimu_batch sojimu_batch(const struct sojimu_table *table, struct sojimu_state *state, const uint8_t *device,
                                               size_t device_length, const uint8_t *host, size_t host_length,
                                               uint8_t *to_device, size_t device_room, uint8_t *to_host, size_t host_room)
{
    return sojimu_raw_batch(table, sojimu_place(state), sojimu_counts(state), sojimu_lent(device, device_length), device_length,
                            sojimu_lent(host, host_length), host_length, sojimu_lent(to_device, device_room), device_room,
                            sojimu_lent(to_host, host_room), host_room);
}

/* The due message, from the bytes that wait on either side: the first message of the side whose turn it is, under either edition,
 * cut by its length: 22 is not asked. Length 0 when 13 or 14 would refuse or the message is not all there; side SOJIMU_DEVICE and
 * length 0 when 9, 10 or 11 would, of which sojimu_turn tells the number. */
static inline struct sojimu_due sojimu_due(const struct sojimu_table *table, const struct sojimu_state *state,
                                           const uint8_t *device, size_t device_length, const uint8_t *host, size_t host_length)
{
    return sojimu_raw_due(table, sojimu_place(state), sojimu_counts(state), sojimu_lent(device, device_length), device_length,
                          sojimu_lent(host, host_length), host_length);
}

/* What a tender is shown of a branch, by its number in the table: whether it is picked far too often or too seldom for its share,
 * who picks, and the estimate of its share. With the share w, the setting z and the counts n and k it warns exactly while
 * 10,000 * (1,000k - wn)^2 is greater than z^2 * w * (1,000 - w) * n; a branch without a share never does. The estimate is 1,000k / n
 * to the nearest whole, halves up. Asks 9, 18; whether somebody was blamed is not asked. */
static inline struct sojimu_warning sojimu_warning(const struct sojimu_table *table, const struct sojimu_state *state,
                                                   uint32_t branch)
{
    return sojimu_raw_warning(table, sojimu_place(state), sojimu_counts(state), branch);
}

/* Whether a described device fits a protocol: no list of moves ends with the device blamed or the two stuck. Asks 9 of the
 * device, 9 of the protocol, 17 of the list (1,024 entries are always enough). Where it fails, the list begins with moves that
 * show it, each the speaker's branch number (the device's table for the device, the protocol's for the host), every number low,
 * in the last move one field perhaps high. They are the fewest: every list of moves that ends with the device blamed or the two
 * stuck, moves that change nothing included, has at least as many; and the same tables have the same list. The conversation is
 * held under the protocol's edition, whatever the device's is, and the answer is the same under both. The rest of the list is
 * unchanged; where it fits or is refused, the whole list is. */
static inline struct sojimu_fit sojimu_fit(const struct sojimu_table *device, const struct sojimu_table *protocol, uint16_t *list,
                                           size_t room)
{
    return sojimu_raw_fit(device, protocol, SOJIMU_POINTER(uint16_t *, SOJIMU_POINTER(uintptr_t, sojimu_lent(list, room))), room);
}

#if defined(__cplusplus) && defined(__GNUC__)
#pragma GCC diagnostic pop
#endif

#ifdef __cplusplus
}
#endif

#undef SOJIMU_HOLDS
#undef SOJIMU_NUMBER
#undef SOJIMU_POINTER

#endif
