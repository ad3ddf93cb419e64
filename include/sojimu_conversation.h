/* Sojimu: a conversation without input and output, over the calls of sojimu.h.
 *
 * Bytes that came in on either side go in (sojimu_hear). Bytes to send on and the entries of a log (sojimu_pass,
 * sojimu_pass_logged), a page of warnings (sojimu_next_warning) and how it ended (the member `ended`) come out. It never holds
 * more than it was given room for, and no byte is lost: what is used is passed on, but for a blamed message, and the other
 * bytes wait. Nothing is allocated, and no line is read or written. All of it is C that is tested, not proved: what is proved
 * is what it calls.
 *
 * Every call takes every value, and NULL wherever the length or the room is 0. Calls may be made from any threads, as long as a
 * conversation and what it writes are in use by no other. What a call writes overlaps nothing else that the call is given, nor
 * the bytes that wait. Of the C library memcpy and memmove are called. */
#ifndef SOJIMU_CONVERSATION_H
#define SOJIMU_CONVERSATION_H

#include "sojimu.h"

#include <string.h>

#ifdef __cplusplus
extern "C" {
#endif

/* A log of so many bytes holds every entry: a byte for the side, and the longest message. */
enum { SOJIMU_ENTRY = SOJIMU_MESSAGE + 1 };

/* How a conversation ended, in the place of a verdict's outcome: it goes on; it is finished, at an end of its protocol. */
enum { SOJIMU_GOES_ON = 33, SOJIMU_FINISHED = 34 };

/* The bytes that wait on a side: the first `length` of `bytes`, which has room for `room`. */
struct sojimu_waiting {
    uint8_t *bytes;
    size_t room, length;
};

/* A conversation, by sojimu_begin. Its members are there to be looked at; the calls below change them. It ended for good,
 * unless the outcome of `ended` is SOJIMU_GOES_ON: by SOJIMU_FINISHED; by SOJIMU_BLAMED, with party, reason and field as in a
 * step's verdict; or by SOJIMU_REFUSED. Then `question` is 13, 14 or 22, and what waits on the side of `party`, whose turn it
 * is, begins with no message and never will, for which nobody is blamed; or it is 9 or 10, where the table or the state is
 * damaged. What does not apply is 0, as in a verdict. */
struct sojimu_conversation {
    const struct sojimu_table *protocol;
    struct sojimu_state state;
    struct sojimu_waiting device, host;
    struct sojimu_verdict ended;
};

/* What came of passing on: how many bytes open either output and the log; and whether an output or the log is too short for the
 * next message. Then send on what is written, and call again, with room for it: outputs of SOJIMU_MESSAGE bytes and a log of
 * SOJIMU_ENTRY always go on. */
struct sojimu_passed {
    size_t to_device, to_host, logged;
    bool more;
};

/* A branch that warns, by its number in the table, and what is told of it. SOJIMU_BRANCHES: there is none, 18. */
struct sojimu_warned {
    uint32_t branch;
    struct sojimu_warning warning;
};

/* ---- what the calls below are made of */

static inline struct sojimu_verdict sojimu_told(uint32_t outcome, uint32_t question, uint32_t party)
{
    struct sojimu_verdict told;
    told.outcome = outcome & 255;
    told.question = question & 255;
    told.party = party & 255;
    told.reason = 0;
    told.field = 0;
    return told;
}

/* The conversation has ended, and nothing waits for room. */
static inline bool sojimu_end(struct sojimu_conversation *talk, struct sojimu_verdict ended)
{
    talk->ended = ended;
    return false;
}

static inline struct sojimu_waiting *sojimu_waiting_on(struct sojimu_conversation *talk, uint32_t side)
{
    return side == SOJIMU_DEVICE ? &talk->device : &talk->host;
}

/* Puts bytes behind those that wait, as many as there is room for, and says how many that were. */
static inline size_t sojimu_take(struct sojimu_waiting *waiting, const uint8_t *bytes, size_t length)
{
    const size_t room = waiting->room - waiting->length;
    const size_t taken = length < room ? length : room;
    if (taken > 0)
        memcpy(waiting->bytes + waiting->length, bytes, taken);
    waiting->length += taken;
    return taken;
}

static inline void sojimu_drop(struct sojimu_waiting *waiting, size_t used)
{
    waiting->length -= used;
    if (used > 0 && waiting->length > 0)
        memmove(waiting->bytes, waiting->bytes + used, waiting->length);
}

/* Whether a log has room for the entry of a message, which is a byte longer than the message; NULL: no log is kept. */
static inline bool sojimu_log_holds(const struct sojimu_waiting *log, size_t length)
{
    return log == NULL || log->room - log->length > length;
}

static inline void sojimu_enter(struct sojimu_waiting *log, uint32_t side, const uint8_t *message, size_t length)
{
    const uint8_t byte = side == SOJIMU_DEVICE ? 0 : 1;
    if (log == NULL)
        return;
    sojimu_take(log, &byte, 1);
    sojimu_take(log, message, length);
}

/* What is left of a side's bytes, and of the output that they go to. */
struct sojimu_left {
    const uint8_t *bytes;
    size_t length;
    uint8_t *output;
    size_t room;
};

/* The due message is put to a step with what is left of its output, and gets its entry where it is judged. Gives the step's
 * verdict, which is 16 also where the log does not hold the entry; or SOJIMU_NONE_DUE. */
static inline struct sojimu_verdict sojimu_judge(struct sojimu_conversation *talk, struct sojimu_left *device,
                                                 struct sojimu_left *host, struct sojimu_waiting *log)
{
    const struct sojimu_due due =
        sojimu_due(talk->protocol, &talk->state, device->bytes, device->length, host->bytes, host->length);
    struct sojimu_left *const left = due.side == SOJIMU_DEVICE ? device : host;
    struct sojimu_verdict verdict;
    if (due.length == 0)
        return sojimu_told(SOJIMU_NONE_DUE, 0, 0);
    if (!sojimu_log_holds(log, due.length))
        return sojimu_told(SOJIMU_REFUSED, SOJIMU_OUTPUT_TOO_SHORT, 0);
    verdict = sojimu_step(talk->protocol, &talk->state, due.side, left->bytes, due.length, left->output, left->room);
    if (verdict.outcome == SOJIMU_REFUSED)
        return verdict;
    sojimu_enter(log, due.side, left->bytes, due.length);
    left->bytes += due.length;
    left->length -= due.length;
    if (verdict.outcome == SOJIMU_FORWARDED) {
        left->output += due.length;
        left->room -= due.length;
    }
    return verdict;
}

/* Under edition 2 who speaks out of turn is blamed: a whole message of the side whose turn it is not is put to a step. Where
 * that refuses, the message waits for its turn. Says whether the log is too short for it. */
static inline bool sojimu_early(struct sojimu_conversation *talk, uint32_t side, struct sojimu_waiting *log)
{
    struct sojimu_waiting *const waiting = sojimu_waiting_on(talk, side);
    const size_t length = sojimu_front(waiting->bytes, waiting->length).length;
    uint8_t output[SOJIMU_MESSAGE];
    struct sojimu_verdict verdict;
    if (length == 0 || length > waiting->length)
        return false;
    if (!sojimu_log_holds(log, length))
        return true;
    verdict = sojimu_step(talk->protocol, &talk->state, side, waiting->bytes, length, output, sizeof output);
    if (verdict.outcome != SOJIMU_BLAMED)
        return false;
    sojimu_enter(log, side, waiting->bytes, length);
    sojimu_drop(waiting, length);
    return sojimu_end(talk, verdict);
}

/* What is due is passed on, up to this last answer. Notes how the conversation ended, if it did, and says whether a message
 * waits for room. What the side whose turn it is has sent comes first: the other is early only where it may still become a
 * message. */
static inline bool sojimu_settle(struct sojimu_conversation *talk, struct sojimu_verdict last, struct sojimu_waiting *log)
{
    const bool refused = last.outcome == SOJIMU_REFUSED;
    struct sojimu_turn turn;
    struct sojimu_waiting *waiting;
    if (last.outcome == SOJIMU_BLAMED)
        return sojimu_end(talk, last);
    if (refused && last.question == SOJIMU_OUTPUT_TOO_SHORT)
        return true;
    turn = sojimu_turn(talk->protocol, &talk->state);
    waiting = sojimu_waiting_on(talk, turn.side);
    if (turn.question == SOJIMU_AT_END)
        return sojimu_end(talk, sojimu_told(SOJIMU_FINISHED, 0, 0));
    if (turn.question != 0)
        return sojimu_end(talk, sojimu_told(SOJIMU_REFUSED, turn.question, 0));
    if (refused)
        return sojimu_end(talk, sojimu_told(SOJIMU_REFUSED, last.question, turn.side));
    if (sojimu_broken(waiting->bytes, waiting->length))
        return sojimu_end(talk, sojimu_told(SOJIMU_REFUSED, sojimu_front(waiting->bytes, waiting->length).question, turn.side));
    return talk->protocol->edition == 2 && sojimu_early(talk, turn.side == SOJIMU_DEVICE ? SOJIMU_HOST : SOJIMU_DEVICE, log);
}

/* ---- a conversation */

/* A conversation begins: nothing waits, and nothing is counted; with the setting of its warnings in hundredths. The table and
 * the two places for the bytes that wait are lent until it is over. Asks 9 and 21, and whether either place has room for
 * SOJIMU_MESSAGE bytes, else 16. On a refusal the conversation is all 0, and the calls below take and give nothing. */
static inline uint32_t sojimu_begin(struct sojimu_conversation *talk, const struct sojimu_table *protocol, uint32_t setting,
                                    uint8_t *device, size_t device_room, uint8_t *host, size_t host_room)
{
    static const struct sojimu_conversation none = {
        NULL, {0, 0, 0, {0}, {0}}, {NULL, 0, 0}, {NULL, 0, 0}, {0, 0, 0, 0, 0}};
    const struct sojimu_started started = sojimu_fresh(protocol, setting);
    *talk = none;
    if (started.question != 0)
        return started.question;
    if (device_room < SOJIMU_MESSAGE || host_room < SOJIMU_MESSAGE)
        return SOJIMU_OUTPUT_TOO_SHORT;
    talk->protocol = protocol;
    talk->state = started.state;
    talk->device.bytes = device;
    talk->device.room = device_room;
    talk->host.bytes = host;
    talk->host.room = host_room;
    talk->ended = sojimu_told(SOJIMU_GOES_ON, 0, 0);
    sojimu_settle(talk, sojimu_told(SOJIMU_NONE_DUE, 0, 0), NULL);
    return 0;
}

/* Bytes have come from a side. Takes what there is room for, and says how many that were: the others are still the caller's.
 * Takes nothing from what is no side, and nothing once the conversation has ended. Where nothing waits to be passed on, the
 * side whose turn it is has room. What comes early may find none: keep its bytes until the other side has spoken, or close the
 * line. */
static inline size_t sojimu_hear(struct sojimu_conversation *talk, uint32_t side, const uint8_t *bytes, size_t length)
{
    if (talk->ended.outcome != SOJIMU_GOES_ON || (side != SOJIMU_DEVICE && side != SOJIMU_HOST))
        return 0;
    return sojimu_take(sojimu_waiting_on(talk, side), bytes, length);
}

/* Passes on what is due, by a batch, and looks whether the conversation has ended. The device's messages open `to_host`, the
 * host's `to_device`, one behind the other; the rest of both is unchanged. What comes early waits. But under edition 2 a whole
 * message of the side whose turn it is not is put to a step once none is due and none waits for room, and its sender is
 * blamed. */
static inline struct sojimu_passed sojimu_pass(struct sojimu_conversation *talk, uint8_t *to_device, size_t device_room,
                                               uint8_t *to_host, size_t host_room)
{
    struct sojimu_passed passed = {0, 0, 0, false};
    struct sojimu_batch batch;
    if (talk->ended.outcome != SOJIMU_GOES_ON)
        return passed;
    batch = sojimu_batch(talk->protocol, &talk->state, talk->device.bytes, talk->device.length, talk->host.bytes,
                         talk->host.length, to_device, device_room, to_host, host_room);
    sojimu_drop(&talk->device, batch.used_device);
    sojimu_drop(&talk->host, batch.used_host);
    passed.to_device = batch.written_to_device;
    passed.to_host = batch.written_to_host;
    passed.more = sojimu_settle(talk, batch.last, NULL);
    return passed;
}

/* The same, message by message, with an entry in `log` for each message that is judged, a blamed one too: a byte for its side,
 * 0 device and 1 host, and the message. These bytes, one call's behind the other's, are a log that
 * `sojimu replay` reads. A message whose entry the log does not hold waits. Bytes, states and ends are those of sojimu_pass. */
static inline struct sojimu_passed sojimu_pass_logged(struct sojimu_conversation *talk, uint8_t *to_device, size_t device_room,
                                                      uint8_t *to_host, size_t host_room, uint8_t *log, size_t log_room)
{
    struct sojimu_passed passed = {0, 0, 0, false};
    struct sojimu_left device = {talk->device.bytes, talk->device.length, to_host, host_room};
    struct sojimu_left host = {talk->host.bytes, talk->host.length, to_device, device_room};
    struct sojimu_waiting entries = {log, log_room, 0};
    struct sojimu_verdict last;
    if (talk->ended.outcome != SOJIMU_GOES_ON)
        return passed;
    do
        last = sojimu_judge(talk, &device, &host, &entries);
    while (last.outcome == SOJIMU_FORWARDED);
    sojimu_drop(&talk->device, talk->device.length - device.length);
    sojimu_drop(&talk->host, talk->host.length - host.length);
    passed.to_device = device_room - host.room;
    passed.to_host = host_room - device.room;
    passed.more = sojimu_settle(talk, last, &entries);
    passed.logged = entries.length;
    return passed;
}

/* The page: the first branch from `from` on that warns now. Asked again from the branch behind it, until there is none, it
 * gives all. It can be asked for after the end, too. */
static inline struct sojimu_warned sojimu_next_warning(const struct sojimu_conversation *talk, uint32_t from)
{
    struct sojimu_warned next = {SOJIMU_BRANCHES, {SOJIMU_NO_BRANCH, 0, 0, SOJIMU_NO_ESTIMATE}};
    uint32_t branch;
    for (branch = from; talk->protocol != NULL && branch < talk->protocol->branches && branch < SOJIMU_BRANCHES; branch++) {
        const struct sojimu_warning warning = sojimu_warning(talk->protocol, &talk->state, branch);
        if (warning.warns != 0) {
            next.branch = branch;
            next.warning = warning;
            return next;
        }
    }
    return next;
}

#ifdef __cplusplus
}
#endif

#endif
