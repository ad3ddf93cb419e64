/* Sojimu in words: what sojimu.h has in numbers, for logs and pages. All of it is C, and tested, not proved. Any number may be
 * given; nothing is allocated or printed, and no string is to be freed. */
#ifndef SOJIMU_WORDS_H
#define SOJIMU_WORDS_H

#include "sojimu.h"
#include <string.h>

#ifdef __cplusplus
extern "C" {
#endif

/* ---- codes */

/* A question's words, as in the list of sojimu.h without what stands there in brackets; "" of a number that is no question's. */
static inline const char *sojimu_question_words(uint32_t question)
{
    switch (question) {
    case SOJIMU_TEXT_TOO_LONG: return "is the text at most 8,192 bytes long?";
    case SOJIMU_BAD_TOKEN: return "is the token well formed?";
    case SOJIMU_MISPLACED: return "does the grammar allow it here?";
    case SOJIMU_UNBOUND: return "is the name bound by a rec around it?";
    case SOJIMU_UNGUARDED: return "does a choice stand between the name after the dot of a rec and its own binder?";
    case SOJIMU_BAD_RANGE: return "is the number within its kind, and high not below low?";
    case SOJIMU_LABEL_TWICE: return "is the label new in its choice?";
    case SOJIMU_TOO_MANY: return "is the token within the limits?";
    case SOJIMU_UNSOUND:
        return "is the table sound, its edition 1 or 2, the position one of its states, and are the counts sound?";
    case SOJIMU_NOT_RUNNING: return "is the standing running?";
    case SOJIMU_AT_END: return "is the position not an end?";
    case SOJIMU_OUT_OF_TURN: return "is it this side's turn?";
    case SOJIMU_BAD_FRONT: return "are there nine bytes, a legal label, a count of at most 4, and both arrays whole?";
    case SOJIMU_BAD_FIELD: return "is every kind known and every number within its kind?";
    case SOJIMU_OTHER_LENGTH: return "is the length exactly what this gives?";
    case SOJIMU_OUTPUT_TOO_SHORT: return "does the output buffer hold the message?";
    case SOJIMU_LIST_TOO_SHORT: return "has the list device states times protocol states entries?";
    case SOJIMU_NO_BRANCH: return "does the branch exist, and has it the named field?";
    case SOJIMU_BAD_SHARE: return "is the share 1 to 1000?";
    case SOJIMU_BAD_SHARES: return "has the choice no shares, or one for each branch, which add to 1000?";
    case SOJIMU_BAD_SETTING: return "is the setting 1 to 1000?";
    case SOJIMU_NOT_UTF8: return "is every text well-formed UTF-8?";
    case SOJIMU_BAD_EDITION: return "is the edition 1 or 2?";
    default: return "";
    }
}

/* Why a sender is blamed; "" of a number that is no reason's. */
static inline const char *sojimu_reason_words(uint32_t reason)
{
    switch (reason) {
    case SOJIMU_NO_LABEL: return "the protocol has no such label there";
    case SOJIMU_OTHER_KINDS: return "the count or the kinds of the fields differ";
    case SOJIMU_OUT_OF_RANGE: return "a number is outside its range";
    case SOJIMU_EARLY: return "it is the other side's turn, under edition 2";
    default: return "";
    }
}

/* A side's or a party's name; "" of a number that is no side's. */
static inline const char *sojimu_party_words(uint32_t party)
{
    switch (party) {
    case SOJIMU_DEVICE: return "device";
    case SOJIMU_HOST: return "host";
    default: return "";
    }
}

/* ---- labels */

/* Writes a label's letters, of which sojimu_label makes the label again, into `name`, and gives it back; "" of what is no legal
 * label. */
static inline const char *sojimu_label_name(uint64_t label, char name[9])
{
    uint8_t letters[9] = {0, 0, 0, 0, 0, 0, 0, 0, 0};
    if (sojimu_label_legal(label))
        sojimu_put(letters, label, 8);
    memcpy(name, letters, sizeof letters);
    return name;
}

/* The label of a branch, by its number in the table; 0 where the table has no such branch. Whether it is sound is not asked. */
static inline uint64_t sojimu_branch_label(const struct sojimu_table *table, uint32_t branch)
{
    uint64_t label = 0;
    if (branch < table->branches && branch < SOJIMU_BRANCHES) {
        label = table->label_high[branch];
        label = label << 32 | table->label_low[branch];
    }
    return label;
}

/* ---- places */

/* A place in a text: its line, and the byte in it, both from 1. */
struct sojimu_text_place {
    size_t line, column;
};

/* The function below has the name of the struct that it returns, as some in sojimu.h. */
#if defined(__cplusplus) && defined(__GNUC__)
#pragma GCC diagnostic push
#pragma GCC diagnostic ignored "-Wshadow"
#endif

/* The place of byte `at` of a text, as sojimu_read tells it. A line ends with 0x0A, which still belongs to it. `at` may be the
 * text's length; what lies beyond has that place, too. */
static inline struct sojimu_text_place sojimu_text_place(const uint8_t *text, size_t length, size_t at)
{
    struct sojimu_text_place place = {1, 1};
    size_t i;
    for (i = 0; i < length && i < at; i++) {
        place.column++;
        if (text[i] == 0x0A) {
            place.line++;
            place.column = 1;
        }
    }
    return place;
}

#if defined(__cplusplus) && defined(__GNUC__)
#pragma GCC diagnostic pop
#endif

#ifdef __cplusplus
}
#endif

#endif
