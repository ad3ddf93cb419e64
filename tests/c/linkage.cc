// The headers from C++: they compile, link, a result of each size comes back whole, and a conversation is held. The status is 0
// where all is right.
#include <cstring>

#include "sojimu.h"
#include "sojimu_conversation.h"
#include "sojimu_words.h"

static bool words(const uint8_t *message, size_t length, const sojimu_table *table)
{
    char name[9];
    const sojimu_decoded ask = sojimu_decode(message, length);
    const uint8_t lines[] = {0x0A, 0x0A, 0x20};
    const struct sojimu_text_place place = sojimu_text_place(lines, sizeof lines, 2);
    return ask.question == 0 && ask.count == 1 && sojimu_int_of(ask.fields[0]) == 100 && !sojimu_flag_of(ask.fields[0]) &&
           std::strcmp(sojimu_label_name(ask.label, name), "Ask") == 0 && sojimu_branch_label(table, 0) == ask.label &&
           place.line == 3 && place.column == 1 && std::strcmp(sojimu_party_words(SOJIMU_HOST), "host") == 0 &&
           std::strcmp(sojimu_question_words(SOJIMU_AT_END), "is the position not an end?") == 0 &&
           std::strcmp(sojimu_reason_words(SOJIMU_OUT_OF_RANGE), "a number is outside its range") == 0;
}

// A message of the device's is passed on to the host, and logged.
static bool holds(const sojimu_table *protocol, const uint8_t *message, size_t length)
{
    uint8_t device[SOJIMU_MESSAGE], host[SOJIMU_MESSAGE], to_host[SOJIMU_MESSAGE], log[SOJIMU_ENTRY];
    sojimu_conversation talk;
    const bool begun = sojimu_begin(&talk, protocol, 200, device, sizeof device, host, sizeof host) == 0;
    const size_t heard = sojimu_hear(&talk, SOJIMU_DEVICE, message, length);
    const sojimu_passed none = sojimu_pass(&talk, nullptr, 0, nullptr, 0);
    const sojimu_passed passed = sojimu_pass_logged(&talk, nullptr, 0, to_host, sizeof to_host, log, sizeof log);
    return begun && heard == length && none.to_host == 0 && none.more && passed.to_host == length && !passed.more &&
           passed.logged == length + 1 && std::memcmp(to_host, message, length) == 0 && log[0] == 0 &&
           std::memcmp(log + 1, message, length) == 0 && talk.ended.outcome == SOJIMU_GOES_ON &&
           sojimu_next_warning(&talk, 0).branch == SOJIMU_BRANCHES;
}

int main()
{
    const char *text = "rec X.+{!Ask(int[0..100]).&{?Ok().X},!Quit().end}";
    const sojimu_reading r = sojimu_read(reinterpret_cast<const uint8_t *>(text), std::strlen(text));
    const sojimu_turned d = sojimu_dual(&r.table);
    const sojimu_table none = sojimu_empty();
    uint16_t list[SOJIMU_LIST] = {};
    uint8_t message[SOJIMU_MESSAGE] = {}, encoded[SOJIMU_MESSAGE] = {}, out[SOJIMU_MESSAGE] = {};
    sojimu_started begun = sojimu_fresh(&r.table, 200);
    sojimu_state s = begun.state;
    const sojimu_field hundred = sojimu_int(100);
    const sojimu_made made = sojimu_make(&r.table, 0, 0, message, sizeof message);
    const sojimu_made same = sojimu_encode(sojimu_label("Ask"), &hundred, 1, encoded, sizeof encoded);
    const struct sojimu_due due = sojimu_due(&r.table, &s, message, sizeof message, nullptr, 0);
    const sojimu_head head = sojimu_front(message, due.length);
    const sojimu_verdict v = sojimu_step(&r.table, &s, SOJIMU_DEVICE, message, due.length, out, sizeof out);
    sojimu_state t = begun.state;
    uint8_t to_host[SOJIMU_MESSAGE] = {};
    const struct sojimu_batch b =
        sojimu_batch(&r.table, &t, message, made.length, nullptr, 0, nullptr, 0, to_host, sizeof to_host);
    const struct sojimu_turn turn = sojimu_turn(&r.table, &s);
    const struct sojimu_warning w = sojimu_warning(&r.table, &s, 0);
    const struct sojimu_fit f = sojimu_fit(&r.table, &r.table, list, SOJIMU_LIST);
    const bool right = sojimu_matches() && r.question == 0 && sojimu_sound(&r.table) && d.question == 0 && none.states == 0 &&
                       made.length == 14 && same.length == 14 && std::memcmp(message, encoded, sizeof encoded) == 0 &&
                       due.side == SOJIMU_DEVICE && due.length == 14 && head.length == 14 && v.outcome == SOJIMU_FORWARDED &&
                       std::memcmp(message, out, sizeof out) == 0 && s.position == 1 &&
                       b.used_device == 14 && b.used_host == 0 && b.written_to_host == 14 && b.written_to_device == 0 &&
                       b.last.outcome == SOJIMU_FORWARDED && t.position == 1 &&
                       std::memcmp(message, to_host, sizeof to_host) == 0 && turn.question == 0 && turn.side == SOJIMU_HOST &&
                       begun.question == 0 && w.question == 0 && w.warns == 0 && w.sender == SOJIMU_DEVICE && w.estimate == 1000 &&
                       f.outcome == SOJIMU_FITS && f.count == 3 && words(message, made.length, &r.table) &&
                       holds(&r.table, message, made.length);
    return right ? 0 : 1;
}
