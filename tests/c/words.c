/* The library in words: include/sojimu_words.h, and sojimu_decode. The questions are held against both lists of include/sojimu.h,
 * which is opened from the repository's root. Prints a line for each check that fails, and at the end `N passed, M failed`. */
#include "check.h"

#include "sojimu_words.h"

enum { QUESTIONS = 23 };

/* ---- questions, reasons, parties */

static char header[1 << 16];

static void read_header(void)
{
    FILE *const file = fopen("include/sojimu.h", "r");
    CHECK(file != NULL);
    if (file != NULL) {
        const size_t length = fread(header, 1, sizeof header - 1, file);
        CHECK(length > 0 && length < sizeof header - 1);
        fclose(file);
    }
}

/* The question that stands in a comment: in one line, in lower case at its beginning, without what opens the comment or one of its
 * lines, and without the marks around `rec`. */
static void question_in(const char *comment, char words[256])
{
    size_t n = 0;
    for (; *comment != 0 && n < 254 && (n == 0 || words[n - 1] != '?'); comment++) {
        const bool blank = strchr(" \n/*", *comment) != NULL;
        if (blank ? n > 0 && words[n - 1] != ' ' : *comment != '`') {
            words[n++] = blank ? ' ' : *comment;
        }
    }
    words[n] = 0;
    if (words[0] >= 'A' && words[0] <= 'Z') {
        words[0] = (char)(words[0] - 'A' + 'a');
    }
}

/* Whether a list has these words behind a question's number, which stands there as `form` says. */
static bool listed(const char *from, const char *form, uint32_t question)
{
    char entry[32], words[256];
    sprintf(entry, form, question);
    const char *const found = from == NULL ? NULL : strstr(from, entry);
    if (found == NULL) {
        return false;
    }
    question_in(found + strlen(entry), words);
    return strcmp(words, sojimu_question_words(question)) == 0 && strchr(words, '?') != NULL;
}

static void questions(void)
{
    const char *const comment = strstr(header, "The questions, by number");
    const char *const names = strstr(header, "SOJIMU_TEXT_TOO_LONG = ");
    for (uint32_t question = 1; question <= QUESTIONS; question++) {
        CHECK(listed(comment, "\n * %4u  ", question));
        CHECK(listed(names, question < QUESTIONS ? " = %u, " : " = %u ", question));
    }
    CHECK(comment != NULL && strstr(comment, "\n *   24  ") == NULL);
    CHECK(sojimu_question_words(0)[0] == 0 && sojimu_question_words(256 + SOJIMU_UNSOUND)[0] == 0);
    for (uint32_t none = QUESTIONS + 1; none != 0; none *= 2) {
        CHECK(sojimu_question_words(none)[0] == 0);
    }
}

static void reasons(void)
{
    CHECK(strcmp(sojimu_reason_words(SOJIMU_NO_LABEL), "the protocol has no such label there") == 0);
    CHECK(strcmp(sojimu_reason_words(SOJIMU_OTHER_KINDS), "the count or the kinds of the fields differ") == 0);
    CHECK(strcmp(sojimu_reason_words(SOJIMU_OUT_OF_RANGE), "a number is outside its range") == 0);
    CHECK(strcmp(sojimu_reason_words(SOJIMU_EARLY), "it is the other side's turn, under edition 2") == 0);
    CHECK(sojimu_reason_words(0)[0] == 0 && sojimu_reason_words(5)[0] == 0 && sojimu_reason_words(257)[0] == 0);
    CHECK(strcmp(sojimu_party_words(SOJIMU_DEVICE), "device") == 0 && strcmp(sojimu_party_words(SOJIMU_HOST), "host") == 0);
    CHECK(sojimu_party_words(2)[0] == 0 && sojimu_party_words(3)[0] == 0 && sojimu_party_words(257)[0] == 0);
    CHECK(sojimu_party_words(256)[0] == 0 && sojimu_party_words(UINT32_MAX)[0] == 0);
}

/* ---- messages taken apart */

/* Where the text of a field stands in a message of these fields. */
static size_t text_at(const struct sojimu_field *fields, size_t count, size_t field)
{
    size_t at = 9 + 5 * count;
    for (size_t f = 0; f < field; f++) {
        at += fields[f].kind == SOJIMU_KIND_TEXT ? fields[f].number : 0;
    }
    return at;
}

/* Whether a field that was decoded is this one, its text at this place. */
static bool same_field(const struct sojimu_field *decoded, const struct sojimu_field *field, const uint8_t *place)
{
    const bool text = field->kind == SOJIMU_KIND_TEXT;
    return decoded->kind == field->kind && decoded->number == field->number && decoded->text == (text ? place : NULL) &&
           (!text || field->number == 0 || memcmp(place, field->text, field->number) == 0);
}

/* Whether these fields, encoded and decoded, are the same, and encoded again the same bytes. */
static bool round_trip(const char *label, const struct sojimu_field *fields, size_t count)
{
    static const struct sojimu_field none;
    uint8_t message[SOJIMU_MESSAGE], again[SOJIMU_MESSAGE];
    const struct sojimu_made made = sojimu_encode(sojimu_label(label), fields, count, message, sizeof message);
    const struct sojimu_decoded decoded = sojimu_decode(message, made.length);
    const struct sojimu_made second = sojimu_encode(decoded.label, decoded.fields, decoded.count, again, sizeof again);
    for (size_t f = 0; f < SOJIMU_FIELDS; f++) {
        if (f < count ? !same_field(decoded.fields + f, fields + f, message + text_at(fields, count, f))
                      : memcmp(decoded.fields + f, &none, sizeof none) != 0) {
            return false;
        }
    }
    return made.question == 0 && decoded.question == 0 && decoded.label == sojimu_label(label) && decoded.count == count &&
           second.question == 0 && second.length == made.length && memcmp(again, message, made.length) == 0;
}

static const char LONGEST_TEXT[] = "0123456789012345678901234567890123456789012345678901234567890123";

enum { EDGES = 9 };

/* Fields at either end of their kinds, and between. */
static void fill_edges(struct sojimu_field edges[EDGES])
{
    const struct sojimu_field all[EDGES] = {
        sojimu_int(INT32_MIN), sojimu_int(-1), sojimu_int(0), sojimu_int(INT32_MAX), sojimu_flag(false), sojimu_flag(true),
        sojimu_text(NULL, 0), sojimu_text("\xE2\x82\xAC", 3), sojimu_text(LONGEST_TEXT, SOJIMU_TEXT_FIELD),
    };
    memcpy(edges, all, sizeof all);
}

/* The message of so many of these fields that a number spells, whose digits they are. */
static bool spelt(size_t number, size_t count)
{
    struct sojimu_field edges[EDGES], fields[SOJIMU_FIELDS];
    const char *const label = number % 2 == 0 ? "A" : "Longest9";
    fill_edges(edges);
    for (size_t f = 0; f < count; f++, number /= EDGES) {
        fields[f] = edges[number % EDGES];
    }
    return round_trip(label, fields, count);
}

static void round_trips(void)
{
    size_t messages = 1;
    CHECK(strlen(LONGEST_TEXT) == SOJIMU_TEXT_FIELD);
    for (size_t count = 0; count <= SOJIMU_FIELDS; count++, messages *= EDGES) {
        for (size_t number = 0; number < messages; number++) {
            CHECK(spelt(number, count));
        }
    }
}

/* Document 01's example, and what is in its field. */
static void decoded(void)
{
    const struct sojimu_decoded ask = sojimu_decode(ASK_100, sizeof ASK_100);
    CHECK(ask.question == 0 && ask.label == sojimu_label("Ask") && ask.count == 1);
    CHECK(ask.fields[0].kind == SOJIMU_KIND_INT && sojimu_int_of(ask.fields[0]) == 100 && ask.fields[0].text == NULL);
    CHECK(sojimu_int_of(sojimu_int(INT32_MIN)) == INT32_MIN && sojimu_int_of(sojimu_int(INT32_MAX)) == INT32_MAX);
    CHECK(sojimu_int_of(sojimu_int(-1)) == -1 && sojimu_int_of(sojimu_int(0)) == 0);
    CHECK(sojimu_int_of(sojimu_text(LONGEST_TEXT, 64)) == 64 && sojimu_int_of(sojimu_flag(true)) == 1);
    CHECK(sojimu_flag_of(sojimu_flag(true)) && !sojimu_flag_of(sojimu_flag(false)));
    CHECK(!sojimu_flag_of(sojimu_int(1)) && !sojimu_flag_of(sojimu_text("g", 1)));
}

/* Whether bytes are refused by this question, and nothing else is told. */
static bool undecoded(const uint8_t *bytes, size_t length, uint32_t question)
{
    const struct sojimu_decoded wanted = {.question = question}, given = sojimu_decode(bytes, length);
    return memcmp(&given, &wanted, sizeof given) == 0;
}

static void refusals(void)
{
    uint8_t m[32];
    CHECK(undecoded(NULL, 0, 13));
    /* a text of three bytes, cut everywhere, and with a byte more */
    const size_t front = with_number(m, "Say", SOJIMU_KIND_TEXT, 3);
    memcpy(m + front, "\xE2\x82\xAC!", 4);
    for (size_t length = 0; length <= front + 4; length++) {
        CHECK(length == front + 3 ? sojimu_decode(m, length).question == 0 : undecoded(m, length, length < front ? 13 : 15));
    }
    m[front + 2] = '!';
    CHECK(undecoded(m, front + 3, 22) && undecoded(m, front + 2, 15));
    CHECK(undecoded(m, with_number(m, "Say", 3, 0), 14) && undecoded(m, with_number(m, "Say", 255, 0), 14));
    CHECK(undecoded(m, with_number(m, "Say", SOJIMU_KIND_FLAG, 2), 14));
    CHECK(undecoded(m, with_number(m, "Say", SOJIMU_KIND_FLAG, -1), 14));
    CHECK(undecoded(m, with_number(m, "Say", SOJIMU_KIND_TEXT, 65), 14));
    CHECK(undecoded(m, with_number(m, "Say", SOJIMU_KIND_TEXT, -1), 14));
    CHECK(undecoded(m, with_number(m, "say", SOJIMU_KIND_INT, 0), 13) && undecoded(m, plain(m, ""), 13));
    memset(m, 0, sizeof m);
    m[plain(m, "Say") - 1] = 5;
    CHECK(undecoded(m, sizeof m, 13));
}

/* ---- labels */

/* Whether a label's letters are these, followed by zeros, and the label theirs. */
static bool named(uint64_t label, const char *letters)
{
    char name[10], wanted[10] = "";
    memset(name, MARK, sizeof name);
    memset(wanted + 9, MARK, 1);
    memcpy(wanted, letters, strlen(letters));
    return sojimu_label_name(label, name) == name && memcmp(name, wanted, sizeof name) == 0;
}

static void labels(void)
{
    static const char *const legal[] = {"A", "Z", "Ask", "A2345678", "Zz99zz99"};
    static char text[SOJIMU_TEXT];
    for (size_t i = 0; i < sizeof legal / sizeof legal[0]; i++) {
        CHECK(named(sojimu_label(legal[i]), legal[i]));
    }
    CHECK(named(0, "") && named(UINT64_MAX, "") && named(sojimu_label("Ask") + 1, "") && named(sojimu_label("Ask") >> 8, ""));
    CHECK(named(UINT64_C(0x61736B0000000000), "") && named(UINT64_C(0xC173000000000000), ""));

    struct sojimu_table t = table_of(P);
    CHECK(named(sojimu_branch_label(&t, 0), "Ask") && named(sojimu_branch_label(&t, 1), "Ok"));
    CHECK(named(sojimu_branch_label(&t, 2), "Quit") && sojimu_branch_label(&t, 3) == 0);
    CHECK(sojimu_branch_label(&t, SOJIMU_BRANCHES) == 0 && sojimu_branch_label(&t, UINT32_MAX) == 0);
    t.label_high[3] = t.label_high[0];
    CHECK(sojimu_branch_label(&t, 3) == 0 && sojimu_branch_label(&empty, 0) == 0);
    largest_text(text);
    t = table_of(text);
    CHECK(named(sojimu_branch_label(&t, SOJIMU_BRANCHES - 1), "B2") && sojimu_branch_label(&t, SOJIMU_BRANCHES) == 0);
    t.branches = UINT32_MAX;
    CHECK(named(sojimu_branch_label(&t, SOJIMU_BRANCHES - 1), "B2") && sojimu_branch_label(&t, SOJIMU_BRANCHES) == 0);
}

/* ---- places */

static bool stands(const char *text, size_t at, size_t line, size_t column)
{
    const struct sojimu_text_place place = sojimu_text_place((const uint8_t *)text, strlen(text), at);
    return place.line == line && place.column == column;
}

static void places(void)
{
    CHECK(stands("", 0, 1, 1) && stands("", 1, 1, 1));
    CHECK(stands("end", 0, 1, 1) && stands("end", 2, 1, 3) && stands("end", 3, 1, 4));
    CHECK(stands("ab\nc\n", 1, 1, 2) && stands("ab\nc\n", 2, 1, 3) && stands("ab\nc\n", 3, 2, 1) && stands("ab\nc\n", 4, 2, 2));
    CHECK(stands("ab\nc\n", 5, 3, 1) && stands("ab\nc\n", 6, 3, 1) && stands("ab\nc\n", SIZE_MAX, 3, 1));
    CHECK(stands("\n\n", 0, 1, 1) && stands("\n\n", 1, 2, 1) && stands("\n\n", 2, 3, 1));
    CHECK(stands("\r\nX", 1, 1, 2) && stands("\r\nX", 2, 2, 1) && stands("\xC3\xA9X", 2, 1, 3));
    const struct sojimu_text_place nowhere = sojimu_text_place(NULL, 0, 7);
    CHECK(nowhere.line == 1 && nowhere.column == 1);

    const char *const unguarded = "rec X.\n  X", *const cut = "+{\n!A()";
    CHECK(read_text(unguarded).question == 5 && stands(unguarded, read_text(unguarded).at, 2, 3));
    CHECK(read_text(cut).question == 3 && stands(cut, read_text(cut).at, 2, 5));
}

int main(void)
{
    read_header();
    questions();
    reasons();
    round_trips();
    decoded();
    refusals();
    labels();
    places();
    return counts();
}
