/* The stack that each call needs, on its worst inputs: the call runs on a stack of its own that was filled with marks, and those
 * that are gone are counted. Prints what was found, a line for each call that needs more than the header says, and at the end
 * `N passed, M failed`. */
#include "check.h"

typedef void (*call)(void);

/* How many words the longest call takes, the place for its struct among them, and one more so that their number is even. */
enum { WORDS = 14 };

/* Calls a function of up to WORDS words with `top` as the end of its stack. */
void call_on(uint8_t *top, call function, const uintptr_t words[WORDS]);

__asm__(".text\n"
        ".type call_on, @function\n"
        "call_on:\n"
        "    pushq %rbp\n"
        "    pushq %rbx\n"
        "    movq %rsp, %rbp\n"
        "    movq %rdi, %rsp\n"
        "    movq %rsi, %rax\n"
        "    movq %rdx, %rbx\n"
        "    pushq 104(%rbx)\n"
        "    pushq 96(%rbx)\n"
        "    pushq 88(%rbx)\n"
        "    pushq 80(%rbx)\n"
        "    pushq 72(%rbx)\n"
        "    pushq 64(%rbx)\n"
        "    pushq 56(%rbx)\n"
        "    pushq 48(%rbx)\n"
        "    movq (%rbx), %rdi\n"
        "    movq 8(%rbx), %rsi\n"
        "    movq 16(%rbx), %rdx\n"
        "    movq 24(%rbx), %rcx\n"
        "    movq 32(%rbx), %r8\n"
        "    movq 40(%rbx), %r9\n"
        "    call *%rax\n"
        "    movq %rbp, %rsp\n"
        "    popq %rbx\n"
        "    popq %rbp\n"
        "    ret\n");

enum { STACK = 1 << 18 };

static _Alignas(16) uint8_t stack[STACK];

/* The bytes below the caller's that a call used. The first call is not measured: memcpy and memset are bound in it. */
static size_t used(call function, const uintptr_t words[WORDS])
{
    size_t untouched = 0;
    call_on(stack + STACK, function, words);
    memset(stack, MARK, sizeof stack);
    call_on(stack + STACK, function, words);
    while (untouched < STACK && stack[untouched] == MARK) {
        untouched++;
    }
    return STACK - 8 * (WORDS - 6) - untouched;
}

static void needs(const char *name, call function, size_t most, const uintptr_t words[WORDS])
{
    const size_t bytes = used(function, words);
    printf("%-20s %6zu bytes of %zu\n", name, bytes, most);
    CHECK(bytes >= 8 && bytes <= most);
}

/* A call's words: numbers, and pointers by AT. */
#define NEEDS(name, most, ...) needs(#name, (call)name, most, (const uintptr_t[WORDS]){__VA_ARGS__})
#define AT(pointer) ((uintptr_t)(pointer))

static char deep[8192], deeper[8192], recs[8192], largest[8192], other[8192], blanks[8192];

/* Texts: 16 choices open around one another, a seventeenth, 16 `rec`s, and the most states and branches. */
static void write_texts(void)
{
    size_t n = 0, m = 0;
    for (int i = 0; i < 16; i++) {
        n += (size_t)sprintf(deep + n, "+{!A(text[0..64],int[-2147483648..2147483647],flag[0..1],text[64..64]).");
        m += (size_t)sprintf(recs + m, "rec X%d.", i);
    }
    strcpy(deeper, deep);
    strcat(deeper, "+{");
    sprintf(deep + n, "end}}}}}}}}}}}}}}}}");
    sprintf(recs + m, "end");
    largest_text(largest);
    memcpy(other, largest, sizeof other);
    memcpy(strrchr(other, '9'), "8", 1);
    memset(blanks, ' ', sizeof blanks - 1);
}

static struct sojimu_table table;

/* Calls over two texts, and over one. */
static void texts(void)
{
    static const char *const all[] = {"", "end", P, deep, deeper, recs, largest, other, blanks, "edition 2 end", "edition 3"};
    enum { TEXTS = sizeof all / sizeof all[0] };
    static struct sojimu_reading reading;
    static uint8_t report[SOJIMU_REPORT];
    for (int i = 0; i < TEXTS; i++) {
        NEEDS(sojimu_raw_read, SOJIMU_STACK_READ, AT(&reading), AT(all[i]), strlen(all[i]));
        for (int j = 0; j < TEXTS; j++) {
            NEEDS(sojimu_raw_report, SOJIMU_STACK_REPORT, AT(all[i]), strlen(all[i]), AT(all[j]), strlen(all[j]), AT(report),
                  sizeof report);
        }
    }
}

static void tables(void)
{
    static struct sojimu_turned turned;
    const struct sojimu_table small = table_of(P), less = table_of(other);
    NEEDS(sojimu_dual, SOJIMU_STACK_DUAL, AT(&turned), AT(&table));
    NEEDS(sojimu_dual, SOJIMU_STACK_DUAL, AT(&turned), AT(&empty));
    NEEDS(sojimu_raw_fit, SOJIMU_STACK_FIT, AT(&table), AT(&table), AT(list), SOJIMU_LIST);
    NEEDS(sojimu_raw_fit, SOJIMU_STACK_FIT, AT(&less), AT(&table), AT(list), SOJIMU_LIST);
    NEEDS(sojimu_raw_fit, SOJIMU_STACK_FIT, AT(&small), AT(&small), AT(list), SOJIMU_LIST);
    NEEDS(sojimu_sound, SOJIMU_STACK_TABLE, AT(&table));
    NEEDS(sojimu_sound, SOJIMU_STACK_TABLE, AT(&small));
    NEEDS(sojimu_sound_at, SOJIMU_STACK_TABLE, AT(&table), 31);
    NEEDS(sojimu_empty, SOJIMU_STACK_OTHER, AT(&turned));
}

static void messages(void)
{
    static struct sojimu_started begun;
    static struct sojimu_state state;
    static uint8_t message[ROOM], other_out[ROOM];
    const struct sojimu_made made = sojimu_make(&table, 0, 0, message, ROOM);
    const struct sojimu_state start = fresh(&table);
    struct sojimu_table second = table;
    second.edition = 2;
    CHECK(made.question == 0);
    NEEDS(sojimu_raw_make, SOJIMU_STACK_TABLE, AT(&table), 0, 0, AT(out), ROOM);
    NEEDS(sojimu_raw_make, SOJIMU_STACK_TABLE, AT(&table), 0, SOJIMU_ALL_LOW, AT(out), 0);
    for (uint32_t side = 0; side < 3; side++) {
        state = start;
        NEEDS(sojimu_raw_step, SOJIMU_STACK_TABLE, AT(&table), AT(&state), AT(sojimu_counts(&state)), side, AT(message), made.length, AT(out), ROOM);
        state = start;
        NEEDS(sojimu_raw_step, SOJIMU_STACK_TABLE, AT(&second), AT(&state), AT(sojimu_counts(&state)), side, AT(message), made.length, AT(out), ROOM);
    }
    state = start;
    memcpy(message, "No", 2);
    NEEDS(sojimu_raw_step, SOJIMU_STACK_TABLE, AT(&table), AT(&state), AT(sojimu_counts(&state)), 0, AT(message), made.length, AT(out), ROOM);
    for (size_t room = 0; room <= ROOM; room += ROOM) {
        static struct sojimu_batch given;
        state = start;
        NEEDS(sojimu_raw_batch, SOJIMU_STACK_TABLE, AT(&given), AT(&table), AT(&state), AT(sojimu_counts(&state)), AT(message), ROOM,
              AT(message), ROOM,
              AT(out), room, AT(other_out), room);
    }
    NEEDS(sojimu_raw_due, SOJIMU_STACK_TABLE, AT(&table), AT(&state), AT(sojimu_counts(&state)), AT(message), ROOM, AT(message), ROOM);
    NEEDS(sojimu_raw_turn, SOJIMU_STACK_TABLE, AT(&table), AT(&state), AT(sojimu_counts(&state)));
    NEEDS(sojimu_raw_warning, SOJIMU_STACK_TABLE, AT(&table), AT(&state), AT(sojimu_counts(&state)), 127);
    NEEDS(sojimu_raw_front, SOJIMU_STACK_OTHER, AT(message), ROOM);
    NEEDS(sojimu_raw_broken, SOJIMU_STACK_OTHER, AT(message), ROOM);
    NEEDS(sojimu_raw_refusal, SOJIMU_STACK_OTHER, AT(message), made.length);
    NEEDS(sojimu_raw_has_label, SOJIMU_STACK_OTHER, AT(message), ROOM, 0);
    NEEDS(sojimu_label_legal, SOJIMU_STACK_OTHER, 0);
    NEEDS(sojimu_range_legal, SOJIMU_STACK_OTHER, 1, 0, 0);
    NEEDS(sojimu_fresh, SOJIMU_STACK_TABLE, AT(&begun), AT(&table), SETTING);
    NEEDS(sojimu_version, SOJIMU_STACK_OTHER, 0);
    NEEDS(sojimu_abi_6, SOJIMU_STACK_OTHER, 0);
}

int main(void)
{
    write_texts();
    table = table_of(largest);
    CHECK(table.states == SOJIMU_STATES && table.branches == SOJIMU_BRANCHES);
    texts();
    tables();
    messages();
    return counts();
}
