/* A first conversation: a protocol is read, and one message of the device's goes on to the host. */
#include <sojimu_conversation.h>
#include <sojimu_words.h>
#include <stdio.h>

/* The device asks or quits; the host answers each question. */
static const char text[] = "rec X.+{!Ask(int[0..100]).&{?Ok().X},!Quit().end}";

static uint8_t device[SOJIMU_MESSAGE], host[SOJIMU_MESSAGE];    /* bytes that wait on either side */
static uint8_t to_device[SOJIMU_MESSAGE], to_host[SOJIMU_MESSAGE]; /* bytes to send on */

int main(void)
{
    const struct sojimu_reading protocol = sojimu_read((const uint8_t *)text, sizeof text - 1);
    const struct sojimu_field number = sojimu_int(42);
    struct sojimu_conversation conversation;
    struct sojimu_passed passed;
    uint8_t message[SOJIMU_MESSAGE];
    struct sojimu_made made;

    if (protocol.question != 0) {
        printf("refused by question %u: %s\n", (unsigned)protocol.question, sojimu_question_words(protocol.question));
        return 1;
    }
    if (sojimu_begin(&conversation, &protocol.table, 200, device, sizeof device, host, sizeof host) != 0)
        return 1;
    made = sojimu_encode(sojimu_label("Ask"), &number, 1, message, sizeof message);
    sojimu_hear(&conversation, SOJIMU_DEVICE, message, made.length);
    passed = sojimu_pass(&conversation, to_device, sizeof to_device, to_host, sizeof to_host);
    printf("forwarded to the host: %u bytes\n", (unsigned)passed.to_host);
    return conversation.ended.outcome == SOJIMU_GOES_ON ? 0 : 1;
}
