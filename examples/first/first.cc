// A first conversation: a protocol is read, and one message of the device's goes on to the host.
#include <sojimu_conversation.h>
#include <sojimu_words.h>

#include <array>
#include <iostream>
#include <string>

using Room = std::array<uint8_t, SOJIMU_MESSAGE>;

int main()
{
    // The device asks or quits; the host answers each question.
    const std::string text = "rec X.+{!Ask(int[0..100]).&{?Ok().X},!Quit().end}";
    const sojimu_reading protocol = sojimu_read(reinterpret_cast<const uint8_t *>(text.data()), text.size());
    if (protocol.question != 0) {
        std::cout << "refused by question " << protocol.question << ": " << sojimu_question_words(protocol.question) << '\n';
        return 1;
    }
    Room device{}, host{}; // bytes that wait on either side
    sojimu_conversation conversation{};
    if (sojimu_begin(&conversation, &protocol.table, 200, device.data(), device.size(), host.data(), host.size()) != 0)
        return 1;
    const sojimu_field number = sojimu_int(42);
    Room message{}, to_device{}, to_host{};
    const sojimu_made made = sojimu_encode(sojimu_label("Ask"), &number, 1, message.data(), message.size());
    sojimu_hear(&conversation, SOJIMU_DEVICE, message.data(), made.length);
    const sojimu_passed passed = sojimu_pass(&conversation, to_device.data(), to_device.size(), to_host.data(), to_host.size());
    std::cout << "forwarded to the host: " << passed.to_host << " bytes\n";
    return conversation.ended.outcome == SOJIMU_GOES_ON ? 0 : 1;
}
