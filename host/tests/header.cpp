// The header in C++, and a desk by its calls.
#include "cuedesk.h"

#include <cstdint>
#include <cstdio>
#include <cstring>
#include <vector>

int main() {
    const char show[] = "IDENT 3:0\nPATCH 1 1<1@FL\nCUE 1\nUP 0\nCHAN 1@H80\nENDDATA\n";
    cuedesk desk = CUEDESK_CLOSED_DESK;
    cuedesk_report report;
    std::vector<std::uint8_t> slots(CUEDESK_SLOTS);
    char reply[16];
    std::size_t length = 0;
    std::uint32_t accepted = 0;
    bool good = cuedesk_version() == CUEDESK_VERSION
        && cuedesk_open(&desk, reinterpret_cast<const std::uint8_t *>(show), std::strlen(show), false, &report) == CUEDESK_OK
        && cuedesk_command(&desk, reinterpret_cast<const std::uint8_t *>("go"), 2, reinterpret_cast<std::uint8_t *>(reply), sizeof reply, &length)
            == CUEDESK_OK
        && length == 3 && std::memcmp(reply, "ok\n", 3) == 0 && cuedesk_tick(&desk, 1, &accepted) == CUEDESK_OK && accepted == 1
        && cuedesk_frame(&desk, 1, slots.data(), slots.size()) == CUEDESK_OK && slots[0] == 128 && slots[1] == 0;
    cuedesk_close(&desk);
    std::puts(good ? "header: the calls are there in C++" : "header: another answer");
    return good ? 0 : 1;
}
