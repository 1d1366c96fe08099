/* Takes the CRC_A of 16 bytes and of 510 once by the library's function and once by the plain one, between two marks, as count.c makes its calls. */
#include "host.h"
#include "marks.h"
#include "plain.h"

/* A slice is lent by where its start and its length stand. What is above the sixteen bits of the sum is left open. */
struct lent {
    const uint8_t *bytes;
    uint64_t length;
};
unsigned proved_crc_a(const struct lent *lent) __asm__("crc_a::crc_a");

int program(void) {
    static const size_t lengths[] = {16, 510};
    static uint8_t bytes[510];
    for (size_t i = 0; i < sizeof bytes; i++)
        bytes[i] = (uint8_t)(37 * i + i / 8);
    for (size_t k = 0; k < sizeof lengths / sizeof *lengths; k++) {
        const struct lent lent = {bytes, lengths[k]};
        count_begin();
        const unsigned proved = proved_crc_a(&lent);
        count_end();
        count_begin();
        const unsigned plain = plain_crc_a(bytes, lengths[k]);
        count_end();
        if ((proved ^ plain) & 0xFFFF)
            return 1;
        print("CRC_A of ");
        print_number(lengths[k]);
        print(" bytes\n");
    }
    return 0;
}
