/* The two tags, and the frames that are sent to them. */
#include "tags.h"
#include "plain.h"

struct tag proved = {.frame = corridor_frame, .bus_event = corridor_bus_event, .field_loss = corridor_field_loss, .screen = corridor_screen,
                     .write_reading = corridor_write_reading};
struct tag plain = {.frame = plain_frame, .bus_event = plain_bus_event, .field_loss = plain_field_loss, .screen = plain_screen,
                    .write_reading = plain_write_reading};

static void append_crc(struct frame *f) {
    unsigned crc = 0x6363;
    for (size_t i = 0; i < f->length; i++) {
        crc ^= f->bytes[i];
        for (int k = 0; k < 8; k++)
            crc = crc >> 1 ^ (crc & 1 ? 0x8408 : 0);
    }
    f->bytes[f->length++] = (uint8_t)crc;
    f->bytes[f->length++] = (uint8_t)(crc >> 8);
}

struct frame frame_of(const uint8_t *bytes, size_t length) {
    struct frame f = {.length = length, .parity_good = true};
    for (size_t i = 0; i < length; i++)
        f.bytes[i] = bytes[i];
    f.bits = 8 * length;
    return f;
}

struct frame with_crc(const uint8_t *bytes, size_t length) {
    struct frame f = frame_of(bytes, length);
    append_crc(&f);
    f.bits = 8 * f.length;
    return f;
}

struct frame short_frame(uint8_t code) {
    struct frame f = FRAME(code);
    f.bits = 7;
    return f;
}

struct frame select_frame(const uint8_t *image, bool first) {
    uint8_t a = first ? 0x88 : image[4], b = first ? image[0] : image[5], c = first ? image[1] : image[6], d = first ? image[2] : image[7];
    return WITH_CRC(first ? 0x93 : 0x95, 0x70, a, b, c, d, a ^ b ^ c ^ d);
}
