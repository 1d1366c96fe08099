/* The proved tag and the plain one behind one interface, and the frames that are sent to them. */
#ifndef TAGS_H
#define TAGS_H

#include "corridor_tag.h"

struct tag {
    corridor_answer (*frame)(uint8_t *, size_t, uint8_t *, size_t, corridor_tag_record, const uint8_t *, size_t, size_t, bool);
    corridor_bus_answer (*bus_event)(corridor_bus_record *, uint8_t *, size_t, uint8_t *, size_t, uint8_t, uint8_t);
    corridor_tag_record (*field_loss)(corridor_tag_record);
    corridor_screen_answer (*screen)(const uint8_t *, size_t, uint32_t);
    uint8_t (*write_reading)(uint8_t *, size_t, uint32_t, uint32_t);
    uint8_t image[CORRIDOR_IMAGE_231];
    size_t length;
    uint8_t memory[CORRIDOR_MEMORY_BYTES];
    uint8_t answer[CORRIDOR_ANSWER_ROOM];
    corridor_tag_record record;
    corridor_bus_record bus;
};

extern struct tag proved, plain;

struct frame {
    uint8_t bytes[64];
    size_t length, bits;
    bool parity_good;
};

struct frame frame_of(const uint8_t *bytes, size_t length);

/* These bytes, and their CRC_A. */
struct frame with_crc(const uint8_t *bytes, size_t length);

/* Seven bits. */
struct frame short_frame(uint8_t code);

/* SELECT of the first or the second part of the serial number. */
struct frame select_frame(const uint8_t *image, bool first);

#define FRAME(...) frame_of((const uint8_t[]){__VA_ARGS__}, sizeof((const uint8_t[]){__VA_ARGS__}))
#define WITH_CRC(...) with_crc((const uint8_t[]){__VA_ARGS__}, sizeof((const uint8_t[]){__VA_ARGS__}))

#endif
