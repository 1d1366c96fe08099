/*
 * A plain tag: the calls of corridor_tag.h under other names, over the same records and numbers. The benchmark times the two against each
 * other. What each call does, and what it asks of its caller, is said in corridor_tag.h.
 */
#ifndef PLAIN_TAG_H
#define PLAIN_TAG_H

#include "../include/corridor_tag.h"

#ifdef __cplusplus
extern "C" {
#endif

corridor_tag_record plain_field_off(void);

corridor_tag_record plain_field_loss(corridor_tag_record held);

corridor_answer plain_frame(uint8_t *image, size_t image_length, uint8_t *answer, size_t answer_length, corridor_tag_record held,
                            const uint8_t *frame, size_t frame_length, size_t bits, bool parity_good);

corridor_bus_record plain_bus_at_rest(void);

corridor_bus_answer plain_bus_event(corridor_bus_record *held, uint8_t *image, size_t image_length, uint8_t *memory, size_t memory_length,
                                    uint8_t event, uint8_t byte);

corridor_screen_answer plain_screen(const uint8_t *image, size_t image_length, uint32_t present);

/* The CRC_A of these bytes, which no call of corridor_tag.h gives. */
unsigned plain_crc_a(const uint8_t *data, size_t length);

uint8_t plain_write_reading(uint8_t *area, size_t area_length, uint32_t second, uint32_t watts);

#ifdef __cplusplus
}
#endif

#endif
