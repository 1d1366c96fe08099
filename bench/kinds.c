/* The kinds of frames and transfers that are timed and counted. */
#include "kinds.h"

static struct frame sent;
static corridor_tag_record sent_from;

static void run_frame(struct tag *t) {
    t->frame(t->image, t->length, t->answer, sizeof t->answer, sent_from, sent.bytes, sent.length, sent.bits, true);
}

static void send_byte(struct tag *t, uint8_t byte) {
    t->bus_event(&t->bus, t->image, t->length, t->memory, sizeof t->memory, CORRIDOR_BYTE_SENT, byte);
}

static void event(struct tag *t, uint8_t event) { t->bus_event(&t->bus, t->image, t->length, t->memory, sizeof t->memory, event, 0); }

static void send_address(struct tag *t, unsigned address) {
    event(t, CORRIDOR_START);
    send_byte(t, 0xA0);
    send_byte(t, (uint8_t)(address >> 8));
    send_byte(t, (uint8_t)address);
}

static void write_from(struct tag *t, unsigned address) {
    send_address(t, address);
    for (uint8_t i = 0; i < 16; i++)
        send_byte(t, i);
    event(t, CORRIDOR_STOP);
}

static void read_from(struct tag *t, unsigned address) {
    send_address(t, address);
    event(t, CORRIDOR_START);
    send_byte(t, 0xA1);
    for (int i = 0; i < 4 * 231 - 1; i++)
        event(t, CORRIDOR_BYTE_READ_ACK);
    event(t, CORRIDOR_BYTE_READ_LAST);
    event(t, CORRIDOR_STOP);
}

static void run_bus_write(struct tag *t) { write_from(t, CORRIDOR_WINDOW + 0x40); }

static void run_bus_read(struct tag *t) { read_from(t, CORRIDOR_WINDOW); }

static void run_memory_write(struct tag *t) { write_from(t, CORRIDOR_MEMORY_ADDRESS + 0x1040); }

static void run_memory_read(struct tag *t) { read_from(t, CORRIDOR_MEMORY_ADDRESS); }

static void run_screen(struct tag *t) { t->screen(t->image, t->length, 26000); }

static void run_reading(struct tag *t) { t->write_reading(t->image + 16, 14, 25800, 42); }

static void with_reading(struct tag *t) {
    static const uint8_t reading[] = {0x03, 0x0B, 0xD5, 0x00, 0x08, 0xC8, 0x64, 0x00, 0x00, 0x2A, 0x00, 0x00, 0x00, 0xFE};
    for (size_t i = 0; i < sizeof reading; i++)
        t->image[16 + i] = reading[i];
}

/* "UID .. or both": from the first byte of page 0Ch on, with the counter on. */
static void with_mirror(struct tag *t, uint8_t mode) {
    t->image[4 * 0xE3] = mode;
    t->image[4 * 0xE3 + 2] = 0x0C;
    t->image[4 * 0xE4] = 0x10;
}

static void with_uid(struct tag *t) { with_mirror(t, 0x40); }

static void with_both(struct tag *t) { with_mirror(t, 0xC0); }

static void fresh(struct tag *t) {
    static const uint8_t first[] = {0x1D, 0xA2, 0x30, 0x07, 0x11, 0x09, 0x67, 0xEC, 0x93, 0x48, 0x00, 0x00, 0xE1, 0x10, 0x6F, 0x00};
    for (size_t i = 0; i < sizeof t->image; i++)
        t->image[i] = i < sizeof first ? first[i] : 0;
    t->image[4 * 0xE3 + 3] = 0xFF;
    t->length = sizeof t->image;
    t->bus = corridor_bus_at_rest();
}

void prepare(const struct kind *kind, struct tag *t) {
    fresh(t);
    if (kind->set_up)
        kind->set_up(t);
    sent = kind->frame;
    sent_from = (corridor_tag_record){kind->state, CORRIDOR_IDLE, 0, 1};
}

void list_kinds(struct kind kinds[KINDS]) {
    fresh(&proved);
    const struct kind list[KINDS] = {
        {"REQA                         ", run_frame, 200000, short_frame(0x26), CORRIDOR_IDLE, 0},
        {"anticollision                ", run_frame, 200000, FRAME(0x93, 0x20), CORRIDOR_READY1, 0},
        {"SELECT                       ", run_frame, 100000, select_frame(proved.image, true), CORRIDOR_READY1, 0},
        {"READ                         ", run_frame, 50000, WITH_CRC(0x30, 0x06), CORRIDOR_ACTIVE, 0},
        {"READ of page 00h in READY1   ", run_frame, 50000, WITH_CRC(0x30, 0x00), CORRIDOR_READY1, 0},
        {"READ of a mirrored UID       ", run_frame, 20000, WITH_CRC(0x30, 0x0C), CORRIDOR_ACTIVE, with_uid},
        {"READ of UID and counter      ", run_frame, 20000, WITH_CRC(0x30, 0x0C), CORRIDOR_ACTIVE, with_both},
        {"FAST_READ of everything      ", run_frame, 2000, WITH_CRC(0x3A, 0x00, 0xE6), CORRIDOR_ACTIVE, 0},
        {"WRITE of a user page         ", run_frame, 50000, WITH_CRC(0xA2, 0xD0, 1, 2, 3, 4), CORRIDOR_ACTIVE, 0},
        {"WRITE of static locks        ", run_frame, 50000, WITH_CRC(0xA2, 0x02, 0, 0, 8, 0), CORRIDOR_ACTIVE, 0},
        {"WRITE of dynamic locks       ", run_frame, 50000, WITH_CRC(0xA2, 0xE2, 1, 2, 0, 0), CORRIDOR_ACTIVE, 0},
        {"PWD_AUTH                     ", run_frame, 50000, WITH_CRC(0x1B, 0, 0, 0, 0), CORRIDOR_ACTIVE, 0},
        {"bus write of 16 bytes        ", run_bus_write, 10000, {.length = 0}, 0, 0},
        {"bus read of a whole window   ", run_bus_read, 500, {.length = 0}, 0, 0},
        {"data memory, write of 16     ", run_memory_write, 10000, {.length = 0}, 0, 0},
        {"data memory, read of 924     ", run_memory_read, 500, {.length = 0}, 0, 0},
        {"screen of a reading          ", run_screen, 200000, {.length = 0}, 0, with_reading},
        {"screen of empty user pages   ", run_screen, 10000, {.length = 0}, 0, 0},
        {"a reading written            ", run_reading, 200000, {.length = 0}, 0, 0},
    };
    for (int k = 0; k < KINDS; k++)
        kinds[k] = list[k];
}
