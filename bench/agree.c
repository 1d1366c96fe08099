/* Holds the proved tag against the plain one on mixed frames, bus events, looks of the screen and readings that are written. */
#include "host.h"
#include "plain.h"
#include "tags.h"

/* ---- dice */

static uint64_t dice_state = 20261115;

static unsigned dice(unsigned limit) {
    dice_state ^= dice_state << 13;
    dice_state ^= dice_state >> 7;
    dice_state ^= dice_state << 17;
    return (unsigned)((dice_state >> 20) % limit);
}

static uint8_t dice_byte(void) { return (uint8_t)dice(256); }

/* ---- both give the same */

/* Mostly a reading, behind a block or some empty bytes, now and then with a byte of it damaged. */
static void lay_reading(uint8_t *user) {
    static const uint8_t lock_control[] = {0x01, 0x03, 0xA0, 0x0C, 0x34}, long_block[] = {0x02, 0xFF, 0x00, 0x01, 0x00};
    uint8_t reading[] = {0x03, 0x0B, 0xD5, 0x00, 0x08, dice_byte(), (uint8_t)dice(16), 0, 0, dice_byte(), dice_byte(), dice_byte(), dice_byte(), 0xFE};
    size_t before = dice(2) ? 5 : 0;
    const uint8_t *block = dice(2) ? lock_control : long_block;
    if (dice(5) == 0)
        reading[dice(sizeof reading)] = dice_byte();
    for (size_t i = 0; i < before; i++)
        user[i] = block[i];
    for (size_t i = dice(3); i > 0; i--)
        user[before++] = 0;
    for (size_t i = 0; i < sizeof reading; i++)
        user[before + i] = reading[i];
}

static void take_image(void) {
    static const size_t lengths[] = {CORRIDOR_IMAGE_45, CORRIDOR_IMAGE_135, CORRIDOR_IMAGE_231, 183};
    size_t length = lengths[dice(30) ? dice(3) : 3], pages = corridor_pages(length);
    for (size_t i = 0; i < length; i++)
        proved.image[i] = i < 10 || dice(3) == 0 ? dice_byte() : 0;
    if (pages) {
        uint8_t *settings = proved.image + 4 * (pages - 4);
        settings[3] = dice(2) ? 0xFF : dice(2) ? (uint8_t)(pages - dice(8)) : dice_byte();
        settings[4] = dice_byte();
        if (dice(2)) { /* mostly a mirror that may be shown */
            settings[0] = dice_byte();
            settings[2] = dice(4) ? (uint8_t)(4 + dice((unsigned)pages - 8)) : dice_byte();
            settings[4] |= dice(2) ? 0x10 : 0x00;
        }
        settings[8] = settings[9] = settings[10] = settings[11] = (uint8_t)dice(2);
        proved.image[10] &= dice_byte() & dice_byte();
        proved.image[11] &= dice_byte() & dice_byte();
        for (int k = 0; k < 3; k++)
            settings[16 + k] = dice(2) ? 0xFF : dice_byte();
        settings[19] = (uint8_t)dice(9);
        if (dice(4))
            lay_reading(proved.image + 16);
    }
    for (size_t i = 0; i < length; i++)
        plain.image[i] = proved.image[i];
    proved.length = plain.length = length;
    proved.record = plain.record = corridor_field_off();
    proved.bus = corridor_bus_at_rest();
    plain.bus = plain_bus_at_rest();
}

static uint8_t dice_page(void) {
    unsigned pages = (unsigned)corridor_pages(proved.length);
    return (uint8_t)(dice(3) ? dice(pages + 2) : pages - dice(8));
}

/* Mostly the frame that leads on from where the tag is, a READ before the tag is selected among them; in ACTIVE a command. */
static struct frame dice_frame(void) {
    uint8_t state = proved.record.state, right = proved.length > 12 ? proved.image[proved.length - 12] : 0;
    if (dice(12) == 0)
        return frame_of((const uint8_t[]){dice_byte(), dice_byte(), dice_byte(), dice_byte()}, 1 + dice(4));
    if (state == CORRIDOR_IDLE || state == CORRIDOR_HALT)
        return short_frame(dice(3) ? 0x52 : 0x26);
    if ((state == CORRIDOR_READY1 || state == CORRIDOR_READY2) && dice(5) == 0)
        return WITH_CRC(0x30, dice(4) ? 0 : dice_page());
    if (state == CORRIDOR_READY1 || state == CORRIDOR_READY2)
        return dice(4) ? select_frame(proved.image, state == CORRIDOR_READY1) : FRAME(state == CORRIDOR_READY1 ? 0x93 : 0x95, 0x20);
    switch (dice(9)) {
    case 0: return WITH_CRC(0x30, dice_page());
    case 1: return WITH_CRC(0x3A, dice_page(), dice_page());
    case 2: return WITH_CRC(0x3A, 0, dice_page());
    case 3: return WITH_CRC(0xA2, 2, dice_byte(), dice_byte(), dice_byte() & dice_byte(), dice_byte() & dice_byte());
    case 4: return WITH_CRC(0xA2, dice_page(), dice_byte(), dice_byte() & dice_byte(), dice_byte() & dice_byte(), dice_byte());
    case 5: return WITH_CRC(0x60);
    case 6: return WITH_CRC(0x39, 2);
    case 7: return WITH_CRC(0x1B, right, right, right, dice(4) ? right : dice_byte());
    default: return WITH_CRC(0x50, dice(8) ? 0 : 1);
    }
}

/* Now and then a frame is damaged on its way. */
static struct frame damaged(struct frame f) {
    f.parity_good = dice(20) != 0;
    if (dice(15) == 0)
        f.bytes[dice((unsigned)f.length)] ^= (uint8_t)(1 << dice(8));
    if (dice(20) == 0)
        f.bits += dice(12);
    return f;
}

static bool same_bytes(const void *one, const void *other, size_t count) {
    const uint8_t *a = one, *b = other;
    for (size_t i = 0; i < count; i++)
        if (a[i] != b[i])
            return false;
    return true;
}

static bool same_frame(const struct frame *f) {
    size_t room = dice(40) ? CORRIDOR_ANSWER_ROOM : dice(CORRIDOR_ANSWER_ROOM);
    corridor_answer a = proved.frame(proved.image, proved.length, proved.answer, room, proved.record, f->bytes, f->length, f->bits, f->parity_good);
    corridor_answer b = plain.frame(plain.image, plain.length, plain.answer, room, plain.record, f->bytes, f->length, f->bits, f->parity_good);
    proved.record = a.left;
    plain.record = b.left;
    return a.refused == b.refused && a.bits == b.bits;
}

static bool same_event(uint8_t event, uint8_t byte) {
    size_t room = dice(60) ? CORRIDOR_MEMORY_BYTES : dice(CORRIDOR_MEMORY_BYTES);
    corridor_bus_answer a = proved.bus_event(&proved.bus, proved.image, proved.length, proved.memory, room, event, byte);
    corridor_bus_answer b = plain.bus_event(&plain.bus, plain.image, plain.length, plain.memory, room, event, byte);
    return a.refused == b.refused && a.kind == b.kind && a.value == b.value;
}

static bool same_screen(void) {
    uint32_t present = dice(6000);
    corridor_screen_answer a = proved.screen(proved.image, proved.length, present), b = plain.screen(plain.image, plain.length, present);
    return a.refused == b.refused && a.verdict == b.verdict && a.watts == b.watts && a.second == b.second;
}

/* Into up to 39 of the user bytes; into none where the image is no right one. */
static bool same_reading(void) {
    size_t room = corridor_pages(proved.length) ? dice(40) : 0;
    uint32_t second = (uint32_t)dice(65536) << dice(17), watts = (uint32_t)dice(65536) << dice(17);
    return proved.write_reading(proved.image + 16, room, second, watts) == plain.write_reading(plain.image + 16, room, second, watts);
}

static uint8_t bus_byte(void) {
    switch (proved.bus.phase) {
    case CORRIDOR_AWAITS_DEVICE: return dice(8) ? 0xA0 + (uint8_t)dice(2) : dice_byte();
    case CORRIDOR_AWAITS_HIGH: return dice(8) ? 0x3E + (uint8_t)dice(6) : dice_byte();
    default: return dice_byte();
    }
}

static bool same_step(void) {
    if (dice(150) == 0)
        take_image();
    if (dice(60) == 0) {
        proved.record = proved.field_loss(proved.record);
        plain.record = plain.field_loss(plain.record);
        return true;
    }
    if (dice(20) == 0)
        return same_screen();
    if (dice(40) == 0)
        return same_reading();
    if (dice(3) == 0)
        return same_event(dice(4) ? CORRIDOR_BYTE_SENT : (uint8_t)dice(6), bus_byte());
    struct frame f = damaged(dice_frame());
    return same_frame(&f);
}

static bool alike(void) {
    return same_bytes(&proved.record, &plain.record, sizeof proved.record) && proved.bus.phase == plain.bus.phase &&
           proved.bus.held == plain.bus.held && proved.bus.counter == plain.bus.counter &&
           same_bytes(proved.bus.bytes, plain.bus.bytes, sizeof proved.bus.bytes) && same_bytes(proved.image, plain.image, proved.length) &&
           same_bytes(proved.memory, plain.memory, sizeof proved.memory) &&
           same_bytes(proved.answer, plain.answer, sizeof proved.answer);
}

int program(void) {
    enum { STEPS = 12000 };
    take_image();
    for (unsigned step = 0; step < STEPS; step++) {
        if (same_step() && alike())
            continue;
        print("the two tags differ at step ");
        print_number(step);
        print("\n");
        return 1;
    }
    print_number(STEPS);
    print(" mixed frames, bus events, looks of the screen and readings: both tags give the same answers, records, images, data memories and buffers\n");
    return 0;
}
