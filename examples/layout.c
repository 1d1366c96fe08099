/*
 * Holds the structs of corridor_tag.h against the library that is linked: sizes and offsets here are the compiler's, and each field is then
 * handed over and seen to be read and written where this side has it.
 */
#include "corridor_tag.h"
#include "host.h"

/* ---- this side, when it is compiled */

#define HOLDS(name, fact) typedef char name[(fact) ? 1 : -1]

HOLDS(tag_size, sizeof(corridor_tag_record) == 4);
HOLDS(tag_offsets, offsetof(corridor_tag_record, state) == 0 && offsetof(corridor_tag_record, wait) == 1 &&
                       offsetof(corridor_tag_record, authenticated) == 2 && offsetof(corridor_tag_record, answered) == 3);
HOLDS(answer_size, sizeof(corridor_answer) == 24);
HOLDS(answer_offsets, offsetof(corridor_answer, refused) == 0 && offsetof(corridor_answer, bits) == 8 && offsetof(corridor_answer, left) == 16);
HOLDS(bus_size, sizeof(corridor_bus_record) == 68);
HOLDS(bus_offsets, offsetof(corridor_bus_record, phase) == 0 && offsetof(corridor_bus_record, held) == 1 &&
                       offsetof(corridor_bus_record, counter) == 2 && offsetof(corridor_bus_record, bytes) == 4);
HOLDS(bus_answer_size, sizeof(corridor_bus_answer) == 3);
HOLDS(bus_answer_offsets, offsetof(corridor_bus_answer, refused) == 0 && offsetof(corridor_bus_answer, kind) == 1 &&
                              offsetof(corridor_bus_answer, value) == 2);
HOLDS(screen_answer_size, sizeof(corridor_screen_answer) == 12);
HOLDS(screen_answer_offsets, offsetof(corridor_screen_answer, refused) == 0 && offsetof(corridor_screen_answer, verdict) == 1 &&
                                 offsetof(corridor_screen_answer, watts) == 4 && offsetof(corridor_screen_answer, second) == 8);

/* ---- the library's side, by what it does */

/* A struct that is too large for registers comes back through a pointer in front of the other arguments: so these two are the same calls. */
void bus_at_rest_into(uint8_t *room) __asm__("corridor_bus_at_rest");
void frame_into(uint8_t *room, uint8_t *image, size_t image_length, uint8_t *answer, size_t answer_length, corridor_tag_record held,
                const uint8_t *frame, size_t frame_length, size_t bits, bool parity_good) __asm__("corridor_frame");

static uint8_t image[CORRIDOR_IMAGE_45];
static uint8_t memory[CORRIDOR_MEMORY_BYTES + 1];
static uint8_t answer[CORRIDOR_ANSWER_ROOM];
static int faults;

static void expect(const char *what, uint64_t given, uint64_t due) {
    if (given == due)
        return;
    faults++;
    print(what);
    print(": ");
    print_number(given);
    print(" is given, ");
    print_number(due);
    print(" is due\n");
}

/* How many bytes of a painted room a call writes, counted up to the last one. */
static size_t written(const uint8_t *room, size_t size, uint8_t paint) {
    while (size > 0 && room[size - 1] == paint)
        size--;
    return size;
}

static void paint(uint8_t *room, size_t size, uint8_t with) {
    for (size_t i = 0; i < size; i++)
        room[i] = with;
}

static void check_tag_record(void) {
    static const uint8_t wupa[] = {0x52};
    corridor_tag_record held = {CORRIDOR_HALT, 0, 0, 1};
    corridor_answer said = corridor_frame(image, sizeof image, answer, sizeof answer, held, wupa, 1, 7, true);
    expect("corridor_answer.refused", said.refused, CORRIDOR_TAKEN);
    expect("corridor_answer.bits", said.bits, 16);
    expect("corridor_tag_record.state", said.left.state, CORRIDOR_READY1);
    expect("corridor_tag_record.wait", said.left.wait, CORRIDOR_HALT);
    expect("corridor_tag_record.answered", said.left.answered, 1);

    static const uint8_t right_password[] = {0x1B, 0, 0, 0, 0, 0xFA, 0xF3};
    corridor_tag_record active = {CORRIDOR_ACTIVE, CORRIDOR_HALT, 0, 0};
    said = corridor_frame(image, sizeof image, answer, sizeof answer, active, right_password, 7, 56, true);
    expect("corridor_answer.bits after PWD_AUTH", said.bits, 32);
    expect("corridor_tag_record.authenticated", said.left.authenticated, 1);
    expect("corridor_tag_record.wait in ACTIVE", said.left.wait, CORRIDOR_HALT);

    said = corridor_frame(image, 5, answer, sizeof answer, active, wupa, 1, 7, true);
    expect("corridor_answer.refused", said.refused, CORRIDOR_REFUSED_IMAGE);
    expect("corridor_answer.left, refused", said.left.state, CORRIDOR_ACTIVE);

    uint8_t room[64];
    paint(room, sizeof room, 0xEE);
    frame_into(room, image, sizeof image, answer, sizeof answer, held, wupa, 1, 7, true);
    /* The padding behind its last field may be written, or not. */
    size_t reached = written(room, sizeof room, 0xEE);
    expect("corridor_answer is written to its last field", reached >= offsetof(corridor_answer, left) + 4, 1);
    expect("corridor_answer is written past its end", reached > sizeof(corridor_answer), 0);
    expect("corridor_field_loss", corridor_field_loss(active).state, CORRIDOR_IDLE);
    expect("corridor_field_off", corridor_field_off().state, CORRIDOR_IDLE);
}

static void check_bus_record(void) {
    uint8_t room[256];
    paint(room, sizeof room, 0xEE);
    bus_at_rest_into(room);
    expect("the size of corridor_bus_record", written(room, sizeof room, 0xEE), sizeof(corridor_bus_record));

    corridor_bus_record held = corridor_bus_at_rest();
    expect("corridor_bus_record.phase", held.phase, CORRIDOR_AT_REST);
    expect("corridor_bus_record.counter", held.counter, CORRIDOR_WINDOW);

    held.phase = CORRIDOR_AWAITS_LOW;
    held.held = 0x40;
    corridor_bus_answer said = corridor_bus_event(&held, image, sizeof image, memory, CORRIDOR_MEMORY_BYTES, CORRIDOR_BYTE_SENT, 0x52);
    expect("corridor_bus_answer.kind", said.kind, CORRIDOR_ACKNOWLEDGE);
    expect("corridor_bus_answer.value", said.value, 1);
    expect("corridor_bus_record.counter after the address", held.counter, 0x4052);
    expect("corridor_bus_record.held after the address", held.held, 0);

    corridor_bus_event(&held, image, sizeof image, memory, CORRIDOR_MEMORY_BYTES, CORRIDOR_BYTE_SENT, 0x77);
    expect("corridor_bus_record.held after a data byte", held.held, 1);
    expect("corridor_bus_record.bytes", held.bytes[0x12], 0x77);
    held.held = 64;
    held.bytes[63] = 0x99;
    corridor_bus_event(&held, image, sizeof image, memory, CORRIDOR_MEMORY_BYTES, CORRIDOR_STOP, 0);
    expect("the image after a stop", image[0x52], 0x77);
    expect("the last of corridor_bus_record.bytes", image[0x7F], 0x99);

    said = corridor_bus_event(&held, image, sizeof image, memory, CORRIDOR_MEMORY_BYTES, 9, 0);
    expect("corridor_bus_answer.refused", said.refused, CORRIDOR_REFUSED_EVENT);

    /* the two buffers, and their lengths: the last byte of the data memory, and one that is a byte too short or too long */
    held.phase = CORRIDOR_AWAITS_LOW;
    held.held = (CORRIDOR_MEMORY_ADDRESS + CORRIDOR_MEMORY_BYTES - 1) >> 8;
    corridor_bus_event(&held, image, sizeof image, memory, CORRIDOR_MEMORY_BYTES, CORRIDOR_BYTE_SENT, 0xFF);
    corridor_bus_event(&held, image, sizeof image, memory, CORRIDOR_MEMORY_BYTES, CORRIDOR_BYTE_SENT, 0x55);
    said = corridor_bus_event(&held, image, sizeof image, memory, CORRIDOR_MEMORY_BYTES - 1, CORRIDOR_STOP, 0);
    expect("corridor_bus_answer.refused of a short data memory", said.refused, CORRIDOR_REFUSED_MEMORY);
    said = corridor_bus_event(&held, image, sizeof image, memory, CORRIDOR_MEMORY_BYTES + 1, CORRIDOR_STOP, 0);
    expect("corridor_bus_answer.refused of a long data memory", said.refused, CORRIDOR_REFUSED_MEMORY);
    expect("the data memory of a refused call", memory[CORRIDOR_MEMORY_BYTES - 1], 0);
    corridor_bus_event(&held, image, sizeof image, memory, CORRIDOR_MEMORY_BYTES, CORRIDOR_STOP, 0);
    expect("the data memory after a stop", memory[CORRIDOR_MEMORY_BYTES - 1], 0x55);
    expect("corridor_bus_record.counter after the stop", held.counter, 0x3FC0);
}

/* Its answer comes back in registers, so each byte of each field is told from the others by its value, and there is no room to paint. */
static void check_screen_answer(void) {
    static const uint8_t reading[] = {0x03, 0x0B, 0xD5, 0x00, 0x08, 0x11, 0x22, 0x33, 0x44, 0x55, 0x66, 0x77, 0x88, 0xFE};
    enum { SECOND = 0x44332211 };
    const uint32_t watts = 0x88776655;
    for (size_t i = 0; i < sizeof reading; i++)
        image[16 + i] = reading[i];
    static const struct {
        const char *what;
        uint32_t present;
        uint8_t verdict;
    } moments[] = {
        {"corridor_screen_answer.verdict at the second of the reading", SECOND, CORRIDOR_LIVE},
        {"corridor_screen_answer.verdict after 900 seconds", SECOND + 900, CORRIDOR_LIVE},
        {"corridor_screen_answer.verdict after 901 seconds", SECOND + 901, CORRIDOR_OLD},
        {"corridor_screen_answer.verdict a second before", SECOND - 1, CORRIDOR_AHEAD},
    };
    for (size_t i = 0; i < sizeof moments / sizeof *moments; i++) {
        corridor_screen_answer said = corridor_screen(image, sizeof image, moments[i].present);
        expect("corridor_screen_answer.refused", said.refused, CORRIDOR_TAKEN);
        expect(moments[i].what, said.verdict, moments[i].verdict);
        expect("corridor_screen_answer.watts", said.watts, watts);
        expect("corridor_screen_answer.second", said.second, SECOND);
    }

    image[17] = 0x0A;
    corridor_screen_answer said = corridor_screen(image, sizeof image, SECOND);
    expect("corridor_screen_answer.refused", said.refused, CORRIDOR_REFUSED_NO_READING);
    expect("corridor_screen_answer, all but refused", said.verdict + (uint64_t)said.watts + said.second, 0);
    image[17] = 0xFE;
    expect("corridor_screen_answer.refused", corridor_screen(image, sizeof image, SECOND).refused, CORRIDOR_REFUSED_PASSES);
    image[16] = 0xFE;
    expect("corridor_screen_answer.refused", corridor_screen(image, sizeof image, SECOND).refused, CORRIDOR_REFUSED_NO_MESSAGE);
    expect("corridor_screen_answer.refused", corridor_screen(image, 183, SECOND).refused, CORRIDOR_REFUSED_IMAGE);
}

/* Each byte of both numbers is told from the others by its value; of the area, what is behind the reading stays, and at a refusal all of it. */
static void check_write_reading(void) {
    static const uint8_t due[CORRIDOR_READING_BYTES] = {0x03, 0x0B, 0xD5, 0x00, 0x08, 0x11, 0x22, 0x33, 0x44, 0x55, 0x66, 0x77, 0x88, 0xFE};
    uint8_t area[CORRIDOR_READING_BYTES + 2];
    paint(area, sizeof area, 0xEE);
    expect("corridor_write_reading, refused", corridor_write_reading(area, CORRIDOR_READING_BYTES - 1, 0x44332211, 0x88776655), CORRIDOR_REFUSED_AREA);
    expect("the area of a refused corridor_write_reading", written(area, sizeof area, 0xEE), 0);
    expect("corridor_write_reading", corridor_write_reading(area, CORRIDOR_READING_BYTES, 0x44332211, 0x88776655), CORRIDOR_TAKEN);
    for (size_t i = 0; i < sizeof due; i++)
        expect("a byte of corridor_write_reading", area[i], due[i]);
    expect("the area behind corridor_write_reading", written(area, sizeof area, 0xEE), CORRIDOR_READING_BYTES);
    paint(area, sizeof area, 0xEE);
    corridor_write_reading(area, sizeof area, 0x44332211, 0x88776655);
    expect("the area behind corridor_write_reading, lent with it", written(area, sizeof area, 0xEE), CORRIDOR_READING_BYTES);
    expect("CORRIDOR_READING_ADDRESS", CORRIDOR_READING_ADDRESS, CORRIDOR_WINDOW + 4 * 0x04);
}

int program(void) {
    check_tag_record();
    check_bus_record();
    check_screen_answer();
    check_write_reading();
    expect("corridor_pages", corridor_pages(CORRIDOR_IMAGE_45) * 1000000 + corridor_pages(CORRIDOR_IMAGE_135) * 1000 + corridor_pages(CORRIDOR_IMAGE_231), 45135231);
    expect("corridor_pages of another length", corridor_pages(185), 0);
    expect("corridor_answer_room", corridor_answer_room(), CORRIDOR_ANSWER_ROOM);
    print(faults ? "the header and the library differ\n" : "the header and the library agree on every struct\n");
    return faults != 0;
}
