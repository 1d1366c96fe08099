/*
 * A logger on the roof, and the board in the corridor, for a day. Every five minutes the logger writes a reading into an area of its own and sends
 * the area over the two wires; the board's tag stores it, the board's screen says what it holds, and a phone reads the same bytes over the radio. At
 * a school these are two controllers with wires between them; here the wires are a function. From 13:05 to 13:25 the logger is silent, and the
 * screen says so.
 */
#include "corridor_tag.h"
#include "host.h"

enum { MINUTE = 60, HOUR = 3600, DAY = 86400, EVERY = 5 * MINUTE, LIVE_FOR = 900 };

/* ---- the board: what its firmware holds, and what comes to it */

static uint8_t image[CORRIDOR_IMAGE_45] = CORRIDOR_FACTORY_45;
static uint8_t memory[CORRIDOR_MEMORY_BYTES];
static corridor_bus_record bus;

/* The pin driver has seen an event. Gives whether the tag acknowledges it; starts and stops count as acknowledged. */
static bool on_wires(uint8_t event, uint8_t byte) {
    corridor_bus_answer said = corridor_bus_event(&bus, image, sizeof image, memory, sizeof memory, event, byte);
    return said.refused == CORRIDOR_TAKEN && (said.kind != CORRIDOR_ACKNOWLEDGE || said.value);
}

/* ---- the logger */

/* A reading is written here, and sent. */
static uint8_t area[CORRIDOR_READING_BYTES];

/* The panels' watts at a second of the day: none before 06:00 and after 20:00, 2,700 at 13:00. */
static uint32_t watts_at(uint32_t second) {
    const uint64_t rise = 6 * HOUR, set = 20 * HOUR, most = 2700, half = (set - rise) / 2;
    if (second <= rise || second >= set)
        return 0;
    return (uint32_t)(most * (second - rise) * (set - second) / (half * half));
}

/* Writes a reading and sends it to page 04h. Gives whether each byte was acknowledged; on a roof a logger would send it again where one was not. */
static bool send_reading(uint32_t second, uint32_t watts) {
    bool good = corridor_write_reading(area, sizeof area, second, watts) == CORRIDOR_TAKEN;
    good = on_wires(CORRIDOR_START, 0) && good;
    good = on_wires(CORRIDOR_BYTE_SENT, 0xA0) && good;
    good = on_wires(CORRIDOR_BYTE_SENT, CORRIDOR_READING_ADDRESS >> 8) && good;
    good = on_wires(CORRIDOR_BYTE_SENT, CORRIDOR_READING_ADDRESS & 0xFF) && good;
    for (size_t i = 0; i < sizeof area; i++)
        good = on_wires(CORRIDOR_BYTE_SENT, area[i]) && good;
    return on_wires(CORRIDOR_STOP, 0) && good;
}

static bool is_silent(uint32_t second) {
    return second > 13 * HOUR && second < 13 * HOUR + 30 * MINUTE;
}

/* ---- a phone at the board */

/* Wakes the tag, selects it and reads page 04h. Gives whether it got what the logger wrote last. */
static bool phone_reads(void) {
    static const struct {
        size_t bits;
        uint8_t bytes[9];
    } frames[] = {
        {7, {0x26}},
        {72, {0x93, 0x70, 0x88, 0x1D, 0xA2, 0x30, 0x07, 0xB5, 0x39}},
        {72, {0x95, 0x70, 0x11, 0x09, 0x67, 0xEC, 0x93, 0x55, 0xA8}},
        {32, {0x30, 0x04, 0x26, 0xEE}},
    };
    static uint8_t answer[CORRIDOR_ANSWER_ROOM];
    corridor_tag_record tag = corridor_field_off();
    corridor_answer said = {0};
    for (size_t i = 0; i < sizeof frames / sizeof *frames; i++) {
        said = corridor_frame(image, sizeof image, answer, sizeof answer, tag, frames[i].bytes, (frames[i].bits + 7) / 8, frames[i].bits, true);
        tag = said.left;
    }
    bool good = said.bits == 144;
    for (size_t i = 0; i < sizeof area; i++)
        good = good && answer[i] == area[i];
    return good;
}

/* ---- the day */

static void print_two(uint32_t number) {
    if (number < 10)
        print("0");
    print_number(number);
}

static void show_screen(uint32_t present, const corridor_screen_answer *said) {
    print_two(present / HOUR);
    print(":");
    print_two(present % HOUR / MINUTE);
    print(said->verdict == CORRIDOR_LIVE ? "  live: " : "  old: "); /* of one that was compared, and is not ahead */
    print_number(said->watts);
    print(" W, read ");
    print_number((present - said->second) / MINUTE);
    print(" min ago\n");
}

int program(void) {
    uint32_t last = 0, sent = 0, wrong = 0;
    bus = corridor_bus_at_rest();
    for (uint32_t present = 0; present < DAY; present += EVERY) {
        if (!is_silent(present)) {
            last = present;
            sent++;
            wrong += !send_reading(present, watts_at(present));
        }
        corridor_screen_answer said = corridor_screen(image, sizeof image, present);
        uint8_t due = present - last <= LIVE_FOR ? CORRIDOR_LIVE : CORRIDOR_OLD;
        bool same = said.refused == CORRIDOR_TAKEN && said.verdict == due && said.second == last && said.watts == watts_at(last);
        wrong += !same + !phone_reads();
        if (same && (present % HOUR == 0 || is_silent(present)))
            show_screen(present, &said);
    }
    print_number(sent);
    print(" readings sent; screen and phone looked every five minutes, and ");
    print_number(wrong);
    print(" times something was not as the logger wrote it\n");
    return wrong != 0;
}
