/*
 * A controller's main loop over the corridor tag. The front end and the pin driver are stubs that replay what they once saw; on a board they
 * are interrupts and registers. What matters is between them: one image, one data memory, one record for each side, a call for whatever happens,
 * and one for what the screen is to show. Behind the loop the logger leaves a day of readings in the data memory, and they are read back.
 */
#include "corridor_tag.h"
#include "host.h"

/* ---- what a firmware holds: the image, the data memory, the two records, and room for an answer */

/* A factory-fresh board of 45 pages; pages 04h to 07h will hold the reading. */
static uint8_t image[CORRIDOR_IMAGE_45] = CORRIDOR_FACTORY_45;
static uint8_t memory[CORRIDOR_MEMORY_BYTES];
static uint8_t answer[CORRIDOR_ANSWER_ROOM];
static corridor_tag_record tag;
static corridor_bus_record bus;

/* ---- the clock: a moment is a minute of the day, from 07:00 on */

/* The board counts seconds from midnight, and so does its logger. */
static uint32_t second_at(unsigned moment) {
    return 25200 + 60 * (uint32_t)moment;
}

/* ---- the front end: a stub that replays an exchange, each frame at its moment */

struct heard {
    unsigned moment;
    const char *what;
    size_t bits; /* 0: the field is lost */
    uint8_t bytes[9];
};

static const struct heard exchange[] = {
    {20, "REQA", 7, {0x26}},
    {21, "SELECT, first part", 72, {0x93, 0x70, 0x88, 0x1D, 0xA2, 0x30, 0x07, 0xB5, 0x39}},
    {22, "SELECT, second part", 72, {0x95, 0x70, 0x11, 0x09, 0x67, 0xEC, 0x93, 0x55, 0xA8}},
    {23, "READ 04h", 32, {0x30, 0x04, 0x26, 0xEE}},
    {31, "READ 04h, while the logger writes", 32, {0x30, 0x04, 0x26, 0xEE}},
    {40, "READ 04h, after the logger's stop", 32, {0x30, 0x04, 0x26, 0xEE}},
    {41, "READ F0h, which is no page", 32, {0x30, 0xF0, 0x8D, 0x5F}},
    {42, "the field is lost", 0, {0}},
    {43, "REQA of a phone that skips the second SELECT", 7, {0x26}},
    {43, "SELECT, first part", 72, {0x93, 0x70, 0x88, 0x1D, 0xA2, 0x30, 0x07, 0xB5, 0x39}},
    {43, "READ 00h, before the second SELECT", 32, {0x30, 0x00, 0x02, 0xA8}},
    {43, "READ 04h", 32, {0x30, 0x04, 0x26, 0xEE}},
    {44, "the field is lost", 0, {0}},
};

/* ---- the pin driver: a stub that replays the logger's transfers */

struct seen {
    unsigned moment;
    uint8_t event, byte;
};

#define SENT(moment, byte) {moment, CORRIDOR_BYTE_SENT, byte}

static const struct seen transfers[] = {
    /* at 07:10: 42 W, a reading of second 25800 */
    {10, CORRIDOR_START, 0},
    SENT(11, 0xA0), SENT(11, 0x40), SENT(11, 0x10),
    SENT(12, 0x03), SENT(12, 0x0B), SENT(12, 0xD5), SENT(12, 0x00), SENT(12, 0x08),
    SENT(12, 0xC8), SENT(12, 0x64), SENT(12, 0x00), SENT(12, 0x00),
    SENT(12, 0x2A), SENT(12, 0x00), SENT(12, 0x00), SENT(12, 0x00), SENT(12, 0xFE),
    {13, CORRIDOR_STOP, 0},
    /* at 07:30: 57 W, a reading of second 27000 */
    {30, CORRIDOR_START, 0},
    SENT(30, 0xA0), SENT(30, 0x40), SENT(30, 0x10),
    SENT(30, 0x03), SENT(30, 0x0B), SENT(30, 0xD5), SENT(30, 0x00), SENT(30, 0x08),
    SENT(30, 0x78), SENT(30, 0x69), SENT(30, 0x00), SENT(30, 0x00),
    SENT(30, 0x39), SENT(30, 0x00), SENT(30, 0x00), SENT(30, 0x00), SENT(30, 0xFE),
    {32, CORRIDOR_STOP, 0},
    /* and something that is no event */
    {50, 9, 0},
};

/* ---- the timer: the moments at which the screen is looked at again, since a reading grows old without any event */

static const unsigned looks[] = {5, 25, 26, 31, 45, 46};

#define COUNT(list) (sizeof(list) / sizeof *(list))

/* ---- what is shown of it */

static void show_bytes(const uint8_t *bytes, size_t bits) {
    for (size_t i = 0; i < (bits + 7) / 8; i++) {
        print(" ");
        print_hex(bytes[i]);
    }
    print(" (");
    print_number(bits);
    print(" bits)\n");
}

static void show_refusal(uint8_t number) {
    print("  refused: ");
    print_number(number);
    print("\n");
}

/* ---- the two sides */

static void on_frame(const struct heard *heard) {
    print("radio  ");
    print(heard->what);
    print("\n");
    if (heard->bits == 0) {
        tag = corridor_field_loss(tag);
        return;
    }
    corridor_answer said = corridor_frame(image, sizeof image, answer, sizeof answer, tag, heard->bytes, (heard->bits + 7) / 8, heard->bits, true);
    tag = said.left;
    if (said.refused != CORRIDOR_TAKEN) {
        show_refusal(said.refused);
    } else if (said.bits == 0) {
        print("  silence\n");
    } else {
        print(" ");
        show_bytes(answer, said.bits); /* on a board: hand them to the front end */
    }
}

static void on_event(const struct seen *seen) {
    static const char *const names[] = {"start", "stop", "byte sent", "byte read", "byte read, the last"};
    print("wires  ");
    print(seen->event < COUNT(names) ? names[seen->event] : "an event that there is not");
    if (seen->event == CORRIDOR_BYTE_SENT) {
        print(" ");
        print_hex(seen->byte);
    }
    corridor_bus_answer said = corridor_bus_event(&bus, image, sizeof image, memory, sizeof memory, seen->event, seen->byte);
    if (said.refused != CORRIDOR_TAKEN)
        show_refusal(said.refused);
    else if (said.kind == CORRIDOR_ACKNOWLEDGE)
        print(said.value ? ": acknowledged\n" : ": not acknowledged\n"); /* on a board: pull the line, or let it be */
    else
        print("\n");
}

/* ---- the screen: what the image holds, at this moment */

static void on_screen(unsigned moment) {
    static const char *const verdicts[] = {[CORRIDOR_LIVE] = " live: ", [CORRIDOR_OLD] = " old: ", [CORRIDOR_AHEAD] = " ahead: "};
    uint32_t present = second_at(moment);
    corridor_screen_answer said = corridor_screen(image, sizeof image, present);
    print("screen");
    if (said.refused != CORRIDOR_TAKEN) {
        show_refusal(said.refused); /* on a board: show that there is no reading */
        return;
    }
    bool ahead = said.verdict == CORRIDOR_AHEAD;
    print(verdicts[said.verdict]);
    print_number(said.watts);
    print(ahead ? " W, dated " : " W, read ");
    print_number(ahead ? said.second - present : present - said.second);
    print(ahead ? " s from now\n" : " s ago\n");
}

/* ---- a day of readings in the data memory: one every five minutes, 16 bytes apart, so that each lies within one 64-byte page */

enum { READINGS = 288, APART = 16 };

/* Any reading will do here: none at midnight, 1,440 W at noon. */
static void write_reading(uint8_t reading[CORRIDOR_READING_BYTES], uint32_t number) {
    corridor_write_reading(reading, CORRIDOR_READING_BYTES, 300 * number, 10 * (number < READINGS / 2 ? number : READINGS - number));
}

/* What a pin driver does with an event. Gives the acknowledge bit, or the byte that was read. */
static uint8_t on_wires(uint8_t event, uint8_t byte) {
    corridor_bus_answer said = corridor_bus_event(&bus, image, sizeof image, memory, sizeof memory, event, byte);
    if (said.refused != CORRIDOR_TAKEN)
        show_refusal(said.refused);
    return said.value;
}

/* Gives whether each byte was acknowledged. */
static bool send_address(uint32_t address) {
    on_wires(CORRIDOR_START, 0);
    bool good = on_wires(CORRIDOR_BYTE_SENT, 0xA0);
    good = on_wires(CORRIDOR_BYTE_SENT, (uint8_t)(address >> 8)) && good;
    return on_wires(CORRIDOR_BYTE_SENT, (uint8_t)address) && good;
}

static uint32_t keep_day(void) {
    uint32_t kept = 0;
    for (uint32_t number = 0; number < READINGS; number++) {
        uint8_t reading[CORRIDOR_READING_BYTES];
        write_reading(reading, number);
        bool good = send_address(CORRIDOR_MEMORY_ADDRESS + APART * number);
        for (size_t i = 0; i < sizeof reading; i++)
            good = on_wires(CORRIDOR_BYTE_SENT, reading[i]) && good;
        on_wires(CORRIDOR_STOP, 0);
        kept += good;
    }
    return kept;
}

/* One sequential read from the first byte on. Gives how many readings come back as they were sent. */
static uint32_t read_day(void) {
    uint32_t same = 0;
    send_address(CORRIDOR_MEMORY_ADDRESS);
    on_wires(CORRIDOR_START, 0);
    on_wires(CORRIDOR_BYTE_SENT, 0xA1);
    for (uint32_t number = 0; number < READINGS; number++) {
        uint8_t due[CORRIDOR_READING_BYTES];
        bool good = true;
        write_reading(due, number);
        for (size_t i = 0; i < APART; i++) {
            bool last = number + 1 == READINGS && i + 1 == APART;
            uint8_t byte = on_wires(last ? CORRIDOR_BYTE_READ_LAST : CORRIDOR_BYTE_READ_ACK, 0);
            good = good && (i >= sizeof due || byte == due[i]);
        }
        same += good;
    }
    on_wires(CORRIDOR_STOP, 0);
    return same;
}

static void on_day(void) {
    print("wires  a day of readings for the data memory: ");
    print_number(keep_day());
    print(" of ");
    print_number(READINGS);
    print(" acknowledged\nwires  they are read back: ");
    print_number(read_day());
    print(" as they were sent\n");
}

/* ---- the main loop: whatever comes next, from either side, and the screen after a stop and when its time has come */

int program(void) {
    size_t frames = 0, events = 0, looked = 0;
    tag = corridor_field_off();
    bus = corridor_bus_at_rest();
    for (unsigned moment = 0; frames < COUNT(exchange) || events < COUNT(transfers) || looked < COUNT(looks); moment++) {
        while (events < COUNT(transfers) && transfers[events].moment == moment) {
            on_event(&transfers[events]);
            if (transfers[events++].event == CORRIDOR_STOP)
                on_screen(moment);
        }
        while (frames < COUNT(exchange) && exchange[frames].moment == moment)
            on_frame(&exchange[frames++]);
        for (; looked < COUNT(looks) && looks[looked] == moment; looked++)
            on_screen(moment);
    }
    on_day();
    return 0;
}
