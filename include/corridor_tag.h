/*
 * The corridor tag, for a controller's firmware in C.
 *
 * The tag has two sides that share one image: radio frames after demodulation, and two-wire events after the pin driver. Beside the image the
 * two wires have a data memory of their own, which the radio can't reach. A firmware holds the image, the data memory and two records, and hands
 * them to the calls; the tag itself keeps nothing. A board with a screen asks the same image what to show of the reading that its logger wrote
 * (corridor_screen); a logger makes the bytes of a reading (corridor_write_reading).
 *
 *     static uint8_t image[CORRIDOR_IMAGE_45] = CORRIDOR_FACTORY_45;    the pages, and a tail of four bytes
 *     static uint8_t memory[CORRIDOR_MEMORY_BYTES];                     what a logger keeps on the board
 *     static uint8_t answer[CORRIDOR_ANSWER_ROOM];                      where answers are put
 *     corridor_tag_record tag = corridor_field_off();
 *     corridor_bus_record bus = corridor_bus_at_rest();
 *
 * Whatever numbers and bytes a call is given, it answers, or it refuses with one of the CORRIDOR_REFUSED numbers and changes nothing. No
 * record is refused: numbers without a meaning count as after field loss, or as a bus at rest. No call allocates, waits, or keeps a pointer.
 * What the caller does answer for is its pointers: each leads to as many bytes as its length says and isn't null, also where that is 0; no
 * two buffers overlap; a bool is 0 or 1.
 *
 * To build. The archive is for x86-64 today and for no other processor: ELF, position-independent, with the System V calling convention, SSE2
 * and the red zone. It needs at most memcpy, memset and memmove of its host. `tools/native library` proves and writes it; `make board` also runs
 * examples/ over it, built by the kit's own compiler without a C library. A program of your own, my_board.c with a main, is built in the
 * repository's folder by any compiler of C99 or C++11:
 *
 *     tools/native library
 *     cc -std=c99 -O2 -Wall -Iinclude -Wl,--gc-sections -o my_board my_board.c target/staticlib/libcorridor_tag.a
 *     ./my_board
 *
 * By --gc-sections only the calls that it makes are linked, with what they call: a logger that makes corridor_write_reading alone had 31 bytes of it, with
 * the kit that docs/COST.md is of.
 *
 * Interrupts. A call touches what it is given and nothing else, so calls on different images, records and buffers may run at once, in
 * interrupts or on several cores. Two calls that share one of these may not: where the bus can interrupt a frame on the same image, hold its
 * event back until corridor_frame has returned. corridor_screen only reads its image, and may not be interrupted by a call that changes it.
 * docs/COST.md has how long calls take.
 *
 * Stack. The deepest that was measured on x86-64, with the kit that docs/COST.md is of, is 456 bytes, the caller's frame among them.
 *
 * When to save the image and the data memory. Three kinds of frames, one event and the writer can change the image, so a copy in flash is behind
 * only after one of these. No frame changes the data memory; a stop changes one of the two, never both:
 *
 *     corridor_frame          on a record in CORRIDOR_ACTIVE, a frame that begins with
 *                               A2h (WRITE), answered by ACK: 4 bits, 0Ah
 *                               1Bh (PWD_AUTH), whatever is answered: the count of failed passwords
 *                               30h or 3Ah (READ, FAST_READ), where the record's `answered` went from 0 to 1: the counter
 *                             and on one in CORRIDOR_READY1 or CORRIDOR_READY2, READ of page 00h, where `answered` went from 0 to 1: some phones
 *                             send it before the second SELECT, and it is answered as in CORRIDOR_ACTIVE
 *     corridor_bus_event      CORRIDOR_STOP, on a record in CORRIDOR_WRITING whose `held` isn't 0: the image where its `counter` is
 *                               CORRIDOR_WINDOW or above, else the data memory, and of either no byte outside the 64 of that address's page
 *     corridor_write_reading  where bytes of the image or of the data memory are lent to it, and it gives CORRIDOR_TAKEN
 */
#ifndef CORRIDOR_TAG_H
#define CORRIDOR_TAG_H

#include <stdbool.h>
#include <stddef.h>
#include <stdint.h>

#ifdef __cplusplus
extern "C" {
#endif

/* ---- the image */

/*
 * N pages of four bytes, and a tail of four: byte k of page p is image[4 * p + k], and the length tells N, which is 45, 135 or 231.
 *
 *     what           N = 45   135      231      its four bytes
 *     UID            00h      00h      00h      UID 0 to 2, and BCC0, which is 88h ^ UID 0 ^ UID 1 ^ UID 2
 *                    01h      01h      01h      UID 3 to 6
 *     static locks   02h      02h      02h      BCC1, which is UID 3 ^ .. ^ UID 6; a byte that stays; lock bits in bytes 2 and 3
 *     capability     03h      03h      03h      the capability container, whose bits a WRITE sets and never clears
 *     user pages     04h-27h  04h-81h  04h-E1h  yours
 *     dynamic locks  28h      82h      E2h      lock bits in bytes 0 and 1, block bits in byte 2
 *     settings       29h      83h      E3h      byte 0: bits 7-6 the mirror, 0 for none, 1 UID, 2 counter, 3 both; bits 5-4 the byte in the
 *                                               page where it begins, and byte 2 that page; byte 3: AUTH0, the first page under password,
 *                                               FFh for none
 *                    2Ah      84h      E4h      byte 0: ACCESS, bit 7 PROT (reads too), 6 settings lock, 4 counter on, 3 counter under
 *                                               password, 2 to 0 AUTHLIM, so many wrong passwords or 0 for any number
 *     PWD            2Bh      85h      E5h      the password; reads as zeros
 *     PACK           2Ch      86h      E6h      bytes 0 and 1 answer the right password; reads as zeros
 *     tail           behind the last page       bytes 0 to 2: the counter, low first; byte 3: how many wrong passwords came
 *
 * The mirror is what READ and FAST_READ show in user pages in place of the stored bytes: the UID in hex, 14 characters, the counter, 6, its high
 * byte first, or both, 21, with an x between. There is none at all where it would begin below page 04h or pass the user pages, and with the
 * counter in it none where that is off, or is under password and the tag isn't authenticated. On pages that a reader may not read it isn't seen,
 * as nothing of them is. The image keeps the stored bytes, and the two wires and corridor_screen read those.
 *
 * Every image of one of the three lengths is served, whatever its bytes are. On the wires locks and password don't bind; image bytes 0 to 9 and
 * the tail can't be written there.
 */
#define CORRIDOR_IMAGE_45 184
#define CORRIDOR_IMAGE_135 544
#define CORRIDOR_IMAGE_231 928

/*
 * A factory-fresh image of 45 pages: nothing is locked, nothing is under password, the counter is off. day/factory.txt has the same for the
 * program `corridor`. A board has a UID of its own: image bytes 0 to 2 and 4 to 7, and with them BCC0 in byte 3 and BCC1 in byte 8.
 */
#define CORRIDOR_FACTORY_45                                                                                                                \
    {                                                                                                                                      \
        0x1D, 0xA2, 0x30, 0x07, 0x11, 0x09, 0x67, 0xEC, 0x93, 0x48, 0x00, 0x00, /* 00h to 02h: UID, static locks */                        \
        0xE1, 0x10, 0x12, 0x00,                                                 /* 03h: capability container */                            \
        0x01, 0x03, 0xA0, 0x0C, 0x34, 0x03, 0x00, 0xFE,                         /* 04h, 05h: lock control, an empty message */             \
        0, 0, 0, 0, 0, 0, 0, 0, 0, 0, 0, 0, 0, 0, 0, 0, 0, 0, 0, 0, 0, 0, 0, 0, 0, 0, 0, 0, 0, 0, 0, 0, /* 06h to 0Dh */                   \
        0, 0, 0, 0, 0, 0, 0, 0, 0, 0, 0, 0, 0, 0, 0, 0, 0, 0, 0, 0, 0, 0, 0, 0, 0, 0, 0, 0, 0, 0, 0, 0, /* 0Eh to 15h */                   \
        0, 0, 0, 0, 0, 0, 0, 0, 0, 0, 0, 0, 0, 0, 0, 0, 0, 0, 0, 0, 0, 0, 0, 0, 0, 0, 0, 0, 0, 0, 0, 0, /* 16h to 1Dh */                   \
        0, 0, 0, 0, 0, 0, 0, 0, 0, 0, 0, 0, 0, 0, 0, 0, 0, 0, 0, 0, 0, 0, 0, 0, 0, 0, 0, 0, 0, 0, 0, 0, /* 1Eh to 25h */                   \
        0, 0, 0, 0, 0, 0, 0, 0,                                                 /* 26h, 27h */                                             \
        0x00, 0x00, 0x00, 0xBD,                                                 /* 28h: dynamic locks */                                   \
        0x04, 0x00, 0x00, 0xFF, 0x00, 0x05, 0x00, 0x00,                         /* 29h, 2Ah: settings */                                   \
        0xFF, 0xFF, 0xFF, 0xFF, 0x00, 0x00, 0x00, 0x00,                         /* 2Bh, 2Ch: PWD, PACK */                                  \
        0x00, 0x00, 0x00, 0x00                                                  /* the tail */                                             \
    }

/* ---- sizes */

/* The smallest answer buffer, in bytes, and the longest frame, in bits. */
#define CORRIDOR_ANSWER_ROOM 1024
#define CORRIDOR_FRAME_BITS 512

/* The address of the image's first byte on the two wires. */
#define CORRIDOR_WINDOW 0x4000

/* The data memory on the two wires: the address of its first byte, and its bytes. */
#define CORRIDOR_MEMORY_ADDRESS 0x0000
#define CORRIDOR_MEMORY_BYTES 16384

/* How many bytes a logger writes for a reading, and where on the two wires: at page 04h. */
#define CORRIDOR_READING_BYTES 14
#define CORRIDOR_READING_ADDRESS 0x4010

/* ---- numbers */

/* Why a call was refused. */
enum {
    CORRIDOR_TAKEN = 0,               /* it was not */
    CORRIDOR_REFUSED_IMAGE = 1,       /* the image is not 184, 544 or 928 bytes long */
    CORRIDOR_REFUSED_BUFFER = 2,      /* the answer buffer has under 1,024 bytes */
    CORRIDOR_REFUSED_FRAME = 3,       /* no bits or over 512, bytes that are not the bits rounded up, or a set bit above the last */
    CORRIDOR_REFUSED_EVENT = 4,       /* an event that is not one of the five */
    CORRIDOR_REFUSED_MEMORY = 5,      /* the data memory is not 16,384 bytes long */
    CORRIDOR_REFUSED_NO_MESSAGE = 20, /* the user pages have no block of type 03h */
    CORRIDOR_REFUSED_PASSES = 21,     /* a block's length, or the bytes that it counts, passes the user pages */
    CORRIDOR_REFUSED_NO_READING = 22, /* the first block of type 03h is not a reading */
    CORRIDOR_REFUSED_AREA = 23        /* the area has under 14 bytes */
};

/* corridor_tag_record.state */
enum { CORRIDOR_IDLE = 0, CORRIDOR_HALT = 1, CORRIDOR_READY1 = 2, CORRIDOR_READY2 = 3, CORRIDOR_ACTIVE = 4 };

/* The events of the two wires. */
enum {
    CORRIDOR_START = 0,
    CORRIDOR_STOP = 1,
    CORRIDOR_BYTE_SENT = 2,     /* the byte is the one that was sent */
    CORRIDOR_BYTE_READ_ACK = 3, /* the reader acknowledges the byte */
    CORRIDOR_BYTE_READ_LAST = 4 /* the reader does not */
};

/* corridor_bus_answer.kind */
enum {
    CORRIDOR_NOTHING = 0,     /* start and stop, and a refused call */
    CORRIDOR_ACKNOWLEDGE = 1, /* value is 1 to pull the line for an acknowledge bit, or 0 */
    CORRIDOR_BYTE = 2         /* value is the byte to put on the line */
};

/* corridor_bus_record.phase */
enum {
    CORRIDOR_AT_REST = 0,
    CORRIDOR_AWAITS_DEVICE = 1,
    CORRIDOR_AWAITS_HIGH = 2,
    CORRIDOR_AWAITS_LOW = 3,
    CORRIDOR_WRITING = 4,
    CORRIDOR_READING = 5,
    CORRIDOR_DEAF = 6
};

/* corridor_screen_answer.verdict; 0 is none of them, and comes with a refusal */
enum {
    CORRIDOR_LIVE = 1, /* the reading is 0 to 900 seconds old */
    CORRIDOR_OLD = 2,  /* it is older */
    CORRIDOR_AHEAD = 3 /* it lies in the future */
};

/* ---- records */

/* What the radio side keeps between two calls. */
typedef struct {
    uint8_t state;         /* CORRIDOR_IDLE to CORRIDOR_ACTIVE */
    uint8_t wait;          /* the state to go back to: CORRIDOR_IDLE or CORRIDOR_HALT */
    uint8_t authenticated; /* 1 in ACTIVE after a right password, else 0 */
    uint8_t answered;      /* 1 after a READ or FAST_READ was answered in this field, else 0 */
} corridor_tag_record;

/* What a frame is answered by. */
typedef struct {
    uint8_t refused;          /* CORRIDOR_TAKEN, or why the call was refused */
    size_t bits;              /* so many bits are to be sent from the answer buffer's start, least significant first; 0 is silence */
    corridor_tag_record left; /* the record to keep */
} corridor_answer;

/* What the side of the two wires keeps between two events. */
typedef struct {
    uint8_t phase;     /* CORRIDOR_AT_REST to CORRIDOR_DEAF */
    uint8_t held;      /* the high address byte, until the low one comes; then how many data bytes came (127 is followed by 64) */
    uint16_t counter;  /* an address; while data bytes come, the address that was sent */
    uint8_t bytes[64]; /* the gathered bytes, each at its place of the 64-byte page */
} corridor_bus_record;

/* What an event is answered by. */
typedef struct {
    uint8_t refused; /* CORRIDOR_TAKEN, or why the call was refused */
    uint8_t kind;    /* CORRIDOR_NOTHING, CORRIDOR_ACKNOWLEDGE or CORRIDOR_BYTE */
    uint8_t value;
} corridor_bus_answer;

/* What a screen is to show. In a refused answer all but `refused` is 0. */
typedef struct {
    uint8_t refused; /* CORRIDOR_TAKEN, or why the call was refused */
    uint8_t verdict; /* CORRIDOR_LIVE, CORRIDOR_OLD or CORRIDOR_AHEAD */
    uint32_t watts;  /* of the reading, with each of the three */
    uint32_t second; /* of the reading, as the logger wrote it */
} corridor_screen_answer;

/* ---- radio */

/* The record to begin with: the field is off. */
corridor_tag_record corridor_field_off(void);

/* The field was lost. Gives the record to keep. The image stays as it is, and so do the two wires. Never refused. */
corridor_tag_record corridor_field_loss(corridor_tag_record tag);

/*
 * A frame of `bits` bits was heard. Its bits are packed least significant first into frame_length bytes, and what is left of the last byte
 * is zero. parity_good says whether every byte's parity was right.
 *
 * Parity bits are the front end's: it takes them off a frame and puts them into an answer, behind each eighth bit; four bits of ACK or NAK have
 * none. CRC_A is the tag's: a frame comes with its two check bytes, and an answer has them where one is due. When an answer is due is the front
 * end's too.
 *
 * Puts the answer at the start of `answer`, and does to the image what the frame asks for: when the call returns, it is done. Bytes of
 * `answer` behind the answer keep their contents. A refused call (1, 2 or 3) changes neither image nor answer, and gives the record that it
 * was given.
 */
corridor_answer corridor_frame(uint8_t *image, size_t image_length, uint8_t *answer, size_t answer_length, corridor_tag_record tag,
                               const uint8_t *frame, size_t frame_length, size_t bits, bool parity_good);

/* ---- two wires */

/* The record to begin with: the bus is at rest. */
corridor_bus_record corridor_bus_at_rest(void);

/*
 * An event was seen on the two wires. `byte` is the byte sent, and any number for the other events. Updates the record where it is, and at a
 * stop after data bytes also the image or the data memory. A refused call (1, then 5, then 4) changes none of the three. All 16,384 bytes of the
 * data memory are to be lent to every call, also by a board whose logger keeps nothing there: a shorter or a longer one is refused whatever the
 * event is, on the image too.
 *
 * The wires have two regions of addresses, with the same rules:
 *
 *     0000h-3FFFh             the data memory, 16,384 bytes as the logger likes: every byte is stored as it comes and read as it is stored
 *     4000h-4000h+4N-1        the image's N pages: bytes 0 to 9 are not stored, and PWD and PACK read as zeros
 *
 * An address in either is acknowledged. Data bytes stay in the 64-byte page of the address sent: behind its last byte comes its first. Reads go
 * on to the end of their region, and then at its first byte: 3FFFh is followed by 0000h. A counter in neither region counts as 4000h.
 *
 * Hand over every event, whomever it is for. A byte for another device isn't acknowledged, and a read when the tag isn't addressed gives FFh:
 * all ones, so the line is to be let go, as for an acknowledge bit of 0.
 */
corridor_bus_answer corridor_bus_event(corridor_bus_record *bus, uint8_t *image, size_t image_length, uint8_t *memory, size_t memory_length,
                                       uint8_t event, uint8_t byte);

/* ---- the screen */

/*
 * What a screen is to show of the image's reading at the present second. The image is only looked at, and nothing is kept from call to call.
 *
 * A reading is a message block of eleven bytes. A logger writes these 14 bytes (corridor_write_reading makes them) at page 04h, which is
 * 4010h on the two wires; they lie within one 64-byte page, so that one stop stores them all:
 *
 *     03           the type of the block: a message
 *     0B           its length: eleven bytes follow
 *     D5 00 08     by which a reading is known
 *     s0 s1 s2 s3  the second of the reading, low byte first
 *     w0 w1 w2 w3  the watts, low byte first
 *     FE           the end of the blocks
 *
 * It is looked for block by block, from page 04h to the last user page (27h, 81h or E1h), in the bytes as they are stored, whatever is locked or
 * under password. A type of 00h is a block of one byte. FEh ends the blocks. Any other type is followed by a length, one byte, or FFh and two
 * bytes, high byte first, and by as many bytes. The first block of type 03h is taken: it must hold exactly the eleven bytes from D5 on, and what
 * stands behind it is not looked at. Refused: 1, an image of another length, which is tested first; 20, FEh or the end of the user pages came
 * before any block of type 03h; 21, a length, or the bytes that it counts, passes the last user page, in that block or before it; 22, that
 * block holds anything else. A factory-fresh image has an empty message, and is refused with 22.
 *
 * `present` and the second of the reading are any count of seconds that the board shares with its logger, as those since 1970. They are
 * compared as they stand, and nothing wraps: a reading is live at its own second and up to 900 seconds later, old from then on, and ahead
 * before its second, by however little, as where two clocks differ. Where a count begins anew, as at midnight, the last reading before that is
 * ahead.
 *
 * When to call: after what changes the image (see the head of this file), and as time passes, since a reading grows old without any
 * event. Look at `refused` first; a firmware that forgets to shows no verdict, and neither watts nor second. Who can write the user pages can write
 * a reading. On the radio a lock or the password keeps others from them, and binds no logger on the wires.
 */
corridor_screen_answer corridor_screen(const uint8_t *image, size_t image_length, uint32_t present);

/* ---- the logger */

/*
 * Writes a reading of this second and these watts into an area of user pages: the 14 bytes of the table above, at the area's start. The rest of the
 * area stays as it is. Gives CORRIDOR_TAKEN; or CORRIDOR_REFUSED_AREA, 23, for an area of under 14 bytes, and then nothing is written.
 *
 * A logger needs no more of an area than the 14 bytes that it sends over the two wires:
 *
 *     uint8_t reading[CORRIDOR_READING_BYTES];
 *     corridor_write_reading(reading, sizeof reading, second, watts);
 *     start, A0h, 40h, 10h, the bytes of `reading`, stop
 *
 * A board that makes readings itself may lend the user pages of its image, image + 16 and the bytes up to the dynamic locks. Either way the board's
 * screen then reads the same second and the same watts, whatever the image held before: live, old or ahead by the reading's age alone. Two
 * readings have the same bytes only if they have the same second and the same watts.
 *
 * While the call runs the area has neither the old bytes nor the new ones whole: a call that reads it waits until this one has returned.
 */
uint8_t corridor_write_reading(uint8_t *area, size_t area_length, uint32_t second, uint32_t watts);

/* ---- what there is to know of an image */

/* How many pages an image of so many bytes has: 45, 135 or 231; 0 where it is no image. */
size_t corridor_pages(size_t image_length);

/* CORRIDOR_ANSWER_ROOM, as the library that is linked has it. */
size_t corridor_answer_room(void);

#ifdef __cplusplus
}
#endif

#endif
