/*
 * A plain tag, for the benchmark. Sentences in quotation marks are those of document 01, which decides what the tag does, and of 02, which amends it.
 *
 * `pages` is N everywhere: 45, 135 or 231. The last five pages have the same order in all three sizes, so they are counted from the end.
 * Functions of the radio side return the bit count of the answer that they put into `answer`; 0 is silence.
 */
#include "plain.h"

void *memcpy(void *restrict to, const void *restrict from, size_t count);
void *memset(void *to, int value, size_t count);
int memcmp(const void *one, const void *other, size_t count);

/* ---- the image */

#define LOCK_PAGE(pages) ((pages) - 5)
#define SETTINGS_1(pages) ((pages) - 4)
#define SETTINGS_2(pages) ((pages) - 3)
#define PWD_PAGE(pages) ((pages) - 2)
#define PACK_PAGE(pages) ((pages) - 1)

/* "First settings page: byte 3 is AUTH0. Second, byte 0 is ACCESS" */
#define AUTH0(image, pages) ((image)[4 * SETTINGS_1(pages) + 3])
#define ACCESS(image, pages) ((image)[4 * SETTINGS_2(pages)])
enum { PROT = 0x80, SETTINGS_LOCK = 0x40, COUNTER_ON = 0x10, COUNTER_UNDER_PASSWORD = 0x08, AUTHLIM = 0x07 };

/* The tail: "counter (3 bytes, low first) and failed-password count" */
#define COUNTER(image, pages) ((image) + 4 * (pages))
#define FAILED(image, pages) ((image) + 4 * (pages) + 3)

/* 0 where it is no image. */
static unsigned pages_of(size_t image_length)
{
    switch (image_length) {
    case CORRIDOR_IMAGE_45: return 45;
    case CORRIDOR_IMAGE_135: return 135;
    case CORRIDOR_IMAGE_231: return 231;
    default: return 0;
    }
}

static unsigned two_bytes(const uint8_t *low_first)
{
    return low_first[0] | (unsigned)low_first[1] << 8;
}

/* ---- CRC_A: "polynomial x^16+x^12+x^5+1, reflected, start 6363h, low byte first" */

/* Sixteen shifts of the register at once, and thirty-two. */
static unsigned sixteen_shifts(unsigned x)
{
    x ^= x << 8;
    const unsigned out = (x ^ x << 4 ^ x << 11) & 0xFFFF;
    return out ^ out >> 5 ^ out >> 12;
}

static unsigned thirty_two_shifts(uint32_t x)
{
    x ^= x << 16;
    x ^= x << 8 ^ x << 22;
    const uint32_t out = x ^ x << 4 ^ x << 11 ^ x << 16;
    return (out >> 16 ^ out >> 21 ^ out >> 28) & 0xFFFF;
}

unsigned plain_crc_a(const uint8_t *data, size_t length)
{
    unsigned crc = 0x6363;
    for (; length >= 4; length -= 4, data += 4)
        crc = thirty_two_shifts(crc ^ two_bytes(data) ^ (uint32_t)two_bytes(data + 2) << 16);
    if (length >= 2) {
        crc = sixteen_shifts(crc ^ two_bytes(data));
        data += 2;
    }
    if (length % 2 == 1) {
        crc ^= *data;
        crc = crc >> 8 ^ sixteen_shifts(crc << 8 & 0xFFFF);
    }
    return crc;
}

/* Whether the last two bytes are the CRC_A of those before them. */
static bool crc_good(const uint8_t *frame, size_t length)
{
    return plain_crc_a(frame, length - 2) == two_bytes(frame + length - 2);
}

/* Puts the CRC_A behind an answer of so many bytes. */
static size_t with_crc(uint8_t *answer, size_t length)
{
    const unsigned crc = plain_crc_a(answer, length);
    answer[length] = (uint8_t)crc;
    answer[length + 1] = (uint8_t)(crc >> 8);
    return 8 * (length + 2);
}

/* ---- radio: the record */

corridor_tag_record plain_field_off(void)
{
    const corridor_tag_record off = {CORRIDOR_IDLE, CORRIDOR_IDLE, 0, 0};
    return off;
}

corridor_tag_record plain_field_loss(corridor_tag_record held)
{
    (void)held; /* "Field loss gives IDLE, not authenticated, no read answered in this field" */
    return plain_field_off();
}

/* "a tag record with no meaning here counts as after field loss". Clears what the state has no use for. */
static corridor_tag_record with_meaning(corridor_tag_record held)
{
    if (held.state > CORRIDOR_ACTIVE || held.wait > CORRIDOR_HALT || held.authenticated > 1 || held.answered > 1)
        return plain_field_off();
    if (held.state != CORRIDOR_ACTIVE)
        held.authenticated = 0;
    if (held.state == CORRIDOR_IDLE || held.state == CORRIDOR_HALT)
        held.wait = CORRIDOR_IDLE;
    return held;
}

/* To IDLE or HALT, silent. "Leaving ACTIVE ends authentication." */
static size_t leave_for(corridor_tag_record *tag, uint8_t state)
{
    tag->state = state;
    tag->wait = CORRIDOR_IDLE;
    tag->authenticated = 0;
    return 0;
}

/* "Every NAK goes to the wait state." */
static size_t nak(corridor_tag_record *tag, uint8_t *answer, uint8_t number)
{
    leave_for(tag, tag->wait);
    answer[0] = number;
    return 4;
}

/* ---- radio: IDLE, HALT, READY1 and READY2 */

/* "IDLE: REQA (7 bits, 26h) or WUPA (7 bits, 52h) [..] HALT: WUPA only. Other frames: silence, state kept." */
static size_t in_idle_or_halt(corridor_tag_record *tag, const uint8_t *frame, size_t bits, uint8_t *answer)
{
    if (bits != 7 || !(frame[0] == 0x52 || (frame[0] == 0x26 && tag->state == CORRIDOR_IDLE)))
        return 0;
    tag->wait = tag->state; /* "HALT if the tag was woken from HALT, else IDLE" */
    tag->state = CORRIDOR_READY1;
    answer[0] = 0x44;
    answer[1] = 0x00;
    return 16;
}

/* "Second byte 70h: five right bytes and CRC answer 04h (to READY2) or 00h (to ACTIVE), each with CRC." */
static size_t selection(corridor_tag_record *tag, const uint8_t *five, const uint8_t *frame, size_t bits, uint8_t *answer)
{
    if (bits != 72 || memcmp(frame + 2, five, 5) != 0 || !crc_good(frame, 9))
        return leave_for(tag, tag->wait);
    answer[0] = tag->state == CORRIDOR_READY1 ? 0x04 : 0x00;
    tag->state = tag->state == CORRIDOR_READY1 ? CORRIDOR_READY2 : CORRIDOR_ACTIVE;
    return with_crc(answer, 1);
}

/* "the frame must be 16+n bits, its last n the first n of the forty. The answer is the other 40-n, without CRC." */
static size_t anticollision(corridor_tag_record *tag, const uint8_t *five, const uint8_t *frame, size_t bits, uint8_t *answer)
{
    const unsigned whole = (frame[1] >> 4) - 2u; /* n is so many whole bytes */
    const unsigned part = frame[1] & 0x0F;       /* and so many bits */
    if (whole > 4 || part > 7 || bits != 16 + 8 * whole + part)
        return leave_for(tag, tag->wait);
    for (unsigned i = 0; i < whole; i++)
        if (frame[2 + i] != five[i])
            return leave_for(tag, tag->wait);
    /* No bit above the frame's last is set, so its last byte can be compared as a whole. */
    if (part != 0 && frame[2 + whole] != (five[whole] & ((1u << part) - 1)))
        return leave_for(tag, tag->wait);
    for (unsigned i = whole; i < 5; i++)
        answer[i - whole] = (uint8_t)(two_bytes(five + i) >> part);
    return 40 - 8 * whole - part;
}

/* "A whole READ frame for address 00h with good parity and CRC": in READY1 and READY2 it "is to be answered as ACTIVE would answer it". */
static bool reads_zero(const uint8_t *frame, size_t bits, bool parity_good)
{
    return bits == 32 && parity_good && frame[0] == 0x30 && frame[1] == 0x00 && crc_good(frame, 4);
}

/* "Anything else, bad parity and a non-match among them: silence, wait state." */
static size_t in_ready(const uint8_t *image, corridor_tag_record *tag, const uint8_t *frame, size_t bits, bool parity_good,
                       uint8_t *answer)
{
    const bool first = tag->state == CORRIDOR_READY1;
    uint8_t five[6]; /* with a computed BCC, and a zero behind them to shift in */
    if (!parity_good || bits < 16 || frame[0] != (first ? 0x93 : 0x95))
        return leave_for(tag, tag->wait);
    if (first) {
        five[0] = 0x88;
        memcpy(five + 1, image, 3);
    } else {
        memcpy(five, image + 4, 4);
    }
    five[4] = five[0] ^ five[1] ^ five[2] ^ five[3];
    five[5] = 0;
    return frame[1] == 0x70 ? selection(tag, five, frame, bits, answer) : anticollision(tag, five, frame, bits, answer);
}

/* ---- ACTIVE: reading */

/* B: "AUTH0 if PROT is set, the tag isn't authenticated and AUTH0 < N; else N" */
static unsigned border(const uint8_t *image, unsigned pages, const corridor_tag_record *tag)
{
    const unsigned auth0 = AUTH0(image, pages);
    return (ACCESS(image, pages) & PROT) && !tag->authenticated && auth0 < pages ? auth0 : pages;
}

/* So many pages in a row. "PWD and PACK pages always read as zeros." */
static void copy_pages(const uint8_t *image, unsigned pages, unsigned first, unsigned count, uint8_t *to)
{
    const unsigned end = first + count;
    memcpy(to, image + 4 * first, 4 * count);
    if (end > PWD_PAGE(pages)) {
        const unsigned zeros = first > PWD_PAGE(pages) ? first : PWD_PAGE(pages);
        memset(to + 4 * (zeros - first), 0, 4 * (end - zeros));
    }
}

/* "The first READ or FAST_READ answered with data since field loss adds 1 to the counter if it is on; at FFFFFFh it stays." */
static void count_read(uint8_t *image, unsigned pages, corridor_tag_record *tag)
{
    uint8_t *counter = COUNTER(image, pages);
    if (tag->answered)
        return;
    tag->answered = 1; /* "Later ones don't count, even if the first found it off." */
    if (!(ACCESS(image, pages) & COUNTER_ON) || (counter[0] & counter[1] & counter[2]) == 0xFF)
        return;
    if (++counter[0] == 0 && ++counter[1] == 0)
        ++counter[2];
}

/* Whether the counter is on, and not under password for this reader. */
static bool counter_readable(const uint8_t *image, unsigned pages, const corridor_tag_record *tag)
{
    const unsigned access = ACCESS(image, pages);
    return (access & COUNTER_ON) && (!(access & COUNTER_UNDER_PASSWORD) || tag->authenticated);
}

/* Character i of the mirror's text: UID, 78h, counter, in "upper-case hex, counter high byte first". */
static uint8_t character(const uint8_t *image, unsigned pages, unsigned i)
{
    unsigned byte, digit;
    if (i == 14)
        return 0x78;
    if (i < 14) {
        byte = image[i < 6 ? i / 2 : i / 2 + 1]; /* image byte 3 isn't of the UID */
    } else {
        i -= 15;
        byte = COUNTER(image, pages)[2 - i / 2];
    }
    digit = i % 2 == 0 ? byte >> 4 : byte & 0x0F;
    return (uint8_t)(digit + (digit < 10 ? '0' : 'A' - 10));
}

/* Puts the mirror's characters over so many answered pages, which go round at `end`. "A page below 04h, or any character past the user pages,
 * means no mirror at all. So does a mirror with the counter in it when the counter is off, or is under password and the tag isn't authenticated." */
static void mirror(const uint8_t *image, unsigned pages, const corridor_tag_record *tag, unsigned page, unsigned end, unsigned count, uint8_t *answer)
{
    static const uint8_t lengths[4] = {0, 14, 6, 21}; /* "none, UID (14 characters), counter (6) or both (21, with 78h between)" */
    const uint8_t *settings = image + 4 * SETTINGS_1(pages);
    const unsigned mode = settings[0] >> 6, length = lengths[mode];
    const unsigned start = 4u * settings[2] + (settings[0] >> 4 & 3), from = mode == 2 ? 15 : 0;
    if (mode == 0 || settings[2] < 4 || start + length > 4 * LOCK_PAGE(pages) || (mode > 1 && !counter_readable(image, pages, tag)))
        return;
    for (; count > 0; count--) {
        for (unsigned place = 4 * page; place < 4 * page + 4; place++, answer++)
            if (place >= start && place < start + length)
                *answer = character(image, pages, from + place - start);
        page = page + 1 == end ? 0 : page + 1;
    }
}

/* "NAK 0h unless a < B. Four pages (a+i) mod B, i from 0 to 3." */
static size_t do_read(uint8_t *image, unsigned pages, corridor_tag_record *tag, unsigned page, uint8_t *answer)
{
    const unsigned end = border(image, pages, tag);
    if (page >= end)
        return nak(tag, answer, 0x0);
    if (page + 4 <= end) {
        copy_pages(image, pages, page, 4, answer);
    } else {
        for (unsigned i = 0, next = page; i < 4; i++) {
            copy_pages(image, pages, next, 1, answer + 4 * i);
            next = next + 1 == end ? 0 : next + 1;
        }
    }
    count_read(image, pages, tag);
    mirror(image, pages, tag, page, end, 4, answer);
    return with_crc(answer, 16);
}

/* "NAK 0h unless s <= e < B. Pages s to e." */
static size_t do_fast_read(uint8_t *image, unsigned pages, corridor_tag_record *tag, unsigned start, unsigned end, uint8_t *answer)
{
    if (start > end || end >= border(image, pages, tag))
        return nak(tag, answer, 0x0);
    copy_pages(image, pages, start, end - start + 1, answer);
    count_read(image, pages, tag);
    mirror(image, pages, tag, start, pages, end - start + 1, answer);
    return with_crc(answer, 4 * (size_t)(end - start + 1));
}

/* ---- ACTIVE: writing */

/* Whether "a is a locked page 3 or user page, or a settings page with the settings lock set" */
static bool locked(const uint8_t *image, unsigned pages, unsigned page)
{
    if (page == 2)
        return false;
    if (page < 16) /* bits 3-15 of image bytes 10 and 11 lock the pages of their numbers */
        return two_bytes(image + 10) >> page & 1;
    if (page < LOCK_PAGE(pages)) { /* "N=45: twelve bits, two pages each"; the other sizes sixteen */
        const unsigned bit = pages == 45 ? (page - 16) / 2 : (page - 16) / 16;
        return two_bytes(image + 4 * LOCK_PAGE(pages)) >> bit & 1;
    }
    return (page == SETTINGS_1(pages) || page == SETTINGS_2(pages)) && (ACCESS(image, pages) & SETTINGS_LOCK);
}

/* "Page 2 keeps bytes 0-1 and sets the bits of d2, d3 in its locks"; "A lock bit whose block bit was set before the write isn't set." */
static void write_static_locks(uint8_t *page, const uint8_t *data)
{
    const unsigned blocks = page[2];
    const unsigned blocked = (blocks & 1 ? 0x0008u : 0)    /* "the lock of page 3" */
                             | (blocks & 2 ? 0x03F0u : 0)  /* "the locks of pages 4-9" */
                             | (blocks & 4 ? 0xFC00u : 0); /* "those of 10-15" */
    page[2] |= (uint8_t)(data[2] & ~blocked);
    page[3] |= (uint8_t)(data[3] & ~(blocked >> 8));
}

/* "the lock page gains only its defined bits"; byte 2: "bit k blocks lock bits 2k and 2k+1, so six, four and seven of them" */
static void write_dynamic_locks(uint8_t *page, unsigned pages, const uint8_t *data)
{
    const unsigned block_bits = pages == 45 ? 6 : pages == 135 ? 4 : 7;
    unsigned settable = (1u << 2 * block_bits) - 1;
    for (unsigned k = 0; k < block_bits; k++)
        if (page[2] >> k & 1)
            settable &= ~(3u << 2 * k);
    page[0] |= (uint8_t)(data[0] & settable);
    page[1] |= (uint8_t)(data[1] & settable >> 8);
    page[2] |= (uint8_t)(data[2] & ((1u << block_bits) - 1));
}

static size_t do_write(uint8_t *image, unsigned pages, corridor_tag_record *tag, unsigned page, const uint8_t *data, uint8_t *answer)
{
    uint8_t *at;
    if (page < 2 || page >= pages)
        return nak(tag, answer, 0x0);
    /* "under password when its number is at least AUTH0 and the tag isn't authenticated": PROT isn't asked */
    if ((page >= AUTH0(image, pages) && !tag->authenticated) || locked(image, pages, page))
        return nak(tag, answer, 0x0);

    at = image + 4 * page;
    if (page == 2) {
        write_static_locks(at, data);
    } else if (page == 3) { /* "page 3 gains the set bits" */
        for (unsigned i = 0; i < 4; i++)
            at[i] |= data[i];
    } else if (page == LOCK_PAGE(pages)) {
        write_dynamic_locks(at, pages, data);
    } else { /* "Other pages are replaced." */
        memcpy(at, data, 4);
    }
    answer[0] = 0xA; /* ACK */
    return 4;
}

/* ---- ACTIVE: the other commands */

static size_t do_get_version(unsigned pages, uint8_t *answer)
{
    static const uint8_t version[8] = {0x00, 0x1D, 0x04, 0x01, 0x01, 0x00, 0x0F, 0x03};
    memcpy(answer, version, 8);
    answer[6] = pages == 45 ? 0x0F : pages == 135 ? 0x11 : 0x13;
    return with_crc(answer, 8);
}

/* "NAK 0h if off, if under password and not authenticated, or if the second byte isn't 02h" */
static size_t do_read_cnt(const uint8_t *image, unsigned pages, corridor_tag_record *tag, uint8_t second, uint8_t *answer)
{
    if (second != 0x02 || !counter_readable(image, pages, tag))
        return nak(tag, answer, 0x0);
    memcpy(answer, COUNTER(image, pages), 3);
    return with_crc(answer, 3);
}

/* "NAK 0h if AUTHLIM isn't 0 and the failed count is at least AUTHLIM." */
static size_t do_pwd_auth(uint8_t *image, unsigned pages, corridor_tag_record *tag, const uint8_t *password, uint8_t *answer)
{
    const unsigned limit = ACCESS(image, pages) & AUTHLIM;
    uint8_t *failed = FAILED(image, pages);
    if (limit != 0 && *failed >= limit)
        return nak(tag, answer, 0x0);
    if (memcmp(password, image + 4 * PWD_PAGE(pages), 4) != 0) {
        if (limit != 0)
            ++*failed;
        return nak(tag, answer, 0x0);
    }
    *failed = 0;
    tag->authenticated = 1;
    memcpy(answer, image + 4 * PACK_PAGE(pages), 2);
    return with_crc(answer, 2);
}

/* "ACTIVE, in order" */
static size_t in_active(uint8_t *image, unsigned pages, corridor_tag_record *tag, const uint8_t *frame, size_t bits, bool parity_good,
                        uint8_t *answer)
{
    const size_t length = bits / 8; /* with the CRC */
    if (bits % 8 != 0 || length < 3)
        return leave_for(tag, tag->wait);
    if (!parity_good || !crc_good(frame, length))
        return nak(tag, answer, 0x1);

    switch (frame[0]) {
    case 0x30: if (length != 4) break; return do_read(image, pages, tag, frame[1], answer);
    case 0x3A: if (length != 5) break; return do_fast_read(image, pages, tag, frame[1], frame[2], answer);
    case 0xA2: if (length != 8) break; return do_write(image, pages, tag, frame[1], frame + 2, answer);
    case 0x60: if (length != 3) break; return do_get_version(pages, answer);
    case 0x39: if (length != 4) break; return do_read_cnt(image, pages, tag, frame[1], answer);
    case 0x1B: if (length != 7) break; return do_pwd_auth(image, pages, tag, frame + 1, answer);
    case 0x50: if (length != 4 || frame[1] != 0x00) break; return leave_for(tag, CORRIDOR_HALT);
    default: break;
    }
    return nak(tag, answer, 0x0); /* "Unknown code or wrong length: NAK 0h." */
}

/* ---- radio: the call */

/* "bit count 0 or over 512, byte count not the bits rounded up, or a set bit above the last" */
static bool frame_malformed(const uint8_t *frame, size_t length, size_t bits)
{
    if (bits == 0 || bits > CORRIDOR_FRAME_BITS || length != (bits + 7) / 8)
        return true;
    return bits % 8 != 0 && frame[length - 1] >> bits % 8 != 0;
}

corridor_answer plain_frame(uint8_t *image, size_t image_length, uint8_t *answer, size_t answer_length, corridor_tag_record held,
                            const uint8_t *frame, size_t frame_length, size_t bits, bool parity_good)
{
    corridor_answer given = {CORRIDOR_TAKEN, 0, held};
    const unsigned pages = pages_of(image_length);
    if (pages == 0)
        given.refused = CORRIDOR_REFUSED_IMAGE;
    else if (answer_length < CORRIDOR_ANSWER_ROOM)
        given.refused = CORRIDOR_REFUSED_BUFFER;
    else if (frame_malformed(frame, frame_length, bits))
        given.refused = CORRIDOR_REFUSED_FRAME;
    if (given.refused != CORRIDOR_TAKEN)
        return given;

    given.left = with_meaning(held);
    switch (given.left.state) {
    case CORRIDOR_READY1:
    case CORRIDOR_READY2:
        if (!reads_zero(frame, bits, parity_good)) {
            given.bits = in_ready(image, &given.left, frame, bits, parity_good, answer);
            break;
        }
        given.left.state = CORRIDOR_ACTIVE;
        /* fall through */
    case CORRIDOR_ACTIVE:
        given.bits = in_active(image, pages, &given.left, frame, bits, parity_good, answer);
        break;
    default: /* "a parity flag, ignored in IDLE and HALT" */
        given.bits = in_idle_or_halt(&given.left, frame, bits, answer);
        break;
    }
    return given;
}

/* ---- two wires */

/* Writes a whole record, with nothing gathered. */
static void bus_becomes(corridor_bus_record *bus, uint8_t phase, uint16_t counter)
{
    memset(bus, 0, sizeof *bus);
    bus->phase = phase;
    bus->counter = counter;
}

corridor_bus_record plain_bus_at_rest(void)
{
    corridor_bus_record bus;
    bus_becomes(&bus, CORRIDOR_AT_REST, CORRIDOR_WINDOW);
    return bus;
}

/* "Stop stores the gathered bytes [..] except image bytes 0-9 and places past the window"; of the data memory "none of its bytes is kept back" */
static void store_gathered(const corridor_bus_record *bus, uint8_t *bytes, unsigned first, unsigned length, unsigned kept)
{
    const unsigned base = (bus->counter & ~63u) - first;
    for (unsigned k = 0; k < bus->held && k < 64; k++) {
        const unsigned place = (bus->counter + k) & 63;
        if (base + place >= kept && base + place < length)
            bytes[base + place] = bus->bytes[place];
    }
}

/* "if any were gathered, the counter becomes the place after the last data byte, rolled within its page. The bus is then at rest." */
static void bus_stop(corridor_bus_record *bus, uint8_t *image, unsigned pages, uint8_t *memory)
{
    unsigned counter = bus->counter;
    if (bus->phase == CORRIDOR_WRITING && bus->held > 0) {
        if (counter < CORRIDOR_WINDOW)
            store_gathered(bus, memory, CORRIDOR_MEMORY_ADDRESS, CORRIDOR_MEMORY_BYTES, 0);
        else
            store_gathered(bus, image, CORRIDOR_WINDOW, 4 * pages, 10);
        counter = (counter & ~63u) | ((counter + bus->held) & 63);
    }
    bus_becomes(bus, CORRIDOR_AT_REST, (uint16_t)counter);
}

/* "low acknowledged exactly if the address is in the window, setting the counter, else deaf with the counter kept"; now "in either region", which
   are one behind the other */
static bool low_address_sent(corridor_bus_record *bus, unsigned pages, uint8_t low)
{
    const unsigned address = (unsigned)bus->held << 8 | low;
    if (address >= CORRIDOR_WINDOW + 4 * pages) {
        bus_becomes(bus, CORRIDOR_DEAF, bus->counter);
        return false;
    }
    bus_becomes(bus, CORRIDOR_WRITING, (uint16_t)address);
    return true;
}

/* "only the low six address bits advance, rolling over within the 64-byte page" */
static void data_byte_sent(corridor_bus_record *bus, uint8_t byte)
{
    bus->bytes[(bus->counter + bus->held) & 63] = byte;
    bus->held = bus->held < 64 ? bus->held + 1 : 64 + ((bus->held + 1) & 63);
}

/* Gives whether the byte is acknowledged. */
static bool byte_sent(corridor_bus_record *bus, unsigned pages, uint8_t byte)
{
    switch (bus->phase) {
    case CORRIDOR_AWAITS_DEVICE:
        bus_becomes(bus, byte == 0xA0 ? CORRIDOR_AWAITS_HIGH : byte == 0xA1 ? CORRIDOR_READING : CORRIDOR_DEAF, bus->counter);
        return byte == 0xA0 || byte == 0xA1;
    case CORRIDOR_AWAITS_HIGH:
        bus_becomes(bus, CORRIDOR_AWAITS_LOW, bus->counter);
        bus->held = byte;
        return true;
    case CORRIDOR_AWAITS_LOW:
        return low_address_sent(bus, pages, byte);
    case CORRIDOR_WRITING:
        data_byte_sent(bus, byte);
        return true;
    case CORRIDOR_READING: /* "in a read makes the tag deaf" */
        bus_becomes(bus, CORRIDOR_DEAF, bus->counter);
        return false;
    default: /* at rest, deaf, or a record with no meaning */
        return false;
    }
}

/* "each read gives the counter's byte and advances, last to first"; "A counter in neither region still counts as 4000h." */
static uint8_t byte_read(corridor_bus_record *bus, const uint8_t *image, unsigned pages, const uint8_t *memory, bool acknowledged)
{
    const uint8_t phase = acknowledged ? CORRIDOR_READING : CORRIDOR_DEAF;
    unsigned offset = bus->counter, next;
    if (bus->phase != CORRIDOR_READING)
        return 0xFF; /* "A read at any other time gives FFh and changes nothing" */
    if (offset < CORRIDOR_WINDOW) {
        next = offset + 1 == CORRIDOR_MEMORY_BYTES ? 0 : offset + 1;
        bus_becomes(bus, phase, (uint16_t)next);
        return memory[offset];
    }
    offset -= CORRIDOR_WINDOW;
    if (offset >= 4 * pages)
        offset = 0;
    next = offset + 1 == 4 * pages ? 0 : offset + 1;
    bus_becomes(bus, phase, (uint16_t)(CORRIDOR_WINDOW + next));
    return offset < 4 * PWD_PAGE(pages) ? image[offset] : 0; /* "The PWD and PACK pages read as zeros." */
}

corridor_bus_answer plain_bus_event(corridor_bus_record *held, uint8_t *image, size_t image_length, uint8_t *memory, size_t memory_length,
                                    uint8_t event, uint8_t byte)
{
    corridor_bus_answer given = {CORRIDOR_TAKEN, CORRIDOR_NOTHING, 0};
    const unsigned pages = pages_of(image_length);
    if (pages == 0) {
        given.refused = CORRIDOR_REFUSED_IMAGE;
        return given;
    }
    if (memory_length != CORRIDOR_MEMORY_BYTES) {
        given.refused = CORRIDOR_REFUSED_MEMORY;
        return given;
    }
    switch (event) {
    case CORRIDOR_START: /* "drop an unfinished write, the counter staying at the address sent" */
        bus_becomes(held, CORRIDOR_AWAITS_DEVICE, held->counter);
        break;
    case CORRIDOR_STOP:
        bus_stop(held, image, pages, memory);
        break;
    case CORRIDOR_BYTE_SENT:
        given.kind = CORRIDOR_ACKNOWLEDGE;
        given.value = byte_sent(held, pages, byte);
        break;
    case CORRIDOR_BYTE_READ_ACK:
    case CORRIDOR_BYTE_READ_LAST:
        given.kind = CORRIDOR_BYTE;
        given.value = byte_read(held, image, pages, memory, event == CORRIDOR_BYTE_READ_ACK);
        break;
    default:
        given.refused = CORRIDOR_REFUSED_EVENT;
        break;
    }
    return given;
}
