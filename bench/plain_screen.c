/* A plain screen, for the benchmark. Sentences in quotation marks are those of request Q-6 of document 02, which decides what it says. */
#include "plain.h"

enum { NULL_BLOCK = 0x00, MESSAGE = 0x03, TERMINATOR = 0xFE, READING_BYTES = 11, LIVE_FOR = 900 };

static uint32_t four_bytes(const uint8_t *low_first)
{
    return low_first[0] | (uint32_t)low_first[1] << 8 | (uint32_t)low_first[2] << 16 | (uint32_t)low_first[3] << 24;
}

static corridor_screen_answer refusal(uint8_t number)
{
    return (corridor_screen_answer){number, 0, 0, 0};
}

/* "exactly D5 00 08 and eight bytes: seconds, then watts" */
static corridor_screen_answer message_seen(const uint8_t *message, size_t length, uint32_t present)
{
    corridor_screen_answer seen = {CORRIDOR_TAKEN, 0, 0, 0};
    if (length != READING_BYTES || message[0] != 0xD5 || message[1] != 0x00 || message[2] != 0x08)
        return refusal(CORRIDOR_REFUSED_NO_READING);
    seen.second = four_bytes(message + 3);
    seen.watts = four_bytes(message + 7);
    /* "live if the reading is 0 to 900 seconds old, old if more, ahead if it lies in the future" */
    seen.verdict = seen.second > present ? CORRIDOR_AHEAD : present - seen.second <= LIVE_FOR ? CORRIDOR_LIVE : CORRIDOR_OLD;
    return seen;
}

corridor_screen_answer plain_screen(const uint8_t *image, size_t image_length, uint32_t present)
{
    size_t at = 16, end;
    if (image_length != CORRIDOR_IMAGE_45 && image_length != CORRIDOR_IMAGE_135 && image_length != CORRIDOR_IMAGE_231)
        return refusal(CORRIDOR_REFUSED_IMAGE);
    end = image_length - 24; /* "from page 04h through the user pages": five pages and the tail are behind them */
    while (at < end) {
        const uint8_t type = image[at++];
        size_t length;
        if (type == TERMINATOR)
            break;
        if (type == NULL_BLOCK)
            continue;
        if (at == end)
            return refusal(CORRIDOR_REFUSED_PASSES);
        length = image[at++];
        if (length == 0xFF) { /* "lengths are one byte or FFh and two, high byte first" */
            if (end - at < 2)
                return refusal(CORRIDOR_REFUSED_PASSES);
            length = (size_t)image[at] << 8 | image[at + 1];
            at += 2;
        }
        if (length > end - at)
            return refusal(CORRIDOR_REFUSED_PASSES);
        if (type == MESSAGE) /* "Take the first block of type 03h." */
            return message_seen(image + at, length, present);
        at += length;
    }
    return refusal(CORRIDOR_REFUSED_NO_MESSAGE);
}
