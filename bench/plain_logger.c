/* A plain writer of readings, for the benchmark. Sentences in quotation marks are those of request Q-7 of document 02. */
#include "plain.h"

static void four_bytes(uint8_t *low_first, uint32_t number)
{
    low_first[0] = (uint8_t)number;
    low_first[1] = (uint8_t)(number >> 8);
    low_first[2] = (uint8_t)(number >> 16);
    low_first[3] = (uint8_t)(number >> 24);
}

/* "03h 0Bh, the eleven bytes, FEh, and the rest as found"; "23, area under 14 bytes, nothing written" */
uint8_t plain_write_reading(uint8_t *area, size_t area_length, uint32_t second, uint32_t watts)
{
    if (area_length < 14)
        return CORRIDOR_REFUSED_AREA;
    area[0] = 0x03;
    area[1] = 0x0B;
    area[2] = 0xD5;
    area[3] = 0x00;
    area[4] = 0x08;
    four_bytes(area + 5, second);
    four_bytes(area + 9, watts);
    area[13] = 0xFE;
    return CORRIDOR_TAKEN;
}
