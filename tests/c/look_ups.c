/* Writes the answers of landfill_entry for five kinds and every rate, 4 bytes each, little-endian. */
#include "landfill.h"

#include <stdio.h>

static void put(uint32_t answer)
{
    for (int shift = 0; shift < 32; shift += 8) putchar((int)(answer >> shift & 255));
}

int main(void)
{
    static const uint8_t KINDS[] = {1, 2, 0, 3, 255};
    for (size_t i = 0; i < sizeof KINDS; i++)
        for (unsigned rate = 0; rate <= 65535; rate++) put(landfill_entry(KINDS[i], (uint16_t)rate));
    return fflush(stdout) != 0 || ferror(stdout);
}
