/*
 * Answers station_check for many sheets. Standard input has each sheet after its length (4 bytes, low byte first); standard output gets a
 * line with the code of each.
 */
#include "station.h"

#include <stdio.h>

static uint8_t sheet[2 * STATION_MOST_SHEET];

int main(void)
{
    uint8_t head[4];
    while (fread(head, 1, sizeof head, stdin) == sizeof head) {
        size_t length = (size_t)head[0] | (size_t)head[1] << 8 | (size_t)head[2] << 16 | (size_t)head[3] << 24;
        if (length > sizeof sheet || fread(sheet, 1, length, stdin) != length) {
            fprintf(stderr, "check: a sheet is cut or too long\n");
            return 2;
        }
        printf("%u\n", (unsigned)station_check(sheet, length));
    }
    return 0;
}
