/*
 * Reads a sheet from standard input; writes for each item 'N left top width height x y replaced', its measured box, its next position and how
 * many of its characters are replaced, or 'refused N'. The tests of 'tools/sheet show' take it where target/bin/station_items is not built,
 * and compare the two where it is.
 */
#include "station.h"

#include <stdio.h>

static uint8_t sheet[STATION_MOST_SHEET + 1];
static uint8_t frame[STATION_MOST_FRAME];

int main(void)
{
    size_t length = fread(sheet, 1, sizeof sheet, stdin);
    uint32_t code = station_check(sheet, length);
    if (code != STATION_OK) {
        printf("refused %u\n", (unsigned)code);
        return 0;
    }
    size_t width = (size_t)sheet[STATION_AT_WIDTH] | (size_t)sheet[STATION_AT_WIDTH + 1] << 8;
    size_t height = (size_t)sheet[STATION_AT_HEIGHT] | (size_t)sheet[STATION_AT_HEIGHT + 1] << 8;
    uint32_t items = (uint32_t)sheet[STATION_AT_ITEMS] | (uint32_t)sheet[STATION_AT_ITEMS + 1] << 8;
    for (uint32_t k = 0; k < items; k++) {
        station_box box = station_bounding_box(sheet, length, k);
        station_drawn drawn = station_draw_item(sheet, length, frame, width * height, k);
        if (box.code != STATION_OK || drawn.code != STATION_OK) {
            return 1;
        }
        printf("%u %d %d %u %u %d %d %u\n", (unsigned)k, (int)box.left, (int)box.top, (unsigned)box.width, (unsigned)box.height,
               (int)drawn.x, (int)drawn.y, (unsigned)drawn.replaced);
    }
    return 0;
}
