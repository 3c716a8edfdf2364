/*
 * Edits by radio: makes those of a list on a sheet, and keeps a page ashore that gets the greys of each edit's rectangle and no others. After each edit
 * the two pages must be the same, and in the end they must be the fresh drawing.
 *
 *     radio SHEET LIST
 *
 * A line of the list is an edit: text ITEM "TEXT", with \n for a line feed; place ITEM X Y; or style ITEM and its 8 bytes. Lines that start with # do not
 * count. Prints the number of edits, of the greys in their rectangles and of the edits without a rectangle; or the first edit that went otherwise, and
 * the exit status is then 1.
 */
#include "station.h"

#include <stdio.h>
#include <string.h>

static uint8_t sheet[STATION_MOST_SHEET + 1];
static uint8_t frame[STATION_MOST_FRAME], ashore[STATION_MOST_FRAME], fresh[STATION_MOST_FRAME];
static size_t length, width, pixels;
static unsigned long edits, greys, without;

static size_t u16(size_t at)
{
    return (size_t)sheet[at] | (size_t)sheet[at + 1] << 8;
}

/* Moves the text between a line's quotes to the line's head, with a feed for each \n; its length. */
static size_t unquote(char *line)
{
    const char *from = strchr(line, '"'), *end = strrchr(line, '"');
    size_t size = 0;
    while (from != end && ++from != end) {
        int is_feed = from[0] == '\\' && from[1] == 'n';
        line[size++] = is_feed ? '\n' : *from;
        from += is_feed;
    }
    return size;
}

/* Makes the edit of a line, which is written over. */
static station_box make_edit(char *line)
{
    station_box none = {STATION_REFUSED_NO_SUCH, 0, 0, 0, 0};
    uint8_t s[STATION_STYLE_LENGTH];
    unsigned item;
    int x, y;
    if (sscanf(line, "text %u", &item) == 1) {
        size_t size = unquote(line);
        return station_set_text(sheet, length, frame, pixels, item, (const uint8_t *)line, size);
    }
    if (sscanf(line, "place %u %d %d", &item, &x, &y) == 3) {
        return station_set_place(sheet, length, frame, pixels, item, x, y);
    }
    if (sscanf(line, "style %u %hhu %hhu %hhu %hhu %hhu %hhu %hhu %hhu", &item, s, s + 1, s + 2, s + 3, s + 4, s + 5, s + 6, s + 7) == 9) {
        return station_set_style(sheet, length, frame, pixels, item, s, sizeof s);
    }
    return none;
}

static void send_rectangle(station_box area)
{
    for (uint32_t row = 0; row < area.height; row++) {
        size_t at = ((size_t)area.top + row) * width + (size_t)area.left;
        memcpy(ashore + at, frame + at, area.width);
    }
}

/* Makes the edits of a list; whether none was refused, and the page ashore was the same after each. */
static int make_edits(FILE *list)
{
    char line[1024];
    while (fgets(line, sizeof line, list) != NULL) {
        if (line[0] == '#') {
            continue;
        }
        station_box area = make_edit(line);
        send_rectangle(area);
        edits++;
        greys += area.width * area.height;
        without += area.width == 0;
        if (area.code != STATION_OK || memcmp(ashore, frame, pixels) != 0) {
            return 0;
        }
    }
    return 1;
}

int main(int count, char **arguments)
{
    FILE *given = count == 3 ? fopen(arguments[1], "rb") : NULL;
    FILE *list = count == 3 ? fopen(arguments[2], "r") : NULL;
    if (given == NULL || list == NULL) {
        fprintf(stderr, "usage: radio SHEET LIST\n");
        return 2;
    }
    length = fread(sheet, 1, sizeof sheet, given);
    if (station_check(sheet, length) != STATION_OK) {
        return 2;
    }
    width = u16(STATION_AT_WIDTH);
    pixels = width * u16(STATION_AT_HEIGHT);
    station_draw(sheet, length, frame, pixels);
    memcpy(ashore, frame, pixels);
    int same = make_edits(list);
    station_draw(sheet, length, fresh, pixels);
    if (!same || memcmp(ashore, fresh, pixels) != 0) {
        printf("edit %lu: otherwise\n", edits);
        return 1;
    }
    printf("%lu edits, %lu greys, %lu without a rectangle\n", edits, greys, without);
    return 0;
}
