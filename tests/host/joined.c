/*
 * A sheet's lines in two runs, as station.h has it with station_draw_item: each item whose text is one line in a font of spacing 0 is aligned left and cut
 * before each character and at its end, in some styles and every baseline, over the sheet's page; and whitespace in two widths.
 *
 *     joined SHEET
 *
 * Prints how many comparisons were made, or the first that went otherwise; the exit status is then 1.
 */
#include "station.h"

#include <stdio.h>
#include <stdlib.h>
#include <string.h>

enum { STYLES = 4, AT_SPACING = 20 };

static const uint8_t styles[STYLES][STATION_STYLE_LENGTH] = {
    {1, 31, 1, 130, 1, 0, 2, 250}, {1, 31, 0, 0, 0, 0, 1, 0}, {0, 0, 1, 130, 2, 66, 0, 0}, {0, 0, 0, 0, 2, 66, 2, 250}};
static uint8_t file[STATION_MOST_SHEET + 1], at_once[STATION_MOST_SHEET], in_two[STATION_MOST_SHEET];
static uint8_t page[STATION_MOST_FRAME], once[STATION_MOST_FRAME], twice[STATION_MOST_FRAME];
static size_t length, pixels;
static unsigned long compared;

static unsigned u16(const uint8_t *bytes)
{
    return (unsigned)bytes[0] | (unsigned)bytes[1] << 8;
}

/* Both copies of the sheet and both frames as they are at first. */
static void start(uint32_t item, size_t record, unsigned style, uint8_t baseline)
{
    memcpy(at_once, file, length);
    at_once[record + STATION_ITEM_AT_ALIGNMENT] = 0;
    at_once[record + STATION_ITEM_AT_BASELINE] = baseline;
    station_set_style_on_sheet(at_once, length, item, styles[style], STATION_STYLE_LENGTH);
    memcpy(in_two, at_once, length);
    memcpy(once, page, pixels);
    memcpy(twice, page, pixels);
}

static void compare(int same, uint32_t item, unsigned style, size_t cut)
{
    compared++;
    if (!same || memcmp(once, twice, pixels) != 0) {
        printf("item %u, style %u, cut at %u: otherwise\n", (unsigned)item, style, (unsigned)cut);
        exit(1);
    }
}

static void compare_runs(uint32_t item, const uint8_t *text, size_t size, size_t cut, unsigned style)
{
    station_set_text_on_sheet(at_once, length, item, text, size);
    station_drawn joined = station_draw_item(at_once, length, once, pixels, item);
    station_set_text_on_sheet(in_two, length, item, text, cut);
    station_drawn first = station_draw_item(in_two, length, twice, pixels, item);
    station_set_place_on_sheet(in_two, length, item, first.x, first.y);
    station_set_text_on_sheet(in_two, length, item, text + cut, size - cut);
    station_drawn second = station_draw_item(in_two, length, twice, pixels, item);
    compare(first.code + second.code + joined.code == 0 && second.x == joined.x && second.y == joined.y && first.replaced + second.replaced == joined.replaced,
            item, style, cut);
}

static void compare_widths(uint32_t item, uint32_t v, uint32_t w, unsigned style)
{
    station_position joined = station_draw_whitespace(at_once, length, once, pixels, item, v + w);
    station_position first = station_draw_whitespace(in_two, length, twice, pixels, item, v);
    station_set_place_on_sheet(in_two, length, item, first.x, first.y);
    station_position second = station_draw_whitespace(in_two, length, twice, pixels, item, w);
    compare(first.code + second.code + joined.code == 0 && second.x == joined.x && second.y == joined.y, item, style, v);
}

static void try_item(uint32_t item, unsigned style, uint8_t baseline)
{
    size_t record = STATION_ITEM_RECORD(file[STATION_AT_FONTS], item);
    const uint8_t *text = file + (u16(file + record + STATION_ITEM_AT_SLOT) | (size_t)u16(file + record + STATION_ITEM_AT_SLOT + 2) << 16);
    size_t size = u16(file + record + STATION_ITEM_AT_TEXT_LENGTH), font = STATION_FONT_RECORD(file[record + STATION_ITEM_AT_FONT]);
    start(item, record, style, baseline);
    compare_widths(item, 17, 40 + item, style);
    if (file[font + AT_SPACING] != 0 || memchr(text, '\n', size) != NULL || memchr(text, '\r', size) != NULL) {
        return;
    }
    station_step step = {0, 0, 0, 0};
    for (; step.code == STATION_OK && step.ended == 0; step = station_walk(text, size, step.next)) {
        start(item, record, style, baseline);
        compare_runs(item, text, size, step.next, style);
    }
}

int main(int count, char **arguments)
{
    FILE *given = count == 2 ? fopen(arguments[1], "rb") : NULL;
    if (given == NULL) {
        fprintf(stderr, "usage: joined SHEET\n");
        return 2;
    }
    length = fread(file, 1, sizeof file, given);
    fclose(given);
    if (station_check(file, length) != STATION_OK) {
        return 2;
    }
    pixels = (size_t)u16(file + STATION_AT_WIDTH) * u16(file + STATION_AT_HEIGHT);
    station_draw(file, length, page, pixels);
    for (uint32_t item = 0; item < u16(file + STATION_AT_ITEMS); item++) {
        for (unsigned style = 0; style < STYLES; style++) {
            for (uint8_t baseline = 0; baseline < 4; baseline++) {
                try_item(item, style, baseline);
            }
        }
    }
    printf("%lu compared\n", compared);
    return compared == 0;
}
