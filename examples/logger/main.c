/*
 * A logger's main: checks a sheet, draws its page, stores a new stage and tells how many of its characters the font lacks, makes the edits of a
 * reading in one call, radios a rectangle after each, and writes the page.
 *
 *     logger SHEET PAGE
 *
 * The sheet is samples/hydrograph.sheet, whose numbers stand in hydrograph.h. Nothing is allocated: the frame has that sheet's size, the other
 * buffers the largest that a sheet can ask for. Files stand in for the logger's memory and radio.
 */
#include "hydrograph.h"
#include "station.h"

#include <stdio.h>
#include <string.h>

#if STATION_VERSION_MAJOR != 2 || STATION_VERSION_MINOR < 2
#error "this logger was written for version 2.2 of the library"
#endif

/* The list of edits has room for a text of each item. */
enum { PIXELS = HYDROGRAPH_WIDTH * HYDROGRAPH_HEIGHT, MOST_LIST = HYDROGRAPH_ITEMS * (STATION_ENTRY_HEAD + STATION_MOST_SLOT) };

static uint8_t sheet[STATION_MOST_SHEET + 1];
static size_t length;
static uint8_t frame[PIXELS];
static uint8_t spare[PIXELS];
static uint8_t ashore[PIXELS];
static uint8_t page[STATION_MOST_PAGE];
static uint8_t list[MOST_LIST];
static size_t list_length;

/* A number of two bytes, low byte first. */
static size_t stored_number(size_t at)
{
    return (size_t)sheet[at] | (size_t)sheet[at + 1] << 8;
}

static int say_refused(const char *what, uint32_t code)
{
    printf("%s: refused %u\n", what, (unsigned)code);
    return 1;
}

/* Reads a file into the sheet's buffer; one byte past the largest sheet is enough for the check to refuse it. */
static int read_sheet(const char *path)
{
    FILE *file = fopen(path, "rb");
    if (file == NULL) {
        return 0;
    }
    length = fread(sheet, 1, sizeof sheet, file);
    int good = !ferror(file);
    return fclose(file) == 0 && good;
}

static int write_file(const char *path, const uint8_t *bytes, size_t count)
{
    FILE *file = fopen(path, "wb");
    if (file == NULL) {
        return 0;
    }
    int good = fwrite(bytes, 1, count, file) == count;
    return fclose(file) == 0 && good;
}

/* Whether an accepted sheet is the one that hydrograph.h has the numbers of. */
static int is_known_sheet(void)
{
    return length == HYDROGRAPH_LENGTH && stored_number(STATION_AT_WIDTH) == HYDROGRAPH_WIDTH &&
           stored_number(STATION_AT_HEIGHT) == HYDROGRAPH_HEIGHT && stored_number(STATION_AT_ITEMS) == HYDROGRAPH_ITEMS;
}

/* Stands in for the radio: the page ashore gets the greys of the rectangle, and no others, and is compared with the logger's. */
static void send_rectangle(int32_t left, int32_t top, uint32_t width, uint32_t height)
{
    for (uint32_t row = 0; row < height; row++) {
        size_t at = ((size_t)top + row) * HYDROGRAPH_WIDTH + (size_t)left;
        memcpy(ashore + at, frame + at, width);
    }
    printf("radio: left %d, top %d, width %u, height %u: %u greys of %u; the page ashore is %s\n", (int)left, (int)top, (unsigned)width,
           (unsigned)height, (unsigned)(width * height), (unsigned)PIXELS, memcmp(ashore, frame, sizeof frame) == 0 ? "the same" : "another");
}

/* The number of a text's characters; for an ill-formed text, of those before the fault. */
static unsigned count_characters(const char *text)
{
    const uint8_t *line = (const uint8_t *)text;
    size_t line_length = strlen(text);
    unsigned count = 0;
    station_step step = station_walk(line, line_length, 0);
    while (step.code == STATION_OK && step.ended == 0) {
        count++;
        step = station_walk(line, line_length, step.next);
    }
    return count;
}

/*
 * Gives the stage's item a new text by a call of its own, radios its rectangle, and says what the calls replied. The item is drawn by itself
 * on a spare frame, which tells how many of its characters the font lacks; the page keeps its greys. Gives the first code that is no
 * STATION_OK.
 */
static uint32_t set_stage(const char *text)
{
    station_box area = station_set_text(sheet, length, frame, PIXELS, HYDROGRAPH_ITEM_STAGE, (const uint8_t *)text, strlen(text));
    if (area.code != STATION_OK) {
        printf("new stage of %u bytes in a slot of %u: refused %u\n", (unsigned)strlen(text), (unsigned)HYDROGRAPH_SLOT_STAGE,
               (unsigned)area.code);
        return area.code;
    }
    station_drawn drawn = station_draw_item(sheet, length, spare, PIXELS, HYDROGRAPH_ITEM_STAGE);
    if (drawn.code != STATION_OK) {
        say_refused("new stage, drawn by itself", drawn.code);
        return drawn.code;
    }
    printf("new stage '%s': %u characters, of which the font lacks %u\n", text, count_characters(text), (unsigned)drawn.replaced);
    send_rectangle(area.left, area.top, area.width, area.height);
    return STATION_OK;
}

/* Adds an edit to the list: kind, item, the data's length with its low byte first, and the data. Gives whether the list has room for it. */
static int add_edit(uint8_t kind, uint8_t item, const uint8_t *data, size_t data_length)
{
    if (sizeof list - list_length < STATION_ENTRY_HEAD + data_length) {
        printf("list: no room for %u bytes\n", (unsigned)data_length);
        return 0;
    }
    uint8_t *entry = list + list_length;
    entry[0] = kind;
    entry[1] = item;
    entry[2] = (uint8_t)(data_length & 255);
    entry[3] = (uint8_t)(data_length >> 8);
    memcpy(entry + STATION_ENTRY_HEAD, data, data_length);
    list_length += STATION_ENTRY_HEAD + data_length;
    return 1;
}

static int add_text(uint8_t item, const char *text)
{
    return add_edit(STATION_EDIT_TEXT, item, (const uint8_t *)text, strlen(text));
}

/* The data of a place are x and y, four bytes each, low byte first. */
static int add_place(uint8_t item, int32_t x, int32_t y)
{
    uint8_t data[8];
    for (int k = 0; k < 4; k++) {
        data[k] = (uint8_t)((uint32_t)x >> (8 * k) & 255);
        data[4 + k] = (uint8_t)((uint32_t)y >> (8 * k) & 255);
    }
    return add_edit(STATION_EDIT_PLACE, item, data, sizeof data);
}

/*
 * Makes the edits of the list in one call, says what it replied, and radios the one rectangle that holds those of the edits made. These stand also
 * if a later edit is refused, so the rectangle is radioed then too. The list is empty afterwards. Gives the code.
 */
static uint32_t make_list(const char *what)
{
    station_batch made = station_edit_list(sheet, length, frame, PIXELS, list, list_length);
    list_length = 0;
    printf("%s: edits made %u, code %u\n", what, (unsigned)made.made, (unsigned)made.code);
    send_rectangle(made.left, made.top, made.width, made.height);
    return made.code;
}

/* Says the text that the sheet has for an item. */
static void say_text(const char *what, size_t item)
{
    size_t record = STATION_ITEM_RECORD(HYDROGRAPH_FONTS, item);
    size_t slot = stored_number(record + STATION_ITEM_AT_SLOT) | stored_number(record + STATION_ITEM_AT_SLOT + 2) << 16;
    printf("%s: '%.*s'\n", what, (int)stored_number(record + STATION_ITEM_AT_TEXT_LENGTH), (const char *)(sheet + slot));
}

/* Stores a new stage, and then a reading and its time, and radios each. Gives whether every call was good. */
static int make_readings(void)
{
    /* The font lacks the first sign of this stage, and has a hyphen in its place, which reads as a minus sign. */
    if (set_stage("\xE2\x89\x88" "2.35 m") != STATION_OK) {
        return 0;
    }

    /* A reading changes four lines that lie close together: one call, for which the sheet is checked once, and one rectangle. */
    if (!add_text(HYDROGRAPH_ITEM_STAGE, "2.347 m") || !add_text(HYDROGRAPH_ITEM_DISCHARGE, "43.2 m\xC2\xB3/s") ||
        !add_text(HYDROGRAPH_ITEM_TREND, "\xE2\x86\x91 0.22 m in 6 h") || !add_text(HYDROGRAPH_ITEM_RAIN, "18.9 mm in 24 h") ||
        make_list("reading") != STATION_OK) {
        return 0;
    }

    /* The time stands at the page's foot. It has a list of its own: one rectangle for both would hold nearly the whole page. */
    return add_text(HYDROGRAPH_ITEM_WEATHER, "Air 7.3 \xC2\xB0" "C  Water 5.1 \xC2\xB0" "C  Battery 12.6 V\nDrawn 2031-03-17 00:15 UTC") &&
           make_list("time of the reading") == STATION_OK;
}

/* Tries edits that are refused. Gives whether each had its refusal. */
static int try_refused(void)
{
    static const uint8_t underlined[STATION_STYLE_LENGTH] = {1, 16, 0, 0, 1, 0, 0, 0};
    static const char cut[] = "2.3 \xE2\x86";

    /* A text that is longer than the slot, and one that is cut in a character. Sheet and frame stay as they are. */
    if (set_stage("sensor fault") != STATION_REFUSED_NEW_TEXT_TOO_LONG || set_stage(cut) != STATION_REFUSED_NEW_TEXT_ILL_FORMED) {
        return 0;
    }
    printf("the stage that was cut: %u characters before the fault\n", count_characters(cut));

    /* A list that stops midway, at a place that no item may have: the new stage and the alarm's style stand, the rain is not changed. */
    if (!add_text(HYDROGRAPH_ITEM_STAGE, "2.362 m") || !add_edit(STATION_EDIT_STYLE, HYDROGRAPH_ITEM_ALARM, underlined, sizeof underlined) ||
        !add_place(HYDROGRAPH_ITEM_ALARM, 34, 40000) || !add_text(HYDROGRAPH_ITEM_RAIN, "19.1 mm in 24 h") ||
        make_list("reading with a wrong place") != STATION_REFUSED_PLACE) {
        return 0;
    }
    say_text("stage", HYDROGRAPH_ITEM_STAGE);
    say_text("rain", HYDROGRAPH_ITEM_RAIN);
    return 1;
}

int main(int count, char **arguments)
{
    if (count != 3) {
        fprintf(stderr, "usage: logger SHEET PAGE\n");
        return 2;
    }
    if (!read_sheet(arguments[1])) {
        fprintf(stderr, "logger: %s cannot be read\n", arguments[1]);
        return 2;
    }

    uint32_t code = station_check(sheet, length);
    if (code != STATION_OK) {
        return say_refused("sheet", code);
    }
    if (!is_known_sheet()) {
        printf("sheet: accepted, but not the one of hydrograph.h\n");
        return 1;
    }
    printf("sheet: %u bytes, accepted\n", (unsigned)length);

    code = station_draw(sheet, length, frame, PIXELS);
    if (code != STATION_OK) {
        return say_refused("drawing", code);
    }
    printf("page: %u by %u, drawn\n", (unsigned)HYDROGRAPH_WIDTH, (unsigned)HYDROGRAPH_HEIGHT);
    memcpy(ashore, frame, sizeof frame);

    if (!make_readings() || !try_refused()) {
        printf("a reply that was not expected\n");
        return 1;
    }

    station_number written = station_write_page(sheet, length, frame, PIXELS, page, sizeof page);
    if (written.code != STATION_OK) {
        return say_refused("page", written.code);
    }
    if (!write_file(arguments[2], page, written.value)) {
        fprintf(stderr, "logger: %s cannot be written\n", arguments[2]);
        return 2;
    }
    printf("page: %u bytes written\n", (unsigned)written.value);
    return 0;
}
