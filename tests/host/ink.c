/*
 * Ink that no style paints: the rectangle of an edit ends at the first and the last row that counts in the item's style. Each case is a sheet with one
 * item, in a font and a frame as small as show it, and the reply that its edits must have. Style, text and place are edited each by itself, on a frame
 * that holds the page, which must then be the fresh drawing, and on a frame of a strange grey, which must stay outside the rectangle. Prints each
 * fault; the last line has the numbers of edits and of faults.
 */
#include "station.h"

#include <stdio.h>
#include <string.h>

enum {
    FONT_RECORD = STATION_FONT_RECORD(0),
    ITEM_RECORD = STATION_ITEM_RECORD(1, 0),
    ATLAS = STATION_ITEM_RECORD(1, 1),
    MAPPING = ATLAS + 1,
    SLOT = MAPPING + 1,
    LENGTH = SLOT + 1,
    MOST_ROWS = 256,
    PAPER = 200,
    STRANGE = 77
};

/* Cell and frame are 1 wide, and the item stands at (0, 0). A decoration has an offset and a height. */
struct ink_case {
    const char *name;
    uint8_t cell_height, strikethrough[2], underline[2], style[STATION_STYLE_LENGTH];
    uint16_t rows;
    station_box reply;
};

static const struct ink_case cases[] = {
    {"no decoration over a low underline", 1, {0, 1}, {1, 1}, {1, 9, 0, 0, 0, 0, 0, 0}, 2, {0, 0, 0, 1, 1}},
    {"underline alone, far below", 1, {0, 1}, {255, 1}, {0, 0, 0, 0, 2, 9, 0, 0}, 256, {0, 0, 255, 1, 1}},
    {"underline in the text colour, no text grey", 1, {0, 1}, {1, 1}, {0, 0, 1, 9, 1, 0, 0, 0}, 2, {0, 0, 0, 1, 1}},
    {"strikethrough of height 0", 1, {2, 0}, {0, 1}, {1, 9, 0, 0, 0, 0, 2, 8}, 2, {0, 0, 0, 1, 1}},
    {"cell of height 0, underlined", 0, {0, 1}, {1, 1}, {1, 9, 1, 8, 2, 7, 0, 0}, 2, {0, 0, 1, 1, 1}},
    {"nothing over nothing", 1, {0, 1}, {0, 1}, {0, 9, 0, 8, 0, 7, 0, 6}, 1, {0, 0, 0, 0, 0}},
    {"strikethrough above, underline below", 1, {1, 1}, {3, 1}, {0, 0, 0, 0, 2, 9, 2, 8}, 4, {0, 0, 1, 1, 3}},
};

static uint8_t sheet[LENGTH], frame[MOST_ROWS], fresh[MOST_ROWS], expected[MOST_ROWS];
static int edits, faults;

static void put(int at, int size, uint32_t value)
{
    for (int k = 0; k < size; k++) {
        sheet[at + k] = (uint8_t)(value >> (8 * k));
    }
}

/* The sheet of a case, with the modes of its style and other greys. */
static void make_sheet(const struct ink_case *c)
{
    memset(sheet, 0, sizeof sheet);
    put(0, 2, 1);
    put(STATION_AT_WIDTH, 2, 1);
    put(STATION_AT_HEIGHT, 2, c->rows);
    put(STATION_AT_PAPER, 1, PAPER);
    put(STATION_AT_FONTS, 1, 1);
    put(STATION_AT_ITEMS, 2, 1);
    put(12, 4, FONT_RECORD);
    put(16, 4, ITEM_RECORD);
    put(STATION_AT_LENGTH, 4, LENGTH);
    put(FONT_RECORD, 4, ATLAS);
    put(FONT_RECORD + 4, 4, MAPPING - ATLAS);
    put(FONT_RECORD + 8, 4, MAPPING);
    put(FONT_RECORD + 12, 2, SLOT - MAPPING);
    put(FONT_RECORD + 16, 2, 1);
    put(FONT_RECORD + 18, 1, 1);
    put(FONT_RECORD + 19, 1, c->cell_height);
    memcpy(sheet + FONT_RECORD + 22, c->strikethrough, sizeof c->strikethrough);
    memcpy(sheet + FONT_RECORD + 24, c->underline, sizeof c->underline);
    put(ITEM_RECORD + STATION_ITEM_AT_SLOT, 4, SLOT);
    put(ITEM_RECORD + STATION_ITEM_AT_SLOT_SIZE, 2, LENGTH - SLOT);
    put(ITEM_RECORD + STATION_ITEM_AT_TEXT_LENGTH, 2, 1);
    for (int k = 0; k < STATION_STYLE_LENGTH; k += 2) {
        put(ITEM_RECORD + STATION_ITEM_AT_STYLE + k, 1, c->style[k]);
        put(ITEM_RECORD + STATION_ITEM_AT_STYLE + k + 1, 1, c->style[k + 1] + 20u);
    }
    put(ATLAS, 1, 0x80);
    put(MAPPING, 1, 'A');
    put(SLOT, 1, 'A');
}

static station_box set_style(const struct ink_case *c)
{
    return station_set_style(sheet, LENGTH, frame, c->rows, 0, c->style, STATION_STYLE_LENGTH);
}

static station_box set_text(const struct ink_case *c)
{
    return station_set_text(sheet, LENGTH, frame, c->rows, 0, (const uint8_t *)"B", 1);
}

static station_box set_place(const struct ink_case *c)
{
    return station_set_place(sheet, LENGTH, frame, c->rows, 0, 0, 0);
}

static const struct {
    const char *name;
    station_box (*make)(const struct ink_case *);
} kinds[] = {{"style", set_style}, {"text", set_text}, {"place", set_place}};

/* Makes an edit of a kind, and the fresh drawing of the edited sheet. */
static void make_edit(const struct ink_case *c, size_t kind)
{
    station_box reply = kinds[kind].make(c);
    edits++;
    if (memcmp(&reply, &c->reply, sizeof reply) != 0) {
        faults++;
        printf("%s, %s: replied %u %d %d %u %u\n", c->name, kinds[kind].name, (unsigned)reply.code, (int)reply.left, (int)reply.top,
               (unsigned)reply.width, (unsigned)reply.height);
    }
    station_draw(sheet, LENGTH, fresh, c->rows);
}

static void compare(const struct ink_case *c, size_t kind, const uint8_t *wanted, const char *fault)
{
    if (memcmp(frame, wanted, c->rows) != 0) {
        faults++;
        printf("%s, %s: %s\n", c->name, kinds[kind].name, fault);
    }
}

static void try_case(const struct ink_case *c, size_t kind)
{
    make_sheet(c);
    station_draw(sheet, LENGTH, frame, c->rows);
    make_edit(c, kind);
    compare(c, kind, fresh, "the page is not the fresh drawing");

    make_sheet(c);
    memset(frame, STRANGE, sizeof frame);
    make_edit(c, kind);
    memset(expected, STRANGE, sizeof expected);
    memcpy(expected + c->reply.top, fresh + c->reply.top, c->reply.height);
    compare(c, kind, expected, "the rectangle is not what was repainted");
}

int main(void)
{
    for (size_t k = 0; k < sizeof cases / sizeof cases[0]; k++) {
        for (size_t kind = 0; kind < sizeof kinds / sizeof kinds[0]; kind++) {
            try_case(&cases[k], kind);
        }
    }
    printf("%d edits, %d faults\n", edits, faults);
    return faults != 0;
}
