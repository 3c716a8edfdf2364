/*
 * Lists of edits: lists as bytes, each with the reply that it must have, on a sheet with three items. Each is made on a frame that holds the page and on one
 * of a strange grey. Sheet and frame must then be those that the edits which stand leave when they are made one by one, their replies must
 * form the list's, and a pixel that none of them repaints must keep its grey. Prints each fault; the last line has the numbers of cases and of
 * faults.
 */
#include "station.h"

#include <stdio.h>
#include <string.h>

enum {
    WIDTH = 16,
    HEIGHT = 12,
    PIXELS = WIDTH * HEIGHT,
    ITEMS = 3,
    FONT_RECORD = STATION_FONT_RECORD(0),
    ITEM_RECORD = STATION_ITEM_RECORD(1, 0),
    ATLAS = STATION_ITEM_RECORD(1, ITEMS),
    MAPPING = ATLAS + 2,
    SLOT = MAPPING + 2,
    SLOT_SIZE = 4,
    LENGTH = SLOT + ITEMS * SLOT_SIZE,
    MOST_LIST = 70000,
    PAPER = 200,
    STRANGE = 77,
    MOST_EDITS = 12
};

struct edit {
    uint8_t kind, item;
    const char *data;
    size_t length;
    int32_t x, y;
};

#define TEXT(item, text) {0, item, text, sizeof(text) - 1, 0, 0}
#define PLACE(item, x, y) {1, item, "", 0, x, y}
#define STYLE(item, style) {2, item, style, sizeof(style) - 1, 0, 0}

/* Bytes, then so many of the letter A. */
struct bytes {
    const char *name, *bytes;
    size_t length, letters;
    uint32_t code;
};

/* Lists that are refused whole. */
static const struct bytes bad[] = {
    {"cut in the head, 1 byte", "\0", 1, 0, STATION_REFUSED_LIST},
    {"cut in the head, 2 bytes", "\0\0", 2, 0, STATION_REFUSED_LIST},
    {"cut in the head, 3 bytes", "\0\0\1", 3, 0, STATION_REFUSED_LIST},
    {"cut in the data", "\0\0\3\0", 4, 2, STATION_REFUSED_LIST},
    {"a length past the end", "\0\0\xFF\xFF", 4, 65534, STATION_REFUSED_LIST},
    {"kind 3", "\3\0\0\0", 4, 0, STATION_REFUSED_LIST},
    {"kind 255", "\xFF\0\0\0", 4, 0, STATION_REFUSED_LIST},
    {"a place of 7 bytes", "\1\0\7\0\5\0\0\0\6\0\0", 11, 0, STATION_REFUSED_LIST},
    {"a place of 9 bytes", "\1\0\11\0\5\0\0\0\6\0\0\0\0", 13, 0, STATION_REFUSED_LIST},
    {"a place without bytes", "\1\0\0\0", 4, 0, STATION_REFUSED_LIST},
};

/* Entries that stop a list. */
static const struct bytes stopping[] = {
    {"item 3", "\0\3\1\0", 4, 1, STATION_REFUSED_NO_SUCH},
    {"item 255", "\2\xFF\0\0", 4, 0, STATION_REFUSED_NO_SUCH},
    {"item 64", "\0\100\0\0", 4, 0, STATION_REFUSED_NO_SUCH},
    {"item 128", "\0\200\0\0", 4, 0, STATION_REFUSED_NO_SUCH},
    {"a text of 5 bytes", "\0\0\5\0", 4, 5, STATION_REFUSED_NEW_TEXT_TOO_LONG},
    {"a text of 65,535 bytes", "\0\0\xFF\xFF", 4, 65535, STATION_REFUSED_NEW_TEXT_TOO_LONG},
    {"a text that is cut", "\0\0\2\0A\xC3", 6, 0, STATION_REFUSED_NEW_TEXT_ILL_FORMED},
    {"x = 32,768", "\1\0\10\0\0\x80\0\0\0\0\0\0", 12, 0, STATION_REFUSED_PLACE},
    {"y = -32,769", "\1\0\10\0\0\0\0\0\xFF\x7F\xFF\xFF", 12, 0, STATION_REFUSED_PLACE},
    {"a style of 7 bytes", "\2\0\7\0\1\11\0\0\0\0\0", 11, 0, STATION_REFUSED_STYLE},
    {"a style of 9 bytes", "\2\0\11\0\1\11\0\0\0\0\0\0\0", 13, 0, STATION_REFUSED_STYLE},
    {"an unknown mode", "\2\0\10\0\2\11\0\0\0\0\0\0", 12, 0, STATION_REFUSED_STYLE},
};

/* Edits that stand, made so many times over, and the reply. */
static const struct good {
    const char *name;
    size_t count, times;
    struct edit edits[MOST_EDITS];
    station_batch reply;
} good[] = {
    {"an empty list", 0, 1, {TEXT(0, "")}, {0, 0, 0, 0, 0, 0}},
    {"one text", 1, 1, {TEXT(0, "BA")}, {0, 1, 1, 1, 5, 2}},
    {"two corners", 2, 1, {TEXT(0, "B"), STYLE(1, "\1\1\0\0\0\0\0\0")}, {0, 2, 1, 1, 13, 10}},
    {"an item off the frame", 2, 1, {TEXT(2, "AB"), PLACE(2, -9, -9)}, {0, 2, 0, 0, 0, 0}},
    {"a place from one side of the frame to the other", 3, 1, {TEXT(2, "B"), TEXT(1, "B"), PLACE(2, 99, 99)}, {0, 3, 0, 0, 16, 12}},
    {"one edit behind one off the frame", 2, 1, {TEXT(2, "B"), TEXT(1, "B")}, {0, 2, 12, 9, 2, 2}},
    {"a text, none and another", 3, 1, {TEXT(0, "AAA"), TEXT(0, ""), TEXT(0, "B")}, {0, 3, 1, 1, 8, 2}},
    {"places at the ends of their range", 2, 1, {PLACE(0, 32767, -32768), PLACE(1, -32768, 32767)}, {0, 2, 0, 0, 16, 12}},
    {"a dozen edits",
     12,
     1,
     {TEXT(0, "AB"), PLACE(0, 2, 4), STYLE(0, "\1\1\1\2\2\3\2\4"), TEXT(1, "BB"), PLACE(1, 9, 9), STYLE(1, "\0\1\0\2\2\3\0\4"), TEXT(2, "BA"),
      PLACE(2, 6, 2), STYLE(2, "\1\6\0\0\0\0\0\0"), TEXT(2, "B\nA"), TEXT(1, ""), PLACE(0, 2, 5)},
     {0, 12, 0, 0, 16, 12}},
    {"10,000 entries", 2, 5000, {TEXT(0, "B"), TEXT(0, "AB")}, {0, 10000, 1, 1, 5, 2}},
};

/* What a list makes before the entry that stops it, and behind it. */
static const struct edit before[] = {TEXT(0, "B"), PLACE(1, 9, 8)}, behind = TEXT(1, "BB");
static const station_batch before_reply = {0, 2, 1, 1, 13, 10};

static uint8_t sheet[LENGTH], frame[PIXELS], singly_sheet[LENGTH], singly_frame[PIXELS], covered[PIXELS], list[MOST_LIST];
static size_t list_length;
static int cases, faults;
static long between;

static void put(int at, int size, uint32_t value)
{
    for (int k = 0; k < size; k++) {
        sheet[at + k] = (uint8_t)(value >> (8 * k));
    }
}

static void put_item(int item, int x, int y)
{
    int record = ITEM_RECORD + 28 * item;
    put(record + STATION_ITEM_AT_X, 2, (uint32_t)x);
    put(record + STATION_ITEM_AT_Y, 2, (uint32_t)y);
    put(record + STATION_ITEM_AT_SLOT, 4, (uint32_t)(SLOT + SLOT_SIZE * item));
    put(record + STATION_ITEM_AT_SLOT_SIZE, 2, SLOT_SIZE);
    put(record + STATION_ITEM_AT_TEXT_LENGTH, 2, 1);
    put(record + STATION_ITEM_AT_STYLE, 2, 1 | 9 << 8);
    put(SLOT + SLOT_SIZE * item, 1, 'A');
}

/* The sample font of docs/SHEET.md, and A in each item: in two corners, and to the left of the frame. */
static void make_sheet(void)
{
    static const uint8_t cell[] = {2, 2, 1, 1, 0, 1, 3, 1};
    memset(sheet, 0, sizeof sheet);
    put(0, 2, 1);
    put(STATION_AT_WIDTH, 2, WIDTH);
    put(STATION_AT_HEIGHT, 2, HEIGHT);
    put(STATION_AT_PAPER, 1, PAPER);
    put(STATION_AT_FONTS, 1, 1);
    put(STATION_AT_ITEMS, 2, ITEMS);
    put(12, 4, FONT_RECORD);
    put(16, 4, ITEM_RECORD);
    put(STATION_AT_LENGTH, 4, LENGTH);
    put(FONT_RECORD, 4, ATLAS);
    put(FONT_RECORD + 4, 4, MAPPING - ATLAS);
    put(FONT_RECORD + 8, 4, MAPPING);
    put(FONT_RECORD + 12, 2, SLOT - MAPPING);
    put(FONT_RECORD + 16, 2, 4);
    memcpy(sheet + FONT_RECORD + 18, cell, sizeof cell);
    put(ATLAS, 2, 0x6090);
    put(MAPPING, 2, 'A' | 'B' << 8);
    put_item(0, 1, 1);
    put_item(1, 12, 9);
    put_item(2, -9, -9);
}

static void add_bytes(const void *bytes, size_t length)
{
    memcpy(list + list_length, bytes, length);
    list_length += length;
}

static void add_edit(const struct edit *e)
{
    uint8_t place[8];
    size_t length = e->kind == 1 ? sizeof place : e->length;
    uint8_t head[] = {e->kind, e->item, (uint8_t)length, (uint8_t)(length >> 8)};
    for (int k = 0; k < 4; k++) {
        place[k] = (uint8_t)((uint32_t)e->x >> (8 * k));
        place[4 + k] = (uint8_t)((uint32_t)e->y >> (8 * k));
    }
    add_bytes(head, sizeof head);
    add_bytes(e->kind == 1 ? (const void *)place : e->data, length);
}

static void add_row(const struct bytes *row)
{
    add_bytes(row->bytes, row->length);
    memset(list + list_length, 'A', row->letters);
    list_length += row->letters;
}

static station_box make_single(const struct edit *e)
{
    const uint8_t *data = (const uint8_t *)e->data;
    switch (e->kind) {
    case 0:
        return station_set_text(singly_sheet, LENGTH, singly_frame, PIXELS, e->item, data, e->length);
    case 1:
        return station_set_place(singly_sheet, LENGTH, singly_frame, PIXELS, e->item, e->x, e->y);
    default:
        return station_set_style(singly_sheet, LENGTH, singly_frame, PIXELS, e->item, data, e->length);
    }
}

static void expect(int holds, const char *name, const char *with, const char *fault)
{
    if (!holds) {
        faults++;
        printf("%s%s: %s\n", name, with, fault);
    }
}

static void replied(station_batch r, station_batch wanted, const char *name, const char *with)
{
    if (memcmp(&r, &wanted, sizeof r) != 0) {
        printf("%u %u %d %d %u %u, and not %u %u %d %d %u %u\n", (unsigned)r.code, (unsigned)r.made, (int)r.left, (int)r.top, (unsigned)r.width,
               (unsigned)r.height, (unsigned)wanted.code, (unsigned)wanted.made, (int)wanted.left, (int)wanted.top, (unsigned)wanted.width,
               (unsigned)wanted.height);
        expect(0, name, with, "another reply");
    }
}

/* Whether pixel k of the frame lies in a rectangle. */
static int holds(int k, int32_t left, int32_t top, uint32_t width, uint32_t height)
{
    return k % WIDTH >= left && k % WIDTH < left + (int)width && k / WIDTH >= top && k / WIDTH < top + (int)height;
}

/* Makes the first edits of a case one by one; the reply that theirs form, with the given code. */
static station_batch make_singly(const struct edit *edits, size_t count, size_t made, uint32_t code)
{
    int left = WIDTH, top = HEIGHT, right = 0, foot = 0;
    station_batch formed = {code, (uint32_t)made, 0, 0, 0, 0};
    memset(covered, 0, sizeof covered);
    for (size_t n = 0; n < made; n++) {
        station_box box = make_single(&edits[n % count]);
        for (int k = 0; k < PIXELS; k++) {
            if (holds(k, box.left, box.top, box.width, box.height)) {
                covered[k] = 1;
                left = k % WIDTH < left ? k % WIDTH : left;
                top = k / WIDTH < top ? k / WIDTH : top;
                right = k % WIDTH >= right ? k % WIDTH + 1 : right;
                foot = k / WIDTH >= foot ? k / WIDTH + 1 : foot;
            }
        }
    }
    if (left < right) {
        formed.left = left;
        formed.top = top;
        formed.width = (uint32_t)(right - left);
        formed.height = (uint32_t)(foot - top);
    }
    return formed;
}

/* Makes the list on a new sheet, and on its page or on a strange frame. */
static void try_on(const char *name, const char *with, int strange, const struct edit *edits, size_t count, station_batch wanted)
{
    make_sheet();
    station_draw(sheet, LENGTH, frame, PIXELS);
    if (strange) {
        memset(frame, STRANGE, sizeof frame);
    }
    memcpy(singly_sheet, sheet, sizeof sheet);
    memcpy(singly_frame, frame, sizeof frame);
    cases++;
    replied(station_edit_list(sheet, LENGTH, frame, PIXELS, list, list_length), wanted, name, with);
    replied(make_singly(edits, count, wanted.made, wanted.code), wanted, name, ", one by one");
    expect(memcmp(sheet, singly_sheet, sizeof sheet) == 0, name, with, "another sheet than one by one");
    expect(memcmp(frame, singly_frame, sizeof frame) == 0, name, with, "another frame than one by one");
    if (strange) {
        for (int k = 0; k < PIXELS; k++) {
            if (!covered[k]) {
                expect(frame[k] == STRANGE, name, with, "a grey outside each single rectangle is changed");
                between += holds(k, wanted.left, wanted.top, wanted.width, wanted.height);
            }
        }
    } else {
        station_draw(sheet, LENGTH, singly_frame, PIXELS);
        expect(memcmp(frame, singly_frame, sizeof frame) == 0, name, with, "the page is not the fresh drawing");
    }
}

static void try_list(const char *name, const char *with, const struct edit *edits, size_t count, station_batch wanted)
{
    try_on(name, with, 0, edits, count, wanted);
    try_on(name, with, 1, edits, count, wanted);
}

static void try_good(const struct good *c)
{
    list_length = 0;
    for (size_t k = 0; k < c->count * c->times; k++) {
        add_edit(&c->edits[k % c->count]);
    }
    try_list(c->name, "", c->edits, c->count, c->reply);
}

/* The row alone, and between other edits: of a list that is refused whole none is made. */
static void try_row(const struct bytes *row)
{
    station_batch none = {row->code, 0, 0, 0, 0, 0}, stopped = before_reply;
    stopped.code = row->code;
    list_length = 0;
    add_row(row);
    try_list(row->name, ", alone", before, 1, none);
    list_length = 0;
    add_edit(&before[0]);
    add_edit(&before[1]);
    add_row(row);
    if (row->code == STATION_REFUSED_LIST) {
        try_list(row->name, ", behind others", before, 1, none);
        list_length = 0;
        add_row(&stopping[1]);
        add_row(row);
        try_list(row->name, ", behind item 255", before, 1, none);
    } else {
        add_edit(&behind);
        try_list(row->name, ", between others", before, 2, stopped);
    }
}

/* Four faults at once: a sheet that is refused, a short frame, a list that is refused, and an item that is not there; then one after the other mended. */
static void try_order(void)
{
    static const uint32_t codes[] = {STATION_REFUSED_EDITION, STATION_REFUSED_FRAME_LENGTH, STATION_REFUSED_LIST, STATION_REFUSED_NO_SUCH};
    make_sheet();
    memset(frame, STRANGE, sizeof frame);
    list_length = 0;
    add_row(&stopping[1]);
    add_row(&bad[0]);
    for (size_t mended = 0; mended < sizeof codes / sizeof codes[0]; mended++) {
        station_batch wanted = {codes[mended], 0, 0, 0, 0, 0};
        put(0, 2, mended > 0 ? 1 : 2);
        memcpy(singly_sheet, sheet, sizeof sheet);
        memset(singly_frame, STRANGE, sizeof frame);
        cases++;
        replied(station_edit_list(sheet, LENGTH, frame, mended > 1 ? PIXELS : PIXELS - 1, list, mended > 2 ? list_length - bad[0].length : list_length),
                wanted, "several faults", "");
        expect(memcmp(sheet, singly_sheet, sizeof sheet) == 0, "several faults", "", "the sheet is changed");
        expect(memcmp(frame, singly_frame, sizeof frame) == 0, "several faults", "", "the frame is changed");
    }
}

int main(void)
{
    for (size_t k = 0; k < sizeof good / sizeof good[0]; k++) {
        try_good(&good[k]);
    }
    for (size_t k = 0; k < sizeof bad / sizeof bad[0]; k++) {
        try_row(&bad[k]);
    }
    for (size_t k = 0; k < sizeof stopping / sizeof stopping[0]; k++) {
        try_row(&stopping[k]);
    }
    try_order();
    expect(between > 0, "all cases", "", "no pixel lies between two single rectangles");
    printf("%d cases, %d faults\n", cases, faults);
    return faults != 0;
}
