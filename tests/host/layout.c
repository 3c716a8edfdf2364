/*
 * Calls every export of libstation.a and looks at each field of its reply, on a sheet whose numbers make the fields differ. Then each
 * refusal by its name, with the bytes that must be kept, and slices of length 0. Prints each fault; the last line has the
 * numbers of comparisons and of faults.
 */
#include "station.h"

#include <stdio.h>
#include <string.h>

enum {
    WIDTH = 40,
    HEIGHT = 30,
    PIXELS = WIDTH * HEIGHT,
    PAGE = 13 + PIXELS, /* P5, 40 30 and 255, each with its feed, then the greys */
    FONT_RECORD = STATION_FONT_RECORD(0),
    ITEM_RECORD = STATION_ITEM_RECORD(1, 0),
    ITEM_RECORD_1 = STATION_ITEM_RECORD(1, 1),
    ATLAS = 108,
    MAPPING = 110,
    SLOT_0 = 119,
    SLOT_1 = 125,
    LENGTH = 128
};

static uint8_t sheet[LENGTH];
static uint8_t frame[PIXELS];
static uint8_t output[PAGE + 5];
static int comparisons;
static int faults;

static void same(const char *call, const char *field, long long got, long long expected)
{
    comparisons++;
    if (got != expected) {
        faults++;
        printf("layout: %s: %s is %lld, and %lld is expected\n", call, field, got, expected);
    }
}

static void number_is(const char *call, station_number r, uint32_t code, uint32_t value)
{
    same(call, "code", r.code, code);
    same(call, "value", r.value, value);
}

static void glyph_is(const char *call, station_glyph r, uint32_t code, uint32_t index, uint32_t listed)
{
    same(call, "code", r.code, code);
    same(call, "index", r.index, index);
    same(call, "listed", r.listed, listed);
}

static void position_is(const char *call, station_position r, uint32_t code, int32_t x, int32_t y)
{
    same(call, "code", r.code, code);
    same(call, "x", r.x, x);
    same(call, "y", r.y, y);
}

static void drawn_is(const char *call, station_drawn r, uint32_t code, int32_t x, int32_t y, uint32_t replaced)
{
    same(call, "code", r.code, code);
    same(call, "x", r.x, x);
    same(call, "y", r.y, y);
    same(call, "replaced", r.replaced, replaced);
}

static void box_is(const char *call, station_box r, uint32_t code, int32_t left, int32_t top, uint32_t width, uint32_t height)
{
    same(call, "code", r.code, code);
    same(call, "left", r.left, left);
    same(call, "top", r.top, top);
    same(call, "width", r.width, width);
    same(call, "height", r.height, height);
}

static void batch_is(const char *call, station_batch r, uint32_t code, uint32_t made, int32_t left, int32_t top, uint32_t width, uint32_t height)
{
    same(call, "code", r.code, code);
    same(call, "made", r.made, made);
    same(call, "left", r.left, left);
    same(call, "top", r.top, top);
    same(call, "width", r.width, width);
    same(call, "height", r.height, height);
}

static void step_is(const char *call, station_step r, uint32_t code, uint32_t ended, uint32_t character, size_t next)
{
    same(call, "code", r.code, code);
    same(call, "ended", r.ended, ended);
    same(call, "character", r.character, character);
    same(call, "next", (long long)r.next, (long long)next);
}

static void put(int at, int size, uint32_t value)
{
    for (int k = 0; k < size; k++) {
        sheet[at + k] = (uint8_t)(value >> (8 * k));
    }
}

static void put_item(int record, int x, int y, int slot, int slot_size, const char *text)
{
    static const uint8_t style[STATION_STYLE_LENGTH] = {1, 9, 0, 0, 2, 7, 0, 0};
    put(record + STATION_ITEM_AT_X, 2, (uint32_t)x);
    put(record + STATION_ITEM_AT_Y, 2, (uint32_t)y);
    put(record + STATION_ITEM_AT_SLOT, 4, (uint32_t)slot);
    put(record + STATION_ITEM_AT_SLOT_SIZE, 2, (uint32_t)slot_size);
    put(record + STATION_ITEM_AT_TEXT_LENGTH, 2, (uint32_t)strlen(text));
    memcpy(sheet + record + STATION_ITEM_AT_STYLE, style, sizeof style);
    put(record + STATION_ITEM_AT_BASELINE, 1, 3); /* alphabetic */
    memcpy(sheet + slot, text, strlen(text));
}

/*
 * The sample font of docs/SHEET.md with a mapping of A to H and the replacement index 513, AB in item 0 at (-7, 11), and A in item 1. Both are
 * underlined, so that their measured boxes are 4 high.
 */
static void make_sheet(void)
{
    static const uint8_t cell[] = {2, 2, 1, 1, 0, 1, 3, 1};
    memset(sheet, 0, sizeof sheet);
    put(0, 2, 1);
    put(STATION_AT_WIDTH, 2, WIDTH);
    put(STATION_AT_HEIGHT, 2, HEIGHT);
    put(STATION_AT_PAPER, 1, 200);
    put(STATION_AT_FONTS, 1, 1);
    put(STATION_AT_ITEMS, 2, 2);
    put(12, 4, FONT_RECORD);
    put(16, 4, ITEM_RECORD);
    put(STATION_AT_LENGTH, 4, LENGTH);
    put(FONT_RECORD, 4, ATLAS);
    put(FONT_RECORD + 4, 4, MAPPING - ATLAS);
    put(FONT_RECORD + 8, 4, MAPPING);
    put(FONT_RECORD + 12, 2, SLOT_0 - MAPPING);
    put(FONT_RECORD + 14, 2, 513);
    put(FONT_RECORD + 16, 2, 4);
    memcpy(sheet + FONT_RECORD + 18, cell, sizeof cell);
    put(ATLAS, 2, 0x6090);
    memcpy(sheet + MAPPING, "\0ABCDEFGH", SLOT_0 - MAPPING);
    put_item(ITEM_RECORD, -7, 11, SLOT_0, SLOT_1 - SLOT_0, "AB");
    put_item(ITEM_RECORD_1, 30, 20, SLOT_1, LENGTH - SLOT_1, "A");
}

static int16_t stored(int at)
{
    return (int16_t)(sheet[at] | sheet[at + 1] << 8);
}

static void try_questions(void)
{
    make_sheet();
    same("station_check", "code", station_check(sheet, LENGTH), STATION_OK);
    glyph_is("station_index of H", station_index(sheet, LENGTH, 0, 'H'), 0, 7, 1);
    glyph_is("station_index of Z", station_index(sheet, LENGTH, 0, 'Z'), 0, 513, 0);
    glyph_is("station_index of a surrogate", station_index(sheet, LENGTH, 0, 0xD800), 0, 513, 0);
    glyph_is("station_index of 110000", station_index(sheet, LENGTH, 0, 0x110000), 0, 513, 0);
    number_is("station_contains H", station_contains(sheet, LENGTH, 0, 'H'), 0, 1);
    number_is("station_contains Z", station_contains(sheet, LENGTH, 0, 'Z'), 0, 0);
    box_is("station_bounding_box of 0", station_bounding_box(sheet, LENGTH, 0), 0, -7, 10, 5, 4);
    box_is("station_bounding_box of 1", station_bounding_box(sheet, LENGTH, 1), 0, 30, 19, 2, 4);
    put(FONT_RECORD + 14, 2, 7);
    glyph_is("station_index of H, the replacement", station_index(sheet, LENGTH, 0, 'H'), 0, 7, 1);
    glyph_is("station_index of Z, replaced by H", station_index(sheet, LENGTH, 0, 'Z'), 0, 7, 0);
}

static void try_walker(void)
{
    static const uint8_t line[] = {'a', 0xC3, 0xA9, 0xFF};
    size_t far = (size_t)-1 - 4;
    step_is("station_walk at 1", station_walk(line, 4, 1), 0, 0, 0xE9, 3);
    step_is("station_walk at the end", station_walk(line, 3, 3), 0, 1, 0, 3);
    step_is("station_walk far past the end", station_walk(line, 4, far), 0, 1, 0, far);
    step_is("station_walk at an ill-formed byte", station_walk(line, 4, 3), STATION_REFUSED_TEXT_ILL_FORMED, 0, 0, 0);
}

/* The header's loop: how many characters it meets, and the reply at which it ends. It also ends on an ill-formed line. */
static void loop_is(const char *name, const char *text, size_t length, long long characters, uint32_t code, uint32_t ended)
{
    const uint8_t *line = (const uint8_t *)text;
    long long met = 0;
    station_step step = station_walk(line, length, 0);
    while (step.code == STATION_OK && step.ended == 0 && met < 1000) {
        met++;
        step = station_walk(line, length, step.next);
    }
    same(name, "characters", met, characters);
    same(name, "code", step.code, code);
    same(name, "ended", step.ended, ended);
}

static void try_walker_loop(void)
{
    loop_is("walk of a line", "2.3\xC2\xB0", 5, 4, STATION_OK, 1);
    loop_is("walk of no line", "", 0, 0, STATION_OK, 1);
    loop_is("walk of 00, 0A and 0D", "\0\n\r", 3, 3, STATION_OK, 1);
    loop_is("walk of a line that is cut", "ab\xE2\x82", 4, 2, STATION_REFUSED_TEXT_ILL_FORMED, 0);
    loop_is("walk of an ill-formed line", "\xFFz", 2, 0, STATION_REFUSED_TEXT_ILL_FORMED, 0);
}

static void try_drawing(void)
{
    make_sheet();
    memset(frame, 1, sizeof frame);
    same("station_draw", "code", station_draw(sheet, LENGTH, frame, PIXELS), 0);
    same("station_draw", "corner", frame[0], 200);
    same("station_draw", "pixel (30, 19)", frame[19 * WIDTH + 30], 9);
    same("station_draw", "pixel (31, 22)", frame[22 * WIDTH + 31], 7);
    memset(frame, 1, sizeof frame);
    drawn_is("station_draw_item 0", station_draw_item(sheet, LENGTH, frame, PIXELS, 0), 0, -2, 11, 0);
    same("station_draw_item 0", "corner", frame[0], 1);
    drawn_is("station_draw_item 1", station_draw_item(sheet, LENGTH, frame, PIXELS, 1), 0, 32, 20, 0);
    same("station_draw_item 1", "pixel (30, 19)", frame[19 * WIDTH + 30], 9);
    position_is("station_draw_whitespace", station_draw_whitespace(sheet, LENGTH, frame, PIXELS, 0, 300), 0, 293, 11);
    same("station_draw_whitespace", "pixel (39, 13)", frame[13 * WIDTH + 39], 7);
}

/* Gives item 0 a text, before its characters are counted. */
static void set_text(const char *text)
{
    same(text, "code of the edit", station_set_text_on_sheet(sheet, LENGTH, 0, (const uint8_t *)text, strlen(text)).code, STATION_OK);
}

static void replaced_is(const char *text, const char *field, uint32_t replaced)
{
    station_drawn r = station_draw_item(sheet, LENGTH, frame, PIXELS, 0);
    same(text, "code of the drawing", r.code, STATION_OK);
    same(text, field, r.replaced, replaced);
}

/* The mapping lists A to H. Only A and B have a glyph, and the replacement has none. */
static void try_replaced(void)
{
    static const struct {
        const char *text;
        uint32_t replaced, unmapped; /* with this mapping, and with an empty one */
    } texts[] = {
        {"", 0, 0},
        {"ABBA", 0, 4},
        {"HHH", 0, 3},
        {"AZBZ", 2, 4},
        {"\xC2\xB0Z\xC2\xB0", 3, 3},
        {"Z\r", 1, 1},
        {"A\r\r", 1, 2},
        {"A\rB", 1, 3},
        {"\r\n\r\n\r", 0, 0},
        {"Z\n\nZ\r\n", 2, 2},
    };
    for (size_t k = 0; k < sizeof texts / sizeof texts[0]; k++) {
        const char *text = texts[k].text;
        make_sheet();
        set_text(text);
        replaced_is(text, "replaced", texts[k].replaced);
        memset(sheet + ITEM_RECORD + STATION_ITEM_AT_STYLE, 0, STATION_STYLE_LENGTH);
        replaced_is(text, "replaced, unpainted", texts[k].replaced);
        make_sheet();
        set_text(text);
        put(ITEM_RECORD + STATION_ITEM_AT_X, 2, 32767);
        put(ITEM_RECORD + STATION_ITEM_AT_Y, 2, 0x8000);
        replaced_is(text, "replaced, off the frame", texts[k].replaced);
        make_sheet();
        put(FONT_RECORD + 4, 4, SLOT_0 - ATLAS); /* the atlas takes the mapping's bytes */
        put(FONT_RECORD + 8, 4, SLOT_0);
        put(FONT_RECORD + 12, 2, 0);
        set_text(text);
        replaced_is(text, "replaced, empty mapping", texts[k].unmapped);
    }
    make_sheet();
    put(FONT_RECORD + 14, 2, 1);
    set_text("BBZ");
    replaced_is("BBZ", "replaced, B the replacement", 1);
}

static void try_page(void)
{
    make_sheet();
    for (int k = 0; k < PIXELS; k++) {
        frame[k] = (uint8_t)(k % 251);
    }
    memset(output, 0xEE, sizeof output);
    number_is("station_write_page", station_write_page(sheet, LENGTH, frame, PIXELS, output, sizeof output), 0, PAGE);
    same("station_write_page", "head", memcmp(output, "P5\n40 30\n255\n", PAGE - PIXELS), 0);
    same("station_write_page", "greys", memcmp(output + PAGE - PIXELS, frame, PIXELS), 0);
    same("station_write_page", "byte past the page", output[PAGE], 0xEE);
}

/* A BDF file of one glyph, two pixels in the upper row of a cell of 3 by 2, and its font: record, atlas and mapping. */
static const char bdf[] = "STARTFONT 2.1\nFONT f\nSIZE 8 75 75\nFONTBOUNDINGBOX 3 2 0 -1\nCHARS 1\nSTARTCHAR A\nENCODING 65\n"
                          "SWIDTH 500 0\nDWIDTH 3 0\nBBX 2 1 1 0\nBITMAP\nFF\nENDCHAR\nENDFONT\n";
static const uint8_t bdf_font[] = {28, 0, 0, 0, 12, 0, 0, 0, 40, 0, 0, 0, 1,    0, 0, 0, 48, 0, 3, 2, 0,
                                   0,  0, 1, 3, 1, 0, 0, 0x60, 0, 0, 0, 0, 0, 0, 0, 0, 0, 0,  0, 'A'};

static station_number read_bdf(const char *text, size_t output_length)
{
    return station_read_bdf((const uint8_t *)text, strlen(text), output, output_length);
}

static void try_bdf(void)
{
    char changed[sizeof bdf];
    memset(output, 0xEE, sizeof output);
    number_is("station_read_bdf, short output", read_bdf(bdf, sizeof bdf_font - 1), STATION_REFUSED_OUTPUT_TOO_SHORT, 0);
    number_is("station_read_bdf, no text", read_bdf("", sizeof output), STATION_REFUSED_BDF_LINE, 0);
    strcpy(changed, bdf);
    strstr(changed, "BBX 2")[4] = '3';
    number_is("station_read_bdf, wide glyph", read_bdf(changed, sizeof output), STATION_REFUSED_BDF_LIMIT, 0);
    strcpy(changed, bdf);
    memcpy(strstr(changed, "65"), "-1", 2);
    number_is("station_read_bdf, no character", read_bdf(changed, 0), STATION_REFUSED_BDF_ENCODING, 0);
    for (size_t k = 0; k < sizeof output; k++) {
        same("station_read_bdf, refused", "output", output[k], 0xEE);
    }
    number_is("station_read_bdf", read_bdf(bdf, sizeof bdf_font), 0, sizeof bdf_font);
    same("station_read_bdf", "font", memcmp(output, bdf_font, sizeof bdf_font), 0);
    same("station_read_bdf", "byte past the font", output[sizeof bdf_font], 0xEE);
}

/* From (20, 3) to (9, 17), so that the rectangle's numbers differ; then a longer text, and a style without text grey. */
static void try_edits(int with_frame)
{
    static const uint8_t style[STATION_STYLE_LENGTH] = {0, 1, 0, 2, 2, 3, 0, 4};
    static const uint8_t text[] = {'A', 'B', 'B', 'A'};
    make_sheet();
    put(ITEM_RECORD + STATION_ITEM_AT_X, 2, 20);
    put(ITEM_RECORD + STATION_ITEM_AT_Y, 2, 3);
    same("station_draw", "code", station_draw(sheet, LENGTH, frame, PIXELS), 0);
    if (with_frame) {
        box_is("station_set_place", station_set_place(sheet, LENGTH, frame, PIXELS, 0, 9, 17), 0, 9, 2, 16, 18);
        same("station_set_place", "pixel (20, 2)", frame[2 * WIDTH + 20], 200);
        same("station_set_place", "pixel (9, 16)", frame[16 * WIDTH + 9], 9);
    } else {
        box_is("station_set_place_on_sheet", station_set_place_on_sheet(sheet, LENGTH, 0, 9, 17), 0, 9, 2, 16, 18);
    }
    same("new place", "x", stored(ITEM_RECORD + STATION_ITEM_AT_X), 9);
    same("new place", "y", stored(ITEM_RECORD + STATION_ITEM_AT_Y), 17);
    if (with_frame) {
        box_is("station_set_text", station_set_text(sheet, LENGTH, frame, PIXELS, 0, text, sizeof text), 0, 9, 16, 11, 4);
        same("station_set_text", "pixel (18, 16)", frame[16 * WIDTH + 18], 9);
    } else {
        box_is("station_set_text_on_sheet", station_set_text_on_sheet(sheet, LENGTH, 0, text, sizeof text), 0, 9, 16, 11, 4);
    }
    same("new text", "length", stored(ITEM_RECORD + STATION_ITEM_AT_TEXT_LENGTH), sizeof text);
    same("new text", "bytes", memcmp(sheet + SLOT_0, "ABBA\0", SLOT_1 - SLOT_0), 0);
    if (with_frame) {
        box_is("station_set_style", station_set_style(sheet, LENGTH, frame, PIXELS, 0, style, sizeof style), 0, 9, 16, 12, 4);
        same("station_set_style", "pixel (20, 19)", frame[19 * WIDTH + 20], 3);
    } else {
        box_is("station_set_style_on_sheet", station_set_style_on_sheet(sheet, LENGTH, 0, style, sizeof style), 0, 9, 16, 12, 4);
    }
    same("new style", "bytes", memcmp(sheet + ITEM_RECORD + STATION_ITEM_AT_STYLE, style, sizeof style), 0);
    same("edited sheet", "code", station_check(sheet, LENGTH), STATION_OK);
}

/* The place and the text of try_edits in one list, so that the reply's numbers differ, then a style of no bytes, which stops it. */
static void try_list(void)
{
    static const uint8_t list[] = {1, 0, 8, 0, 9, 0, 0, 0, 17, 0, 0, 0, 0, 0, 4, 0, 'A', 'B', 'B', 'A', 0, 1, 0, 0, 2, 0, 0, 0};
    make_sheet();
    put(ITEM_RECORD + STATION_ITEM_AT_X, 2, 20);
    put(ITEM_RECORD + STATION_ITEM_AT_Y, 2, 3);
    same("station_draw", "code", station_draw(sheet, LENGTH, frame, PIXELS), 0);
    batch_is("station_edit_list", station_edit_list(sheet, LENGTH, frame, PIXELS, list, sizeof list), STATION_REFUSED_STYLE, 3, 9, 2, 23, 21);
    same("station_edit_list", "x", stored(ITEM_RECORD + STATION_ITEM_AT_X), 9);
    same("station_edit_list", "y", stored(ITEM_RECORD + STATION_ITEM_AT_Y), 17);
    same("station_edit_list", "text", memcmp(sheet + SLOT_0, "ABBA\0", SLOT_1 - SLOT_0), 0);
    same("station_edit_list", "length", stored(ITEM_RECORD_1 + STATION_ITEM_AT_TEXT_LENGTH), 0);
    same("station_edit_list", "pixel (9, 16)", frame[16 * WIDTH + 9], 9);
    same("edited sheet", "code", station_check(sheet, LENGTH), STATION_OK);
}

/* The check's refusals, each by a change of some bytes. */
static void try_check(void)
{
    static const struct {
        int at;
        const char *bytes;
        size_t size;
        uint32_t code;
    } changes[] = {
        {10, "\1", 1, STATION_REFUSED_LENGTH},
        {0, "\2", 1, STATION_REFUSED_EDITION},
        {2, "\0", 1, STATION_REFUSED_FRAME_SIZE},
        {7, "\5", 1, STATION_REFUSED_COUNT},
        {12, "\x19", 1, STATION_REFUSED_LAYOUT},
        {FONT_RECORD + 18, "\x41", 1, STATION_REFUSED_FONT},
        {MAPPING + 8, "\x80", 1, STATION_REFUSED_MAPPING_ILL_FORMED},
        {MAPPING, "\0\xF0\x90\x80\x80\xF0\xA0\x80\x80", 9, STATION_REFUSED_MAPPING_TOO_LONG},
        {ITEM_RECORD + STATION_ITEM_AT_STYLE, "\2", 1, STATION_REFUSED_ITEM},
        {SLOT_0, "\xFF", 1, STATION_REFUSED_TEXT_ILL_FORMED},
    };
    static const uint8_t list[] = {0, 0, 0, 0};
    for (size_t k = 0; k < sizeof changes / sizeof changes[0]; k++) {
        make_sheet();
        memcpy(sheet + changes[k].at, changes[k].bytes, changes[k].size);
        same("station_check of a changed sheet", "code", station_check(sheet, LENGTH), changes[k].code);
        glyph_is("station_index in a changed sheet", station_index(sheet, LENGTH, 0, 'A'), changes[k].code, 0, 0);
        drawn_is("station_draw_item in a changed sheet", station_draw_item(sheet, LENGTH, frame, PIXELS, 0), changes[k].code, 0, 0, 0);
        batch_is("station_edit_list in a changed sheet", station_edit_list(sheet, LENGTH, frame, PIXELS, list, sizeof list), changes[k].code, 0, 0, 0, 0, 0);
    }
}

/* Each call's own refusals. Sheet, frame and output keep every byte. */
static void try_refused_calls(void)
{
    static const uint8_t long_text[] = "ABABABA";
    static const uint8_t bad_text[] = {'A', 0xC3};
    static const uint8_t style[STATION_STYLE_LENGTH] = {1, 0, 2, 0, 0, 0, 0, 0};
    static const uint8_t list[] = {0, 2, 0, 0, 3, 0, 0, 0}; /* an item that is not there, then an unknown kind */
    static uint8_t sheet_before[LENGTH], frame_before[PIXELS], output_before[sizeof output];
    make_sheet();
    memset(frame, 33, sizeof frame);
    memset(output, 44, sizeof output);
    memcpy(sheet_before, sheet, sizeof sheet);
    memcpy(frame_before, frame, sizeof frame);
    memcpy(output_before, output, sizeof output);

    glyph_is("station_index in font 1", station_index(sheet, LENGTH, 1, 'A'), STATION_REFUSED_NO_SUCH, 0, 0);
    number_is("station_contains in font 1", station_contains(sheet, LENGTH, 1, 'A'), STATION_REFUSED_NO_SUCH, 0);
    box_is("station_bounding_box of 2", station_bounding_box(sheet, LENGTH, 2), STATION_REFUSED_NO_SUCH, 0, 0, 0, 0);
    same("station_draw on a short frame", "code", station_draw(sheet, LENGTH, frame, PIXELS - 1), STATION_REFUSED_FRAME_LENGTH);
    drawn_is("station_draw_item on a short frame", station_draw_item(sheet, LENGTH, frame, PIXELS - 1, 0), STATION_REFUSED_FRAME_LENGTH, 0, 0, 0);
    drawn_is("station_draw_item 2", station_draw_item(sheet, LENGTH, frame, PIXELS, 2), STATION_REFUSED_NO_SUCH, 0, 0, 0);
    position_is("station_draw_whitespace of 65,536", station_draw_whitespace(sheet, LENGTH, frame, PIXELS, 0, 65536),
                STATION_REFUSED_WHITESPACE, 0, 0);
    box_is("station_set_text on a short frame", station_set_text(sheet, LENGTH, frame, 0, 0, bad_text, 1), STATION_REFUSED_FRAME_LENGTH, 0, 0, 0, 0);
    box_is("station_set_text of 7 bytes", station_set_text(sheet, LENGTH, frame, PIXELS, 0, long_text, 7),
           STATION_REFUSED_NEW_TEXT_TOO_LONG, 0, 0, 0, 0);
    box_is("station_set_text, cut", station_set_text(sheet, LENGTH, frame, PIXELS, 0, bad_text, 2), STATION_REFUSED_NEW_TEXT_ILL_FORMED, 0, 0, 0, 0);
    box_is("station_set_place, x", station_set_place(sheet, LENGTH, frame, PIXELS, 0, -32769, 0), STATION_REFUSED_PLACE, 0, 0, 0, 0);
    box_is("station_set_place, y", station_set_place(sheet, LENGTH, frame, PIXELS, 0, 0, INT32_MAX), STATION_REFUSED_PLACE, 0, 0, 0, 0);
    box_is("station_set_style, mode", station_set_style(sheet, LENGTH, frame, PIXELS, 0, style, 8), STATION_REFUSED_STYLE, 0, 0, 0, 0);
    box_is("station_set_style of 7 bytes", station_set_style(sheet, LENGTH, frame, PIXELS, 0, style, 7), STATION_REFUSED_STYLE, 0, 0, 0, 0);
    batch_is("station_edit_list on a short frame", station_edit_list(sheet, LENGTH, frame, PIXELS - 1, list, 8), STATION_REFUSED_FRAME_LENGTH, 0, 0, 0, 0, 0);
    batch_is("station_edit_list, kind", station_edit_list(sheet, LENGTH, frame, PIXELS, list, 8), STATION_REFUSED_LIST, 0, 0, 0, 0, 0);
    batch_is("station_edit_list, item", station_edit_list(sheet, LENGTH, frame, PIXELS, list, 4), STATION_REFUSED_NO_SUCH, 0, 0, 0, 0, 0);
    box_is("station_set_text_on_sheet", station_set_text_on_sheet(sheet, LENGTH, 0, long_text, 7), STATION_REFUSED_NEW_TEXT_TOO_LONG, 0, 0, 0, 0);
    box_is("station_set_place_on_sheet", station_set_place_on_sheet(sheet, LENGTH, 0, 32768, 0), STATION_REFUSED_PLACE, 0, 0, 0, 0);
    box_is("station_set_style_on_sheet", station_set_style_on_sheet(sheet, LENGTH, 2, style, 8), STATION_REFUSED_NO_SUCH, 0, 0, 0, 0);
    number_is("station_write_page, short output", station_write_page(sheet, LENGTH, frame, PIXELS, output, PAGE - 1),
              STATION_REFUSED_OUTPUT_TOO_SHORT, 0);

    same("refused calls", "sheet", memcmp(sheet, sheet_before, sizeof sheet), 0);
    same("refused calls", "frame", memcmp(frame, frame_before, sizeof frame), 0);
    same("refused calls", "output", memcmp(output, output_before, sizeof output), 0);
}

/* Every slice with length 0: at some byte, and at NULL, which the header does not promise. */
static void try_empty_slices(uint8_t *none)
{
    make_sheet();
    same("no sheet", "code", station_check(none, 0), STATION_REFUSED_LENGTH);
    glyph_is("no sheet, index", station_index(none, 0, 0, 'A'), STATION_REFUSED_LENGTH, 0, 0);
    number_is("no sheet, contains", station_contains(none, 0, 0, 'A'), STATION_REFUSED_LENGTH, 0);
    box_is("no sheet, bounding box", station_bounding_box(none, 0, 0), STATION_REFUSED_LENGTH, 0, 0, 0, 0);
    same("no sheet and no frame", "code", station_draw(none, 0, none, 0), STATION_REFUSED_LENGTH);
    same("no frame", "code", station_draw(sheet, LENGTH, none, 0), STATION_REFUSED_FRAME_LENGTH);
    drawn_is("no sheet, item", station_draw_item(none, 0, frame, PIXELS, 0), STATION_REFUSED_LENGTH, 0, 0, 0);
    drawn_is("no frame, item", station_draw_item(sheet, LENGTH, none, 0, 0), STATION_REFUSED_FRAME_LENGTH, 0, 0, 0);
    position_is("no frame, whitespace", station_draw_whitespace(sheet, LENGTH, none, 0, 0, 1), STATION_REFUSED_FRAME_LENGTH, 0, 0);
    box_is("no frame, place", station_set_place(sheet, LENGTH, none, 0, 0, 1, 1), STATION_REFUSED_FRAME_LENGTH, 0, 0, 0, 0);
    batch_is("no sheet, list", station_edit_list(none, 0, frame, PIXELS, none, 0), STATION_REFUSED_LENGTH, 0, 0, 0, 0, 0);
    batch_is("no frame, list", station_edit_list(sheet, LENGTH, none, 0, none, 0), STATION_REFUSED_FRAME_LENGTH, 0, 0, 0, 0, 0);
    batch_is("no list", station_edit_list(sheet, LENGTH, frame, PIXELS, none, 0), STATION_OK, 0, 0, 0, 0, 0);
    number_is("no frame, page", station_write_page(sheet, LENGTH, none, 0, output, sizeof output), STATION_REFUSED_FRAME_LENGTH, 0);
    number_is("no output", station_write_page(sheet, LENGTH, frame, PIXELS, none, 0), STATION_REFUSED_OUTPUT_TOO_SHORT, 0);
    box_is("no style", station_set_style(sheet, LENGTH, frame, PIXELS, 0, none, 0), STATION_REFUSED_STYLE, 0, 0, 0, 0);
    box_is("no style on the sheet", station_set_style_on_sheet(sheet, LENGTH, 0, none, 0), STATION_REFUSED_STYLE, 0, 0, 0, 0);
    step_is("no line", station_walk(none, 0, 0), 0, 1, 0, 0);
    number_is("no BDF file", station_read_bdf(none, 0, output, sizeof output), STATION_REFUSED_BDF_LINE, 0);
    number_is("no output for a font", station_read_bdf((const uint8_t *)bdf, sizeof bdf - 1, none, 0), STATION_REFUSED_OUTPUT_TOO_SHORT, 0);
    box_is("empty text", station_set_text(sheet, LENGTH, frame, PIXELS, 1, none, 0), 0, 30, 19, 2, 4);
    same("empty text", "length", stored(ITEM_RECORD_1 + STATION_ITEM_AT_TEXT_LENGTH), 0);
    make_sheet();
    box_is("empty text on the sheet", station_set_text_on_sheet(sheet, LENGTH, 1, none, 0), 0, 30, 19, 2, 4);
    same("empty text on the sheet", "first byte", sheet[SLOT_1], 0);
}

int main(void)
{
    uint8_t some = 0;
    try_questions();
    try_walker();
    try_walker_loop();
    try_drawing();
    try_replaced();
    try_page();
    try_bdf();
    try_edits(1);
    try_edits(0);
    try_list();
    try_check();
    try_refused_calls();
    try_empty_slices(&some);
    try_empty_slices(NULL);
    same("empty slices", "the byte at their pointer", some, 0);
    printf("%d comparisons, %d faults\n", comparisons, faults);
    return faults != 0;
}
