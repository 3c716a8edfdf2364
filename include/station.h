/*
 * The calls of libstation.a: station sheets, checked, drawn and edited. docs/SHEET.md is the paper on what a sheet is and which page it gives.
 *
 * A sheet is a file of fonts, styles and lines of text. A frame is the drawn page in memory: width x height greys, one byte each, row by
 * row, without gaps. Grey 0 is black and 255 white. (0, 0) is the frame's upper left pixel; x grows to the right and y downwards, so that
 * pixel (x, y) is frame[y * width + x]. Fonts and items are numbered from 0, and items are drawn in that order.
 *
 * An item's place (x, y) anchors its first line. By the item's alignment x is the line's first column (left), its middle one (centre) or its
 * last one (right); by its baseline y is the first row of the cells (top), their last (bottom), their middle one, or the font's baseline
 * (alphabetic). Each further line has the same x, and is lower by the line height. A place may lie off the frame.
 *
 * Replies. Each reply has a code: STATION_OK, or the number of a refusal. Every call that takes a sheet checks the whole sheet first, so
 * that it may answer each refusal of station_check; the refusals named with a call are its own, and come after those. docs/REFUSALS.md has
 * the cause of each refusal and what to do. In a refused reply the other fields are 0, and sheet, frame and output keep every byte; a list of
 * edits alone may stop at one that is refused, after others that were made (station_edit_list).
 *
 * Buffers. A slice is a pointer and then its length in bytes.
 * - The pointer leads to at least that many bytes, and the call touches no other byte of the caller's.
 * - Lengths are exact: a sheet's is its length field, a frame's width x height, a style's 8, a list's that of its entries. A larger buffer is
 *   handed over with the length of what it holds, not with its own size. An output alone may be longer than what is written.
 * - A slice that a call writes (its pointer is not const) overlaps no other slice of that call: a new text is not a part of the sheet that
 *   it is stored in. Slices that are only read may overlap. This rule and the true lengths are all that the library trusts its caller with,
 *   and it tests neither: a sheet that is overwritten while it is read is no longer the sheet that was checked, and the call may then read
 *   and write any memory of the program, stop it, or leave any greys.
 * - A slice of length 0 is not read and not written. Its pointer should lead to some byte and not be NULL: the parameter is a reference, and
 *   the compiler of the library may take a reference for non-null. (The archive as it is built today answers the same for NULL and 0 in every
 *   slice; tests/host/layout.c tries it.)
 * - No alignment is needed. No pointer is kept after the call.
 *
 * Threads. The library has no variables, allocates nothing and keeps nothing between two calls. Many threads may read one sheet at the same
 * time, each with its own frame and output. While a call writes a sheet, a frame or an output, no other thread reads or writes it.
 *
 * Stack. Each call needs less than 4 KiB of stack, memset included: tests/host/stack.c measures it, and tests/host/stack.py adds it up from the
 * machine code. What a dynamic linker takes when it first looks for memset is not counted.
 *
 * The archive is for x86-64 Linux. Of the C library it needs memset alone.
 */
#ifndef STATION_H
#define STATION_H

#include <stddef.h>
#include <stdint.h>

#ifdef __cplusplus
extern "C" {
#endif

/*
 * The version of this header and of the archive that is built beside it. MAJOR rises when a host may have to change: a declaration or a name is
 * another, or a reply means another thing. MINOR rises when something is added, or when a reply that means the same has other numbers, as the
 * rectangles of edits have since 2.1.0; PATCH when no declaration and no reply changes. What a sheet of edition 1 means, and so its page, is the
 * same in every version; another meaning would be another edition.
 */
#define STATION_VERSION_MAJOR 2
#define STATION_VERSION_MINOR 2
#define STATION_VERSION_PATCH 0
#define STATION_VERSION "2.2.0"

/* The most bytes that a sheet, a frame, a page, a slot and with it a text can have; a style has always as many. */
#define STATION_MOST_SHEET 65536
#define STATION_MOST_FRAME 65536
#define STATION_MOST_PAGE 65551
#define STATION_MOST_SLOT 256
#define STATION_STYLE_LENGTH 8

/*
 * Where a sheet that station_check accepts has its numbers: offsets of bytes, each number low byte first.
 *
 * The header: the frame's width and height (2 bytes each), the paper's grey (1), the numbers of fonts (1) and items (2), the sheet's length (4).
 */
#define STATION_AT_WIDTH 2
#define STATION_AT_HEIGHT 4
#define STATION_AT_PAPER 6
#define STATION_AT_FONTS 7
#define STATION_AT_ITEMS 8
#define STATION_AT_LENGTH 20

/* The records of a font and of an item, 28 bytes each; fonts is the byte at STATION_AT_FONTS. */
#define STATION_FONT_RECORD(font) (24 + 28 * (size_t)(font))
#define STATION_ITEM_RECORD(fonts, item) (24 + 28 * ((size_t)(fonts) + (size_t)(item)))

/*
 * In an item's record: x and y (2 bytes each, signed); the slot's offset in the sheet (4) and its size (2); the text's length (2), the text being
 * the first bytes of the slot and the others 0; the font's number (1); the style (8 bytes, as in station_set_style); the codes of alignment
 * (1: 0 left, 1 centre, 2 right), baseline (1: 0 top, 1 bottom, 2 middle, 3 alphabetic) and height kind (1: 0 pixels, 1 percent of the cell's
 * height), and the line height (2). The three edits write x and y, the text and its length, and the style; nothing else ever changes.
 */
#define STATION_ITEM_AT_X 0
#define STATION_ITEM_AT_Y 2
#define STATION_ITEM_AT_SLOT 4
#define STATION_ITEM_AT_SLOT_SIZE 8
#define STATION_ITEM_AT_TEXT_LENGTH 10
#define STATION_ITEM_AT_FONT 12
#define STATION_ITEM_AT_STYLE 13
#define STATION_ITEM_AT_ALIGNMENT 21
#define STATION_ITEM_AT_BASELINE 22
#define STATION_ITEM_AT_HEIGHT_KIND 23
#define STATION_ITEM_AT_HEIGHT 24

/* The kinds of a list's entries, and how many bytes an entry has before its data: kind (1), item (1), and the number of the data's bytes (2). */
#define STATION_EDIT_TEXT 0
#define STATION_EDIT_PLACE 1
#define STATION_EDIT_STYLE 2
#define STATION_ENTRY_HEAD 4

/* The codes. docs/REFUSALS.md has the cause of each. */
enum station_code {
    STATION_OK = 0,
    STATION_REFUSED_LENGTH = 1,
    STATION_REFUSED_EDITION = 2,
    STATION_REFUSED_FRAME_SIZE = 3,
    STATION_REFUSED_COUNT = 4,
    STATION_REFUSED_LAYOUT = 5,
    STATION_REFUSED_FONT = 6,
    STATION_REFUSED_MAPPING_ILL_FORMED = 7,
    STATION_REFUSED_MAPPING_TOO_LONG = 8,
    STATION_REFUSED_ITEM = 9,
    STATION_REFUSED_TEXT_ILL_FORMED = 10,
    STATION_REFUSED_FRAME_LENGTH = 11,
    STATION_REFUSED_NO_SUCH = 12,
    STATION_REFUSED_NEW_TEXT_TOO_LONG = 13,
    STATION_REFUSED_NEW_TEXT_ILL_FORMED = 14,
    STATION_REFUSED_PLACE = 15,
    STATION_REFUSED_STYLE = 16,
    STATION_REFUSED_OUTPUT_TOO_SHORT = 17,
    STATION_REFUSED_WHITESPACE = 18,
    STATION_REFUSED_BDF_LINE = 19,
    STATION_REFUSED_BDF_LIMIT = 20,
    STATION_REFUSED_BDF_ENCODING = 21,
    STATION_REFUSED_LIST = 22
};

/* A code and a value: yes or no as 1 or 0, or a length. */
typedef struct {
    uint32_t code;
    uint32_t value;
} station_number;

/* A code and a character's glyph in a font: its index, and whether the mapping lists the character, as 1 or 0. */
typedef struct {
    uint32_t code;
    uint32_t index;
    uint32_t listed;
} station_glyph;

/* A code and a position on the frame, which may lie off it. */
typedef struct {
    uint32_t code;
    int32_t x;
    int32_t y;
} station_position;

/* A code, a position on the frame, which may lie off it, and how many characters the font's replacement stood in for. */
typedef struct {
    uint32_t code;
    int32_t x;
    int32_t y;
    uint32_t replaced;
} station_drawn;

/* A code and a rectangle: left <= column < left + width, top <= row < top + height. */
typedef struct {
    uint32_t code;
    int32_t left;
    int32_t top;
    uint32_t width;
    uint32_t height;
} station_box;

/* A code, how many edits of a list were made, and a rectangle as in station_box. */
typedef struct {
    uint32_t code;
    uint32_t made;
    int32_t left;
    int32_t top;
    uint32_t width;
    uint32_t height;
} station_batch;

/* A step of the walker: at the line's end ended is 1 and next the offset as given, otherwise ended is 0 and the fields are the character and
 * the offset of the next. */
typedef struct {
    uint32_t code;
    uint32_t ended;
    uint32_t character;
    size_t next;
} station_step;

/* ---- the sheet ---- */

/* STATION_OK for a sheet that is accepted, or its first refusal: STATION_REFUSED_LENGTH to STATION_REFUSED_TEXT_ILL_FORMED. */
uint32_t station_check(const uint8_t *sheet, size_t sheet_length);

/*
 * index: that of a character's glyph in a font; the font's replacement index for a character that its mapping does not list, and for a
 * number that is no character. It may lie past the atlas; nothing is drawn for it then. listed: 1 if the mapping lists the character, else 0;
 * a listed character may have the replacement's index, and listed is 1 for it.
 * Refusals: STATION_REFUSED_NO_SUCH for the font.
 */
station_glyph station_index(const uint8_t *sheet, size_t sheet_length, uint32_t font, uint32_t character);

/*
 * value: 1 if a font's mapping lists a character, else 0; 0 for a number that is no character.
 * Refusals: STATION_REFUSED_NO_SUCH for the font.
 */
station_number station_contains(const uint8_t *sheet, size_t sheet_length, uint32_t font, uint32_t character);

/*
 * The measured box of an item, not cut to the frame; for an item without a nonempty line, width and height 0 at the item's position.
 * Refusals: STATION_REFUSED_NO_SUCH.
 */
station_box station_bounding_box(const uint8_t *sheet, size_t sheet_length, uint32_t item);

/* ---- drawing ---- */

/*
 * Draws the page: all paper, then the items in number order. The frame's greys before the call do not matter.
 * Refusals: STATION_REFUSED_FRAME_LENGTH.
 */
uint32_t station_draw(const uint8_t *sheet, size_t sheet_length, uint8_t *frame, size_t frame_length);

/*
 * Draws one item over what the frame holds. x and y: the next position, behind the text's last line. replaced: how many characters of its
 * lines the font's mapping does not list, a repeat each time; the one 0D that is dropped at a line's end does not count. It is the same
 * where nothing is painted, and where the item lies off the frame.
 *
 * A line in two runs. From a sheet, a frame of its size with any greys, and an item, the two texts t and u may be drawn one after the other:
 *
 *     station_set_text_on_sheet with t, station_draw_item: the first reply
 *     station_set_place_on_sheet with the first reply's x and y, station_set_text_on_sheet with u, station_draw_item: the second reply
 *
 * or, from the same sheet and the same frame, joined: station_set_text_on_sheet with t followed by u, station_draw_item. It is proved (the theorem
 * strings_joined; the names are those of its statement in docs/TRUST.md) that if
 *
 *     drawable                                  the sheet is accepted, the frame has its size, and the item is there,
 *     spacing_zero, aligned_left                the item's font has the spacing 0, and the item's alignment is left,
 *     first_one_line, second_one_line           t and u have no byte 0A and no byte 0D,
 *     first_well_formed, second_well_formed     each is UTF-8 by itself, so that no character is cut in two,
 *     joined_fits_slot                          t followed by u fits the item's slot, and
 *     second_x_in_range, second_y_in_range      the first reply's x and y are in -32768 to 32767,
 *
 * then, in every style and baseline and wherever the frame ends,
 *
 *     first_set, first_drawn, place_set, second_set, second_drawn, joined_set, joined_drawn      no code of these is other than STATION_OK,
 *     same_frame                                the frame of the two runs and the joined one have the same greys,
 *     same_x, same_y                            the second reply and the joined one have the same x and y, and
 *     replaced_adds_up                          replaced of the first reply and of the second add up to that of the joined one.
 *
 * Refusals: STATION_REFUSED_FRAME_LENGTH, STATION_REFUSED_NO_SUCH.
 */
station_drawn station_draw_item(const uint8_t *sheet, size_t sheet_length, uint8_t *frame, size_t frame_length, uint32_t item);

/*
 * Draws whitespace of a width in pixels at an item's place, in its style and baseline: background and decorations. The reply is the next
 * position.
 *
 * Two widths v and w, the second after station_set_place_on_sheet with the first reply's x and y, are the width v + w on the sheet and the frame as
 * they were at first. It is proved (widths_joined, in docs/TRUST.md) that if
 *
 *     drawable                                  the sheet is accepted, the frame has its size, and the item is there,
 *     widths_add_up                             v + w is at most 65535, and
 *     second_x_in_range, second_y_in_range      the first reply's x and y are in -32768 to 32767,
 *
 * then, whatever the font's spacing and the item's text, alignment, style and baseline,
 *
 *     first_drawn, place_set, second_drawn, joined_drawn      no code of these is other than STATION_OK,
 *     same_frame                                the frame of the two widths and the joined one have the same greys, and
 *     same_x, same_y                            the second reply and the joined one have the same x and y.
 *
 * Refusals: STATION_REFUSED_FRAME_LENGTH, STATION_REFUSED_NO_SUCH, STATION_REFUSED_WHITESPACE.
 */
station_position station_draw_whitespace(const uint8_t *sheet, size_t sheet_length, uint8_t *frame, size_t frame_length, uint32_t item,
                                         uint32_t width);

/*
 * Writes the frame as a Netpbm file (P5) to the head of the output. value: the page's length; the output's bytes past it are kept. The
 * frame is taken as it is, and not drawn.
 * Refusals: STATION_REFUSED_FRAME_LENGTH, STATION_REFUSED_OUTPUT_TOO_SHORT.
 */
station_number station_write_page(const uint8_t *sheet, size_t sheet_length, const uint8_t *frame, size_t frame_length, uint8_t *output,
                                  size_t output_length);

/* ---- edits with a frame ----
 *
 * Each changes one item in the sheet and repaints the damage rectangle, which it replies: the smallest that holds the item's ink before
 * and after, cut to the frame; all 0 if nothing of it is on the frame. If the frame held the drawing of the sheet, it now holds that of the
 * changed sheet. Pixels outside the rectangle keep their grey.
 *
 * The ink of a line is as wide as the line and has the rows that its style paints, and those between them: the characters', if a text or
 * background grey is set, and each decoration's that is drawn. An item that has no such row before the edit and none after it replies all 0,
 * and no pixel is painted.
 */

/*
 * Gives an item a new text, in UTF-8 and without an ending 0; line feeds divide it into lines.
 * Refusals: STATION_REFUSED_FRAME_LENGTH, STATION_REFUSED_NO_SUCH, STATION_REFUSED_NEW_TEXT_TOO_LONG, STATION_REFUSED_NEW_TEXT_ILL_FORMED.
 */
station_box station_set_text(uint8_t *sheet, size_t sheet_length, uint8_t *frame, size_t frame_length, uint32_t item, const uint8_t *text,
                             size_t text_length);

/*
 * Gives an item a new place; it may lie off the frame.
 * Refusals: STATION_REFUSED_FRAME_LENGTH, STATION_REFUSED_NO_SUCH, STATION_REFUSED_PLACE.
 */
station_box station_set_place(uint8_t *sheet, size_t sheet_length, uint8_t *frame, size_t frame_length, uint32_t item, int32_t x, int32_t y);

/*
 * Gives an item a new style, of 8 bytes: text mode and grey, background mode and grey (mode 0 none, 1 set), underline mode and grey,
 * strikethrough mode and grey (mode 0 none, 1 text colour, 2 own grey).
 * Refusals: STATION_REFUSED_FRAME_LENGTH, STATION_REFUSED_NO_SUCH, STATION_REFUSED_STYLE.
 */
station_box station_set_style(uint8_t *sheet, size_t sheet_length, uint8_t *frame, size_t frame_length, uint32_t item, const uint8_t *style,
                              size_t style_length);

/*
 * Makes a list of edits in one call, in order, each as one of the three calls above makes it. The list is entries one after another, without
 * a gap: the edit's kind (1 byte: STATION_EDIT_TEXT, STATION_EDIT_PLACE or STATION_EDIT_STYLE), the item's number (1), the number of the
 * data's bytes (2, low byte first) and the data: the text, the place's x and y (4 bytes each, signed, low byte first), or the style's 8 bytes.
 *
 * The first edit that is refused stops the list: the edits before it stand, and those behind it are not made. code: the number of that
 * refusal, or STATION_OK. made: how many edits were made. The rectangle: the smallest that holds the rectangles of the edits made, all 0 if
 * none of them painted. So in this reply the other fields need not be 0 where the code is not. Sheet and frame are as after the same calls,
 * made one by one up to there: a pixel that no single edit repaints keeps its grey, also inside the rectangle. An empty list is good, and
 * changes nothing. The sheet is checked once.
 *
 * Before any edit the whole list is tested: STATION_REFUSED_LIST if the entries do not fill it exactly, or one has another kind, or a place
 * has not 8 bytes. At this refusal and those before it made is 0, and nothing changes; those after it are the edits' own.
 * Refusals: STATION_REFUSED_FRAME_LENGTH, STATION_REFUSED_LIST, STATION_REFUSED_NO_SUCH, STATION_REFUSED_NEW_TEXT_TOO_LONG,
 * STATION_REFUSED_NEW_TEXT_ILL_FORMED, STATION_REFUSED_PLACE, STATION_REFUSED_STYLE.
 */
station_batch station_edit_list(uint8_t *sheet, size_t sheet_length, uint8_t *frame, size_t frame_length, const uint8_t *list,
                                size_t list_length);

/* ---- edits on the sheet alone ----
 *
 * The same three, with the same reply and without a frame: the refusals are the same but for STATION_REFUSED_FRAME_LENGTH.
 */

/* Refusals: STATION_REFUSED_NO_SUCH, STATION_REFUSED_NEW_TEXT_TOO_LONG, STATION_REFUSED_NEW_TEXT_ILL_FORMED. */
station_box station_set_text_on_sheet(uint8_t *sheet, size_t sheet_length, uint32_t item, const uint8_t *text, size_t text_length);

/* Refusals: STATION_REFUSED_NO_SUCH, STATION_REFUSED_PLACE. */
station_box station_set_place_on_sheet(uint8_t *sheet, size_t sheet_length, uint32_t item, int32_t x, int32_t y);

/* Refusals: STATION_REFUSED_NO_SUCH, STATION_REFUSED_STYLE. */
station_box station_set_style_on_sheet(uint8_t *sheet, size_t sheet_length, uint32_t item, const uint8_t *style, size_t style_length);

/* ---- a font file ---- */

/*
 * Reads a font in the Glyph Bitmap Distribution Format 2.1, without a sheet, and writes it to the head of the output: a font record of 28 bytes,
 * whose offsets count from its own first byte, then its atlas and its mapping. value: the font's length; the output's bytes past it are kept.
 * Refusals: STATION_REFUSED_BDF_LINE, STATION_REFUSED_BDF_LIMIT and STATION_REFUSED_BDF_ENCODING, by the first line at fault; then
 * STATION_REFUSED_OUTPUT_TOO_SHORT; and none of station_check.
 */
station_number station_read_bdf(const uint8_t *file, size_t file_length, uint8_t *output, size_t output_length);

/* ---- a line of text ---- */

/*
 * One step of a walker over a line, without a sheet. Start with offset 0 and go on with next, until code is not 0 or ended is 1:
 *
 *     station_step step = station_walk(line, line_length, 0);
 *     while (step.code == STATION_OK && step.ended == 0) {
 *         (step.character is the next character)
 *         step = station_walk(line, line_length, step.next);
 *     }
 *
 * An ill-formed sequence ends the walk: its reply has next 0, which would start again. At or past the line's end the reply has ended 1,
 * character 0 and next as the offset was given. Line feeds and zero bytes are ordinary characters here.
 * Refusals: STATION_REFUSED_TEXT_ILL_FORMED, and none of station_check.
 */
station_step station_walk(const uint8_t *line, size_t line_length, size_t offset);

#ifdef __cplusplus
}
#endif

#endif
