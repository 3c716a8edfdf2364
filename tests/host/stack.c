/*
 * Measures the stack that each call needs: the call runs on a stack of its own that is filled with a pattern, and the lowest byte that it
 * changed tells how deep it went. Standard input has sheets as for check.c, and BDF files; each is asked every call, with right and with wrong
 * arguments.
 * Prints the most bytes for each call. The exit status is 1 if one went deeper than include/station.h promises.
 */
#include "station.h"

#include <stdio.h>
#include <string.h>
#include <ucontext.h>

enum { PROMISED = 4096, STACK = 65536, PAINTED = 16384, PATTERN = 0xA5, CALLS = 17, LIST = 64 };

static uint8_t sheet[2 * STATION_MOST_SHEET], copy[2 * STATION_MOST_SHEET];
static uint8_t frame[STATION_MOST_FRAME], output[STATION_MOST_PAGE];
static uint8_t stack[STACK];
static uint8_t list[LIST];

/* A call's arguments. Each call takes what it needs of them. */
static struct {
    size_t sheet_length, frame_length, output_length, data_length, list_length, offset;
    uint32_t number, character;
    int32_t x, y;
    const uint8_t *data;
} given;

static void call_none(void) {}
static void call_check(void) { station_check(copy, given.sheet_length); }
static void call_index(void) { station_index(copy, given.sheet_length, given.number, given.character); }
static void call_contains(void) { station_contains(copy, given.sheet_length, given.number, given.character); }
static void call_bounding_box(void) { station_bounding_box(copy, given.sheet_length, given.number); }
static void call_draw(void) { station_draw(copy, given.sheet_length, frame, given.frame_length); }
static void call_draw_item(void) { station_draw_item(copy, given.sheet_length, frame, given.frame_length, given.number); }
static void call_whitespace(void)
{
    station_draw_whitespace(copy, given.sheet_length, frame, given.frame_length, given.number, given.character);
}
static void call_write_page(void) { station_write_page(copy, given.sheet_length, frame, given.frame_length, output, given.output_length); }
static void call_set_text(void)
{
    station_set_text(copy, given.sheet_length, frame, given.frame_length, given.number, given.data, given.data_length);
}
static void call_set_place(void) { station_set_place(copy, given.sheet_length, frame, given.frame_length, given.number, given.x, given.y); }
static void call_set_style(void)
{
    station_set_style(copy, given.sheet_length, frame, given.frame_length, given.number, given.data, given.data_length);
}
static void call_edit_list(void) { station_edit_list(copy, given.sheet_length, frame, given.frame_length, list, given.list_length); }
static void call_text_on_sheet(void) { station_set_text_on_sheet(copy, given.sheet_length, given.number, given.data, given.data_length); }
static void call_place_on_sheet(void) { station_set_place_on_sheet(copy, given.sheet_length, given.number, given.x, given.y); }
static void call_style_on_sheet(void) { station_set_style_on_sheet(copy, given.sheet_length, given.number, given.data, given.data_length); }
static void call_walk(void) { station_walk(copy, given.sheet_length, given.offset); }
static void call_read_bdf(void) { station_read_bdf(copy, given.sheet_length, output, given.output_length); }

static const struct {
    const char *name;
    void (*run)(void);
} calls[CALLS] = {
    {"station_check", call_check},
    {"station_index", call_index},
    {"station_contains", call_contains},
    {"station_bounding_box", call_bounding_box},
    {"station_draw", call_draw},
    {"station_draw_item", call_draw_item},
    {"station_draw_whitespace", call_whitespace},
    {"station_write_page", call_write_page},
    {"station_set_text", call_set_text},
    {"station_set_place", call_set_place},
    {"station_set_style", call_set_style},
    {"station_edit_list", call_edit_list},
    {"station_set_text_on_sheet", call_text_on_sheet},
    {"station_set_place_on_sheet", call_place_on_sheet},
    {"station_set_style_on_sheet", call_style_on_sheet},
    {"station_walk", call_walk},
    {"station_read_bdf", call_read_bdf},
};
static size_t deepest[CALLS];
static unsigned long runs;

/* How deep a function goes on a stack of its own, from the stack's upper end on. */
static size_t depth_of(void (*run)(void))
{
    static ucontext_t here, there;
    size_t lowest = STACK - PAINTED;
    memset(stack + lowest, PATTERN, PAINTED);
    if (getcontext(&there) != 0) {
        return STACK;
    }
    there.uc_stack.ss_sp = stack;
    there.uc_stack.ss_size = STACK;
    there.uc_link = &here;
    makecontext(&there, run, 0);
    if (swapcontext(&here, &there) != 0) {
        return STACK;
    }
    while (lowest < STACK && stack[lowest] == PATTERN) {
        lowest++;
    }
    return STACK - lowest;
}

static void add_entry(uint8_t kind, const uint8_t *data, size_t length)
{
    uint8_t head[] = {kind, (uint8_t)given.number, (uint8_t)length, (uint8_t)(length >> 8)};
    memcpy(list + given.list_length, head, sizeof head);
    memcpy(list + given.list_length + sizeof head, data, length);
    given.list_length += sizeof head + length;
}

/* A place, then the data as a style if it is as long as one, or else as a text, then the data as a text. */
static void make_list(void)
{
    uint8_t place[8];
    for (int k = 0; k < 4; k++) {
        place[k] = (uint8_t)((uint32_t)given.x >> (8 * k));
        place[4 + k] = (uint8_t)((uint32_t)given.y >> (8 * k));
    }
    given.list_length = 0;
    add_entry(1, place, sizeof place);
    add_entry(given.data_length == STATION_STYLE_LENGTH ? 2 : 0, given.data, given.data_length);
    add_entry(0, given.data, given.data_length);
}

/* Asks every call with the arguments as given, each on a fresh copy of the sheet. */
static void ask_all(void)
{
    make_list();
    for (int k = 0; k < CALLS; k++) {
        memcpy(copy, sheet, given.sheet_length);
        size_t depth = depth_of(calls[k].run);
        deepest[k] = depth > deepest[k] ? depth : deepest[k];
        runs++;
    }
}

/* Right arguments for each item and font, with the given data, then wrong ones. */
static void ask_sheet(size_t length)
{
    static const uint8_t text[] = {'A', 'B', '\n', 0xC2, 0xB0, '\r', '\n', 0xE2, 0x86, 0x91, 0xF0, 0x90, 0x80, 0x80}, bad[] = {'A', 0xE2, 0x82};
    static const uint8_t style[STATION_STYLE_LENGTH] = {1, 9, 1, 5, 2, 7, 1, 0};
    static const uint8_t *const data[] = {text, text, style, bad, style};
    static const size_t sizes[] = {sizeof text, 1, sizeof style, sizeof bad, 3};
    static const uint32_t characters[] = {'A', 0x2191, 0x10FFFF, 0xD800, 0xFFFFFFFF, 65536};
    static const int32_t places[] = {0, -3, 40, -32768, 32767, 32768, INT32_MIN};
    size_t pixels = 0, items = 0;
    if (length >= 24) {
        pixels = ((size_t)sheet[STATION_AT_WIDTH] | (size_t)sheet[STATION_AT_WIDTH + 1] << 8) *
                 ((size_t)sheet[STATION_AT_HEIGHT] | (size_t)sheet[STATION_AT_HEIGHT + 1] << 8);
        items = (size_t)sheet[STATION_AT_ITEMS] | (size_t)sheet[STATION_AT_ITEMS + 1] << 8;
    }
    pixels = pixels > sizeof frame ? sizeof frame : pixels;
    items = items > 64 ? 64 : items;
    given.sheet_length = length;
    given.frame_length = pixels;
    given.output_length = sizeof output;
    for (uint32_t k = 0; k <= items; k++) {
        given.number = k;
        given.character = characters[k % 6];
        given.x = places[k % 7];
        given.y = places[(k / 2) % 7];
        given.data = data[k % 5];
        given.data_length = sizes[k % 5];
        given.offset = k % (length + 1);
        ask_all();
    }
    given.number = 0;
    for (size_t k = 0; k < 5; k++) {
        given.data = data[k];
        given.data_length = sizes[k];
        given.character = characters[k];
        given.x = places[k];
        given.y = places[k + 2];
        ask_all();
    }
    given.number = 0xFFFFFFFF;
    ask_all();
    given.frame_length = pixels > 0 ? pixels - 1 : 0;
    ask_all();
    given.frame_length = pixels;
    given.number = 0;
    given.output_length = 3;
    given.offset = (size_t)-1;
    ask_all();
    given.sheet_length = length / 2;
    ask_all();
}

int main(void)
{
    uint8_t head[4];
    size_t empty = depth_of(call_none);
    int good = 1;
    while (fread(head, 1, sizeof head, stdin) == sizeof head) {
        size_t length = (size_t)head[0] | (size_t)head[1] << 8 | (size_t)head[2] << 16 | (size_t)head[3] << 24;
        if (length > sizeof sheet || fread(sheet, 1, length, stdin) != length) {
            fprintf(stderr, "stack: a sheet is cut or too long\n");
            return 2;
        }
        ask_sheet(length);
    }
    for (int k = 0; k < CALLS; k++) {
        /* an empty function's depth is what starting a function on that stack takes */
        size_t depth = deepest[k] > empty ? deepest[k] - empty : 0;
        printf("%s %lu\n", calls[k].name, (unsigned long)depth);
        good = good && depth > 0 && depth < PROMISED;
    }
    printf("runs %lu\n", runs);
    return good ? 0 : 1;
}
