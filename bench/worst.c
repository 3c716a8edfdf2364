/* The worst cases of the exported calls: sheets at the limits, and the time of each call on them.

     tools/build.sh library
     cc -std=c99 -O2 -Iinclude bench/worst.c target/staticlib/libstation.a -o target/worst && target/worst

   'lookups' has the largest mapping that 64 full slots leave room for, ranges of one character with a single one between them, and texts
   of characters that it does not list, all of them on the frame. 'pixels' has cells of 64 by 64, and in each item 28 lines of 8 at one place.
   'edit_list' gives each of the 64 items a full text. Each figure is the best of three. */
#define _POSIX_C_SOURCE 199309L
#include "station.h"
#include <stdio.h>
#include <string.h>
#include <time.h>

enum { ITEMS = 64, SLOT = 256, MOST = 65536 };

static uint8_t sheet[MOST], kept[MOST], frame[MOST], output[STATION_MOST_PAGE], text[SLOT], list[ITEMS][4 + SLOT];
static size_t length;

static void store(size_t at, uint32_t n, int bytes) {
  for (int i = 0; i < bytes; i++) sheet[at + (size_t)i] = (uint8_t)(n >> (8 * i));
}

/* A sheet of one font and 64 items with full slots; its mapping takes what the file has left, or one byte. */
static size_t build(uint32_t width, uint32_t height, uint32_t cell, int long_mapping) {
  size_t records = 24 + 28 + 28 * ITEMS, atlas = cell / 8 * cell;
  size_t mapping = long_mapping ? (MOST - records - atlas - ITEMS * SLOT) / 4 * 4 : 1;
  size_t at = records + atlas + mapping;
  memset(sheet, 0, sizeof sheet);
  store(0, 1, 2), store(2, width, 2), store(4, height, 2), store(6, 255, 1), store(7, 1, 1), store(8, ITEMS, 2);
  store(12, 24, 4), store(16, 52, 4), store(20, (uint32_t)(at + ITEMS * SLOT), 4);
  store(24, (uint32_t)records, 4), store(28, (uint32_t)atlas, 4), store(32, (uint32_t)(records + atlas), 4), store(36, (uint32_t)mapping, 2);
  store(40, cell < 8 ? 8 : cell, 2), store(42, cell, 1), store(43, cell, 1);
  memset(sheet + records, 0x5A, atlas);
  for (size_t i = 0; i < mapping; i++) sheet[records + atlas + i] = (uint8_t)"\0AAB"[long_mapping ? i % 4 : 1];
  for (uint32_t n = 0; n < ITEMS; n++) {
    size_t o = 52 + 28 * n, slot = at + SLOT * n;
    store(o + 2, long_mapping ? n * cell : 0, 2), store(o + 4, (uint32_t)slot, 4), store(o + 8, SLOT, 2), store(o + 10, SLOT, 2);
    store(o + 13, 1, 1), store(o + 15, 1, 1), store(o + 16, 128, 1);
    for (size_t i = 0; i < SLOT; i++) sheet[slot + i] = long_mapping ? 'z' : i % 9 == 8 ? '\n' : 'A';
  }
  memcpy(text, sheet + at, SLOT);
  for (uint32_t n = 0; n < ITEMS; n++) {
    list[n][0] = 0, list[n][1] = (uint8_t)n, list[n][2] = SLOT % 256, list[n][3] = SLOT / 256;
    memcpy(list[n] + 4, text, SLOT);
  }
  memcpy(kept, sheet, sizeof sheet);
  return at + ITEMS * SLOT;
}

static uint32_t pixels;

static uint32_t check(void) { return station_check(sheet, length); }
static uint32_t find(void) { return station_index(sheet, length, 0, 'z').code; }
static uint32_t contains(void) { return station_contains(sheet, length, 0, 'z').code; }
static uint32_t box(void) { return station_bounding_box(sheet, length, 0).code; }
static uint32_t item(void) { return station_draw_item(sheet, length, frame, pixels, 0).code; }
static uint32_t whitespace(void) { return station_draw_whitespace(sheet, length, frame, pixels, 0, 65535).code; }
static uint32_t draw(void) { return station_draw(sheet, length, frame, pixels); }
static uint32_t edit(void) { return station_set_text(sheet, length, frame, pixels, 0, text, SLOT).code; }
static uint32_t edits(void) { return station_edit_list(sheet, length, frame, pixels, (const uint8_t *)list, sizeof list).code; }
static uint32_t edit_alone(void) { return station_set_text_on_sheet(sheet, length, 0, text, SLOT).code; }
static uint32_t page(void) { return station_write_page(sheet, length, frame, pixels, output, sizeof output).code; }

static double microseconds(uint32_t (*call)(void)) {
  double best = 1e30;
  for (int round = 0; round < 3; round++) {
    struct timespec from, to;
    memcpy(sheet, kept, sizeof sheet);
    clock_gettime(CLOCK_MONOTONIC, &from);
    if (call() != 0) return -1;
    clock_gettime(CLOCK_MONOTONIC, &to);
    double time = (double)(to.tv_sec - from.tv_sec) * 1e6 + (double)(to.tv_nsec - from.tv_nsec) / 1e3;
    if (time < best) best = time;
  }
  return best;
}

int main(void) {
  static const struct { const char *name; uint32_t (*call)(void); } calls[] = {
      {"check", check}, {"index", find}, {"contains", contains}, {"bounding_box", box}, {"draw_item", item},
      {"draw_whitespace", whitespace}, {"draw", draw}, {"set_text", edit}, {"edit_list", edits}, {"set_text_on_sheet", edit_alone},
      {"write_page", page}};
  double times[2][sizeof calls / sizeof *calls];
  for (int sort = 0; sort < 2; sort++) {
    uint32_t width = 512, height = 128;
    pixels = width * height;
    length = build(width, height, sort == 0 ? 2 : 64, sort == 0);
    for (size_t i = 0; i < sizeof calls / sizeof *calls; i++) times[sort][i] = microseconds(calls[i].call);
  }
  printf("call, microseconds         lookups      pixels\n");
  for (size_t i = 0; i < sizeof calls / sizeof *calls; i++) printf("%-20s %13.1f %11.1f\n", calls[i].name, times[0][i], times[1][i]);
  return 0;
}
