/* Reading a BDF file: the exported call beside FreeType, which opens the same bytes and loads every glyph.

     tools/build.sh library
     cc -std=c99 -O2 -Iinclude $(pkg-config --cflags freetype2) bench/bdf.c target/staticlib/libstation.a $(pkg-config --libs freetype2) -o target/bdf_times
     target/bdf_times FONT.bdf [ROUNDS]

   Both run in turn, ROUNDS times (40 if not given), and the best time of each is printed in microseconds, then their ratio. FreeType's clock runs
   from FT_New_Memory_Face to the last FT_Load_Glyph; starting the library and giving the face back are not counted. The call's clock runs over the
   whole call, on an output that is long enough. */
#define _POSIX_C_SOURCE 199309L
#include "station.h"
#include <ft2build.h>
#include FT_FREETYPE_H
#include <stdio.h>
#include <stdlib.h>
#include <time.h>

enum { MOST_FILE = 1 << 24, MOST_OUTPUT = 1 << 24, ROUNDS = 40 };

static uint8_t file[MOST_FILE], output[MOST_OUTPUT];
static size_t length;

static double microseconds(void) {
  struct timespec now;
  clock_gettime(CLOCK_MONOTONIC, &now);
  return (double)now.tv_sec * 1e6 + (double)now.tv_nsec / 1e3;
}

/* The times of opening the face, and of that and loading all the file's glyphs, which are those from 1 on; their number, or -1 if FreeType does not take
   the file. */
static long freetype(FT_Library library, double *opened, double *loaded) {
  FT_Face face;
  double from = microseconds();
  if (FT_New_Memory_Face(library, file, (FT_Long)length, 0, &face) != 0) return -1;
  *opened = microseconds() - from;
  if (FT_Select_Size(face, 0) != 0) return -1;
  long glyphs = face->num_glyphs - 1;
  for (long glyph = 1; glyph <= glyphs; glyph++)
    if (FT_Load_Glyph(face, (FT_UInt)glyph, FT_LOAD_DEFAULT) != 0) return -1;
  *loaded = microseconds() - from;
  FT_Done_Face(face);
  return glyphs;
}

static void keep_best(double *best, double time) {
  if (time < *best) *best = time;
}

int main(int count, char **words) {
  FILE *font = count >= 2 ? fopen(words[1], "rb") : NULL;
  if (font == NULL) return fprintf(stderr, "bdf: usage: bdf FONT.bdf [ROUNDS]\n"), 2;
  length = fread(file, 1, sizeof file, font);
  fclose(font);
  FT_Library library;
  if (length == sizeof file || FT_Init_FreeType(&library) != 0) return fprintf(stderr, "bdf: the file is too long, or FreeType does not start\n"), 2;
  int rounds = count >= 3 ? atoi(words[2]) : ROUNDS;
  double opened = 1e30, loaded = 1e30, read = 1e30, open_time, load_time;
  long glyphs = 0;
  station_number reply = {0, 0};
  for (int round = 0; round < rounds; round++) {
    glyphs = freetype(library, &open_time, &load_time);
    if (glyphs < 0) return fprintf(stderr, "bdf: FreeType does not take the file\n"), 1;
    keep_best(&opened, open_time), keep_best(&loaded, load_time);
    double from = microseconds();
    reply = station_read_bdf(file, length, output, sizeof output);
    keep_best(&read, microseconds() - from);
    if (reply.code != STATION_OK) return fprintf(stderr, "bdf: station_read_bdf refuses the file with %u\n", (unsigned)reply.code), 1;
  }
  FT_Done_FreeType(library);
  printf("%s: %zu bytes, %ld glyphs, a font of %u bytes; best of %d rounds, in microseconds\n", words[1], length, glyphs, (unsigned)reply.value, rounds);
  printf("FreeType, opening            %10.0f\n", opened);
  printf("FreeType, with all glyphs    %10.0f\n", loaded);
  printf("station_read_bdf             %10.0f\n", read);
  printf("ratio                        %10.3f\n", read / loaded);
  return 0;
}
