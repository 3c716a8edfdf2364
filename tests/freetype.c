/* Writes the glyphs of fonts as FreeType's own reader has them, in the order of its character map:

     cc -std=c99 -O2 -I/usr/include/freetype2 tests/freetype.c -lfreetype -o target/bdf/freetype
     target/bdf/freetype FONT.bdf ..

   Of each font: 'font' and the number of its glyphs, or 'font -1' if FreeType does not take the file; then a line for each glyph: its code, the columns of
   its bitmap right of the origin, the rows of its top above the baseline, its width, its height, and its rows in hexadecimal digits, or '-'. */
#include <ft2build.h>
#include FT_FREETYPE_H
#include <stdio.h>

static int write_glyph(FT_Face face, FT_ULong code, FT_UInt index) {
  if (FT_Load_Glyph(face, index, FT_LOAD_DEFAULT) != 0) return 0;
  const FT_GlyphSlot slot = face->glyph;
  const FT_Bitmap *bitmap = &slot->bitmap;
  if (bitmap->pixel_mode != FT_PIXEL_MODE_MONO && bitmap->rows > 0 && bitmap->width > 0) return 0;
  printf("%lu %d %d %u %u ", code, slot->bitmap_left, slot->bitmap_top, bitmap->width, bitmap->rows);
  for (unsigned row = 0; row < bitmap->rows; row++)
    for (unsigned byte = 0; byte < (bitmap->width + 7) / 8; byte++) printf("%02X", bitmap->buffer[(long)row * bitmap->pitch + (long)byte]);
  puts("-");
  return 1;
}

static int write_font(FT_Library library, const char *path) {
  FT_Face face;
  if (FT_New_Face(library, path, 0, &face) != 0) return puts("font -1"), 1;
  /* FreeType has a glyph 0 beside those of the file. */
  printf("font %ld\n", face->num_glyphs - 1);
  int good = FT_Select_Size(face, 0) == 0 && face->num_charmaps > 0 && FT_Set_Charmap(face, face->charmaps[0]) == 0;
  FT_UInt index = 0;
  for (FT_ULong code = good ? FT_Get_First_Char(face, &index) : 0; good && index != 0; code = FT_Get_Next_Char(face, code, &index))
    good = write_glyph(face, code, index);
  FT_Done_Face(face);
  return good;
}

int main(int count, char **words) {
  FT_Library library;
  if (FT_Init_FreeType(&library) != 0) return 2;
  for (int word = 1; word < count; word++)
    if (!write_font(library, words[word])) return fprintf(stderr, "freetype: %s: a glyph or the character map could not be loaded\n", words[word]), 1;
  return FT_Done_FreeType(library) != 0;
}
