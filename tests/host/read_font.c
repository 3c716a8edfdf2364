/* Reads a BDF file of any length from standard input through the library and writes its font, or `refused`, its number and a feed: what the program
   read_bdf does for files that are not too long for it. */
#include "station.h"
#include <stdio.h>
#include <stdlib.h>

enum { MOST_FONT = 1 << 24 };

static uint8_t font[MOST_FONT];

int main(void) {
  uint8_t *file = NULL;
  size_t room = 0, length = 0, got;
  do {
    if (length == room) {
      room = room == 0 ? 65536 : 2 * room;
      uint8_t *more = realloc(file, room);
      if (more == NULL) return fprintf(stderr, "read_font: no memory for the file\n"), 2;
      file = more;
    }
    got = fread(file + length, 1, room - length, stdin);
    length += got;
  } while (got > 0);
  station_number reply = station_read_bdf(file, length, font, sizeof font);
  if (reply.code != 0)
    printf("refused %u\n", (unsigned)reply.code);
  else
    fwrite(font, 1, reply.value, stdout);
  free(file);
  return fflush(stdout) != 0;
}
