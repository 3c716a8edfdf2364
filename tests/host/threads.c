/*
 * Many threads read one sheet, each with its own frame and output: every reply and every byte is that of a thread alone.
 *
 *     threads SHEET
 */
#include "station.h"

#include <pthread.h>
#include <stdio.h>
#include <string.h>

enum { THREADS = 4, ROUNDS = 150 };

/* What one thread gets of all calls that only read the sheet. */
struct answers {
    uint8_t frame[STATION_MOST_FRAME], output[STATION_MOST_PAGE];
    uint32_t check, drawn;
    station_glyph index;
    station_number contains, page;
    station_box box;
    station_drawn item;
    station_position whitespace;
};

static uint8_t sheet[STATION_MOST_SHEET];
static size_t length, pixels;
static struct answers alone, each[THREADS];

static void ask(struct answers *a)
{
    memset(a, 0, sizeof *a);
    a->check = station_check(sheet, length);
    a->drawn = station_draw(sheet, length, a->frame, pixels);
    a->item = station_draw_item(sheet, length, a->frame, pixels, 1);
    a->whitespace = station_draw_whitespace(sheet, length, a->frame, pixels, 2, 60);
    a->index = station_index(sheet, length, 0, 'm');
    a->contains = station_contains(sheet, length, 0, 'm');
    a->box = station_bounding_box(sheet, length, 1);
    a->page = station_write_page(sheet, length, a->frame, pixels, a->output, sizeof a->output);
}

/* Gives the number of rounds that went otherwise. */
static void *ask_often(void *given)
{
    struct answers *a = given;
    size_t other = 0;
    for (int k = 0; k < ROUNDS; k++) {
        ask(a);
        other += memcmp(a, &alone, sizeof *a) != 0;
    }
    return (void *)other;
}

int main(int count, char **arguments)
{
    pthread_t threads[THREADS];
    size_t other = 0;
    FILE *file = count == 2 ? fopen(arguments[1], "rb") : NULL;
    if (file == NULL) {
        fprintf(stderr, "usage: threads SHEET\n");
        return 2;
    }
    length = fread(sheet, 1, sizeof sheet, file);
    fclose(file);
    pixels = ((size_t)sheet[STATION_AT_WIDTH] | (size_t)sheet[STATION_AT_WIDTH + 1] << 8) *
             ((size_t)sheet[STATION_AT_HEIGHT] | (size_t)sheet[STATION_AT_HEIGHT + 1] << 8);
    ask(&alone);
    if (alone.check != STATION_OK || alone.drawn != STATION_OK || alone.page.code != STATION_OK) {
        return 2;
    }
    for (int k = 0; k < THREADS; k++) {
        if (pthread_create(&threads[k], NULL, ask_often, &each[k]) != 0) {
            return 2;
        }
    }
    for (int k = 0; k < THREADS; k++) {
        void *rounds = NULL;
        pthread_join(threads[k], &rounds);
        other += (size_t)rounds;
    }
    printf("%d threads, %d rounds each, %lu otherwise\n", THREADS, ROUNDS, (unsigned long)other);
    return other != 0;
}
