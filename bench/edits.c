/* edits WHAT LIST TIMES: edits copies of the longest list where they stand, so many of them: a star struck off the last place, one added
 * to the first place or to the last, the only one that is empty, or the stars gathered where no place, every other one or every one is
 * empty. Whatever the times, the same list is read and as many copies are made, so that the difference of two counts is the calls' own. */
#include <stdio.h>
#include <stdlib.h>
#include <string.h>
#include "brundelak.h"

enum { WIDTH = BRUNDELAK_RECORD_BYTES, STARS = BRUNDELAK_MOST_STARS, LIST = BRUNDELAK_MOST_BYTES, COPIES = 9 };
static uint8_t list[LIST], copies[COPIES][LIST];

static void number(size_t place, uint32_t is)
{
    memcpy(list + WIDTH * place, &is, sizeof is);
}

static uint8_t strike(uint8_t *bytes)
{
    return brundelak_strike(bytes, LIST, STARS);
}

static uint8_t add(uint8_t *bytes)
{
    return brundelak_add(bytes, LIST, STARS + 1, 1, 2, 3, 4);
}

static uint8_t gather(uint8_t *bytes)
{
    return brundelak_gather(bytes, LIST);
}

/* Of the places from one on each by so many steps is empty. */
static const struct { const char *name; uint8_t (*work)(uint8_t *); size_t from, step; } edits[] = {
    {"strike", strike, STARS, 1},
    {"add_first", add, 0, STARS},
    {"add_last", add, STARS - 1, 1},
    {"gather_full", gather, STARS, 1},
    {"gather_half", gather, 0, 2},
    {"gather_empty", gather, 0, 1},
};

int main(int argc, char **argv)
{
    FILE *file = argc == 4 ? fopen(argv[2], "rb") : NULL;
    if (file == NULL || fread(list, 1, LIST, file) != LIST)
        return 1;
    for (size_t k = 0; k < sizeof edits / sizeof *edits; k++) {
        if (strcmp(argv[1], edits[k].name) != 0)
            continue;
        for (size_t i = 0; i < STARS; i++)
            number(i, (uint32_t)i + 1);
        for (size_t i = edits[k].from; i < STARS; i += edits[k].step)
            number(i, 0);
        for (size_t i = 0; i < COPIES; i++)
            memcpy(copies[i], list, LIST);
        for (size_t times = (size_t)atoi(argv[3]); times > 0; times--)
            if (times > COPIES || edits[k].work(copies[times - 1]) != 0)
                return 1;
        return 0;
    }
    return 1;
}
