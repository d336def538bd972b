/* Replays oracle/sample on standard input: calls, each with what the supplied Rust or a rule written a second time answers, in bits.
 * Prints how many differ; fails where one does, or where the sample is damaged.
 * replay up: of a sample of the days of 12-byte records each list is moved up, and each batch must answer what it answered before. A star
 * of number 0, which is an empty place since, must have status 10; under another number it too answers what it answered before. */
#include <inttypes.h>
#include <stdio.h>
#include <stdlib.h>
#include <string.h>
#include "functions.h"

static const struct function *find(const char *name)
{
    for (size_t i = 0; i < FUNCTION_COUNT; i++)
        if (strcmp(functions[i].name, name) == 0)
            return &functions[i];
    return NULL;
}

/* Bits in hexadecimal, without the zeros at the end. */
static double number(const char *word)
{
    char digits[] = "0000000000000000";
    uint64_t bits;
    double x;
    if (word == NULL)
        return 0.0;
    memcpy(digits, word, strlen(word) < 16 ? strlen(word) : 16);
    bits = strtoull(digits, NULL, 16);
    memcpy(&x, &bits, sizeof x);
    return x;
}

/* Numbers up to = or the end of the line; their count. */
static size_t numbers(char *word, double *to, size_t room)
{
    size_t n = 0;
    for (; word != NULL && strcmp(word, "=") != 0; word = strtok(NULL, " \n"))
        if (n < room)
            to[n++] = number(word);
    return n;
}

/* ---- lists ---- */

enum { ROOM = 64, WIDTH = BRUNDELAK_RECORD_BYTES };
static uint8_t list[WIDTH * ROOM];
static size_t list_len;

/* Digits in hexadecimal; how many bytes they are. */
static size_t read_bytes(const char *digits, uint8_t *to, size_t room)
{
    unsigned byte;
    size_t n = 0;
    for (; digits != NULL && n < room && sscanf(digits + 2 * n, "%2x", &byte) == 1; n++)
        to[n] = (uint8_t)byte;
    return n;
}

/* The next word as an integer; -1 where there is none. */
static long long whole(void)
{
    char *word = strtok(NULL, " =\n");
    return word == NULL ? -1 : (long long)strtoull(word, NULL, 10);
}

/* What a refused call must leave. Floats are NaNs, signalling and quiet, of either sign, which nothing answers. */
static const uint32_t UNTOUCHED = 0xA5A5A5A5;
static const uint64_t UNTOUCHED_FLOATS[] = {0x7FF4A5A5A5A50003, 0xFFF0000000000001, 0xFFFC000000000000, 0x7FF8000000000001};

static void untouched(double *to, size_t count)
{
    for (size_t i = 0; i < count; i++)
        memcpy(&to[i], &UNTOUCHED_FLOATS[i % 4], sizeof *to);
}

/* A star's fields but its number, as a call leaves them; refused, as they were. */
struct fields { uint32_t asc; int32_t dec, asc_rate, dec_rate; };
static const struct fields KEPT = {0xA5A5A5A5, -7, 0x3C3C3C3C, -9};

/* Whether they are those that the line goes on with, or those kept. */
static int are_told(struct fields f, unsigned status)
{
    struct fields want = KEPT;
    if (status == 0) {
        want.asc = (uint32_t)whole();
        want.dec = (int32_t)whole();
        want.asc_rate = (int32_t)whole();
        want.dec_rate = (int32_t)whole();
    }
    return f.asc == want.asc && f.dec == want.dec && f.asc_rate == want.asc_rate && f.dec_rate == want.dec_rate;
}

/* Whether a number is the next of the line, or the one kept. */
static int is_told(uint64_t n, unsigned status)
{
    return n == (status == 0 ? (uint64_t)whole() : UNTOUCHED);
}

typedef uint8_t star_call(const uint8_t *, uint64_t, uint64_t, uint32_t *, uint32_t *, int32_t *, int32_t *, int32_t *, uint64_t *);

/* Each answers the status expected, or 999 where the call differs. */
static unsigned star(star_call *call)
{
    uint64_t place = (uint64_t)whole(), next = UNTOUCHED;
    unsigned status = (unsigned)whole();
    uint32_t number = UNTOUCHED;
    struct fields f = KEPT;
    int agrees = call(list, list_len, place, &number, &f.asc, &f.dec, &f.asc_rate, &f.dec_rate, &next) == status;
    return agrees && is_told(number, status) && are_told(f, status) && is_told(next, status) ? status : 999;
}

static unsigned sought(void)
{
    uint32_t number = (uint32_t)whole();
    unsigned status = (unsigned)whole();
    uint64_t index = UNTOUCHED;
    struct fields f = KEPT;
    int agrees = brundelak_find(list, list_len, number, &index, &f.asc, &f.dec, &f.asc_rate, &f.dec_rate) == status;
    return agrees && is_told(index, status) && are_told(f, status) ? status : 999;
}

typedef uint8_t batch_call(const uint8_t *, uint64_t, double, double, uint8_t *, uint64_t, double *, uint64_t, double *, uint64_t, uint32_t *);

/* Whether the list's i-th place is empty. */
static int is_empty(size_t i)
{
    return memcmp(list + WIDTH * i, "\0\0\0", 4) == 0;
}

/* none_empty: the line is of days when no place was empty and a star of number 0 was answered as any other. Of such a star 10 is wanted now,
 * whatever the line tells. */
static unsigned batch(batch_call *call, int none_empty)
{
    size_t stars = list_len / WIDTH;
    uint8_t statuses[ROOM], want_statuses[ROOM];
    double asc[ROOM], dec[ROOM], want_asc[ROOM], want_dec[ROOM];
    uint32_t tally[BRUNDELAK_COUNTS], want_tally[BRUNDELAK_COUNTS], raised[BRUNDELAK_COUNTS] = {0};
    double day1 = number(strtok(NULL, " \n")), day2 = number(strtok(NULL, " \n"));
    unsigned status = (unsigned)whole();
    memset(statuses, 0xA5, sizeof statuses);
    memset(tally, 0xA5, sizeof tally);
    untouched(asc, ROOM);
    untouched(dec, ROOM);
    memcpy(want_statuses, statuses, sizeof statuses);
    memcpy(want_asc, asc, sizeof asc);
    memcpy(want_dec, dec, sizeof dec);
    memcpy(want_tally, tally, sizeof tally);
    if (status == 0) {
        memset(want_tally, 0, sizeof want_tally);
        for (size_t i = 0; i < stars; i++) {
            want_statuses[i] = (uint8_t)whole();
            want_asc[i] = want_statuses[i] == 0 ? number(strtok(NULL, " \n")) : 0.0;
            want_dec[i] = want_statuses[i] == 0 ? number(strtok(NULL, " \n")) : 0.0;
            if (none_empty && is_empty(i)) {
                want_statuses[i] = BRUNDELAK_REFUSAL_NO_STAR;
                want_asc[i] = want_dec[i] = 0.0;
            }
            want_tally[want_statuses[i] % BRUNDELAK_COUNTS]++;
        }
    }
    /* The tally is what the statuses raise one by one. */
    int all_raised = 1;
    for (size_t i = 0; status == 0 && i < stars; i++)
        all_raised &= brundelak_tally_raise(want_statuses[i], raised) == 0;
    if (status == 0)
        all_raised &= memcmp(want_tally, raised, sizeof raised) == 0;
    int agrees = all_raised && call(list, list_len, day1, day2, statuses, stars, asc, stars, dec, stars, tally) == status
        && memcmp(want_statuses, statuses, sizeof statuses) == 0 && memcmp(want_asc, asc, sizeof asc) == 0
        && memcmp(want_dec, dec, sizeof dec) == 0 && memcmp(want_tally, tally, sizeof tally) == 0;
    return agrees ? status : 999;
}

/* ---- radio lists ---- */

static unsigned radio_open(void)
{
    unsigned status = (unsigned)whole();
    uint32_t count = UNTOUCHED;
    uint64_t place = UNTOUCHED;
    int agrees = brundelak_radio_open(list, list_len, &count, &place) == status;
    return agrees && is_told(count, status) && is_told(place, status) ? status : 999;
}

static unsigned radio_accept(void)
{
    unsigned status = (unsigned)whole();
    uint32_t count = UNTOUCHED;
    int agrees = brundelak_radio_accept(list, list_len, &count) == status;
    return agrees && is_told(count, status) ? status : 999;
}

typedef uint8_t put_call(uint8_t *, uint64_t, uint64_t, uint32_t, uint32_t, int32_t, int32_t, int32_t, uint64_t *);
typedef uint8_t move_call(const uint8_t *, uint64_t, uint8_t *, uint64_t, uint64_t *);

/* A list as a whole, moved. */
static const struct { const char *name; move_call *call; } moves[] = {
    {"radio_to_list", brundelak_radio_to_list},
    {"list_to_radio", brundelak_list_to_radio},
    {"list_12_to_20", brundelak_list_12_to_20},
    {"list_20_to_12", brundelak_list_20_to_12},
};
enum { MOVES = sizeof moves / sizeof *moves };

static move_call *move(const char *name)
{
    for (size_t i = 0; i < MOVES; i++)
        if (strcmp(moves[i].name, name) == 0)
            return moves[i].call;
    return NULL;
}

/* A call that writes into a slice: its name tells which. */
static unsigned written(const char *name)
{
    uint8_t slice[2 * sizeof list], want[2 * sizeof list];
    uint64_t len = (uint64_t)whole(), place = 0, after = UNTOUCHED;
    uint32_t given[5] = {0};
    unsigned status, got;
    if (len > sizeof slice)
        return 999;
    memset(slice, 0xA5, sizeof slice);
    memset(want, 0xA5, sizeof want);
    if (strcmp(name, "radio_put_head") == 0) {
        place = (uint64_t)whole();
        given[0] = (uint32_t)whole();
        got = brundelak_radio_put_head(slice, len, place, given[0], &after);
    } else if (strcmp(name, "put_star") == 0 || strcmp(name, "radio_put_star") == 0) {
        put_call *call = name[0] == 'p' ? brundelak_put_star : brundelak_radio_put_star;
        place = (uint64_t)whole();
        for (size_t i = 0; i < 5; i++)
            given[i] = (uint32_t)whole();
        got = call(slice, len, place, given[0], given[1], (int32_t)given[2], (int32_t)given[3], (int32_t)given[4], &after);
    } else {
        got = move(name)(list, list_len, slice, len, &after);
    }
    status = (unsigned)whole();
    if (status == 0 && place > len)
        return 999;
    uint64_t end = status == 0 ? place + read_bytes(strtok(NULL, " \n"), want + place, sizeof want - place) : UNTOUCHED;
    return got == status && after == end && memcmp(want, slice, sizeof slice) == 0 ? status : 999;
}

/* A call that edits the list where it stands: its name tells which. The list is then as the line tells it. */
static unsigned edited(const char *name)
{
    uint8_t want[sizeof list];
    uint32_t given[5] = {0};
    unsigned got;
    memset(list + list_len, 0xA5, sizeof list - list_len);
    memcpy(want, list, sizeof list);
    for (size_t i = 0; i < (name[0] == 'g' ? 0 : name[0] == 's' ? 1 : 5); i++)
        given[i] = (uint32_t)whole();
    if (strcmp(name, "strike") == 0)
        got = brundelak_strike(list, list_len, given[0]);
    else if (strcmp(name, "add") == 0)
        got = brundelak_add(list, list_len, given[0], given[1], (int32_t)given[2], (int32_t)given[3], (int32_t)given[4]);
    else
        got = brundelak_gather(list, list_len);
    unsigned status = (unsigned)whole();
    int told = status != 0 || read_bytes(strtok(NULL, " \n"), want, list_len) == list_len;
    int agrees = told && got == status && memcmp(want, list, sizeof list) == 0;
    memcpy(list, want, sizeof list);
    return agrees ? status : 999;
}

/* ---- residuals ---- */

/* Numbers of a sheet that no call leaves. */
static const int64_t UNTOUCHED_FIGURE = 0x5AA55AA55AA55AA5;

static unsigned residuals(void)
{
    uint8_t statuses[ROOM];
    double angles[4][ROOM];
    int64_t sheets[2][BRUNDELAK_FIGURES], want[2][BRUNDELAK_FIGURES];
    uint64_t lens[5];
    for (size_t i = 0; i < 5; i++)
        if ((lens[i] = (uint64_t)whole()) > ROOM)
            return 999;
    if (read_bytes(strtok(NULL, " \n"), statuses, ROOM) != lens[0])
        return 999;
    for (size_t k = 0; k < 4; k++)
        for (size_t i = 0; i < lens[1 + k]; i++)
            angles[k][i] = number(strtok(NULL, " \n"));
    unsigned status = (unsigned)whole();
    for (size_t k = 0; k < 2; k++)
        for (size_t i = 0; i < BRUNDELAK_FIGURES; i++) {
            sheets[k][i] = UNTOUCHED_FIGURE;
            want[k][i] = status == 0 ? (int64_t)whole() : UNTOUCHED_FIGURE;
        }
    int agrees = brundelak_residuals(statuses, lens[0], angles[0], lens[1], angles[1], lens[2], angles[2], lens[3], angles[3], lens[4],
                                     sheets[0], sheets[1]) == status;
    return agrees && memcmp(sheets, want, sizeof want) == 0 ? status : 999;
}

/* ---- sights ---- */

typedef uint8_t sight_call(uint32_t, int32_t, int32_t, int32_t, double, double, double, double, double *, double *, double *);

static unsigned sight(sight_call *call)
{
    uint32_t of[4];
    double given[4], want[3], out[3];
    untouched(want, 3);
    untouched(out, 3);
    for (size_t i = 0; i < 4; i++)
        of[i] = (uint32_t)whole();
    for (size_t i = 0; i < 4; i++)
        given[i] = number(strtok(NULL, " \n"));
    unsigned status = (unsigned)whole();
    for (size_t i = 0; i < 3 && status == 0; i++)
        want[i] = number(strtok(NULL, " \n"));
    int agrees = call(of[0], (int32_t)of[1], (int32_t)of[2], (int32_t)of[3], given[0], given[1], given[2], given[3], &out[0], &out[1], &out[2])
        == status;
    return agrees && memcmp(want, out, sizeof out) == 0 ? status : 999;
}

static unsigned mean_heading(void)
{
    double headings[ROOM], want, out;
    int64_t sheet[BRUNDELAK_FIGURES], figures[BRUNDELAK_FIGURES];
    uint64_t len = (uint64_t)whole();
    if (len > ROOM)
        return 999;
    untouched(&want, 1);
    untouched(&out, 1);
    for (size_t i = 0; i < len; i++)
        headings[i] = number(strtok(NULL, " \n"));
    unsigned status = (unsigned)whole();
    if (status == 0)
        want = number(strtok(NULL, " \n"));
    for (size_t i = 0; i < BRUNDELAK_FIGURES; i++) {
        sheet[i] = UNTOUCHED_FIGURE;
        figures[i] = status == 0 ? (int64_t)whole() : UNTOUCHED_FIGURE;
    }
    int agrees = brundelak_mean_heading(headings, len, &out, sheet) == status && memcmp(&want, &out, sizeof out) == 0;
    return agrees && memcmp(sheet, figures, sizeof sheet) == 0 ? status : 999;
}

/* ---- a sample of the days of 12-byte records ---- */

enum { OLD = 12 };
/* How the list before a batch came up: by the call, by zero rates put behind each record since one is out of range, or not at all. */
enum { MOVED, BY_BYTES, NO_LIST, WAYS };

static size_t move_up(const char *digits)
{
    uint8_t before[OLD * ROOM];
    size_t len = read_bytes(digits, before, sizeof before);
    uint64_t up = 0;
    uint8_t status = brundelak_list_12_to_20(before, len, list, sizeof list, &up);
    if (status == 9) {
        memset(list, 0, sizeof list);
        for (size_t i = 0; i < len / OLD; i++)
            memcpy(list + WIDTH * i, before + OLD * i, OLD);
        up = len / OLD * WIDTH;
    }
    list_len = up;
    return status == 0 ? MOVED : status == 9 ? BY_BYTES : NO_LIST;
}

/* What was no list is refused by the move; a batch of it was refused by a day or by 8. */
static unsigned refused_before(void)
{
    strtok(NULL, " \n");
    strtok(NULL, " \n");
    unsigned status = (unsigned)whole();
    return status == 1 || status == 2 || status == 8 ? status : 999;
}

/* Each empty place of the list given a number, or emptied again; how many. */
static size_t number_empty(uint8_t *of_empty, uint8_t by)
{
    size_t count = 0;
    for (size_t i = 0; i < list_len / WIDTH; i++) {
        if (by != 0)
            of_empty[i] = (uint8_t)is_empty(i);
        if (of_empty[i]) {
            list[WIDTH * i] = by;
            count++;
        }
    }
    return count;
}

/* A batch of days when no place was empty: as the list is, and where stars have number 0 once more with that number another. The stars of
 * number 0 where the batch answers are counted. */
static unsigned batch_before(batch_call *call, const char *line, size_t *numbered)
{
    char again[4096];
    uint8_t of_empty[ROOM];
    unsigned status = batch(call, 1);
    size_t empty = number_empty(of_empty, 1);
    if (empty > 0) {
        strcpy(again, line);
        strtok(again, " \n");
        status = batch(call, 1) == status ? status : 999;
        number_empty(of_empty, 0);
        *numbered += status == 0 ? empty : 0;
    }
    return status;
}

static int migrated(void)
{
    char line[4096], words[4096];
    size_t way = NO_LIST, batches[WAYS] = {0}, numbered = 0;
    unsigned differing = 0;
    while (fgets(line, sizeof line, stdin) != NULL) {
        strcpy(words, line);
        char *word = strtok(words, " \n");
        int published = word != NULL && strcmp(word, "batch_published") == 0;
        if (word == NULL)
            continue;
        if (strcmp(word, "list") == 0) {
            way = move_up(strtok(NULL, " \n"));
        } else if (published || strcmp(word, "batch") == 0) {
            batches[way]++;
            batch_call *call = published ? brundelak_batch_published : brundelak_batch;
            differing += 999 == (way == NO_LIST ? refused_before() : batch_before(call, line, &numbered));
        }
    }
    printf("migration: %zu batches of 12-byte lists that the call moves up and %zu of lists with a record out of range, zero rates put behind"
           " each record, answer what they answered, but for %zu stars of number 0, which are empty places since and have 10, and under"
           " another number what they had; %zu of bytes that were no list are refused; differing %u\n",
           batches[MOVED], batches[BY_BYTES], numbered, batches[NO_LIST], differing);
    return batches[MOVED] > 0 && numbered > 0 && differing == 0 ? 0 : 1;
}

/* ---- */

int main(int argc, char **argv)
{
    if (argc == 2 && strcmp(argv[1], "up") == 0)
        return migrated();
    char line[4096];
    const struct function *f = NULL;
    unsigned calls = 0, answered = 0, refused = 0, differing = 0, seen = 0, lists = 0;
    while (fgets(line, sizeof line, stdin) != NULL) {
        double given[9] = {0}, expected[3], out[3];
        double *const places[3] = {&out[0], &out[1], &out[2]};
        unsigned status;
        untouched(expected, 3);
        untouched(out, 3);
        if (line[0] == '#')
            continue;
        int is_call = strchr(line, '=') != NULL;
        char *word = strtok(line, " \n");
        if (strcmp(word, "list") == 0 || strcmp(word, "radio") == 0) {
            list_len = read_bytes(strtok(NULL, " \n"), list, sizeof list);
            lists++;
            continue;
        }
        if (!is_call) {
            f = find(word);
            seen++;
            continue;
        }
        calls++;
        if (strcmp(word, "star") == 0) {
            status = star(brundelak_star);
        } else if (strcmp(word, "find") == 0) {
            status = sought();
        } else if (strcmp(word, "batch") == 0) {
            status = batch(brundelak_batch, 0);
        } else if (strcmp(word, "batch_published") == 0) {
            status = batch(brundelak_batch_published, 0);
        } else if (strcmp(word, "rotate") == 0) {
            status = batch(brundelak_rotate, 0);
        } else if (strcmp(word, "rotate_published") == 0) {
            status = batch(brundelak_rotate_published, 0);
        } else if (strcmp(word, "radio_open") == 0) {
            status = radio_open();
        } else if (strcmp(word, "radio_star") == 0) {
            status = star(brundelak_radio_star);
        } else if (strcmp(word, "radio_accept") == 0) {
            status = radio_accept();
        } else if (move(word) != NULL || strcmp(word, "put_star") == 0 || strncmp(word, "radio_put_", 10) == 0) {
            status = written(word);
        } else if (strcmp(word, "strike") == 0 || strcmp(word, "add") == 0 || strcmp(word, "gather") == 0) {
            status = edited(word);
        } else if (strcmp(word, "residuals") == 0) {
            status = residuals();
        } else if (strcmp(word, "heading") == 0) {
            status = sight(brundelak_heading);
        } else if (strcmp(word, "heading_published") == 0) {
            status = sight(brundelak_heading_published);
        } else if (strcmp(word, "mean_heading") == 0) {
            status = mean_heading();
        } else {
            size_t given_count = numbers(word, given, 9);
            word = strtok(NULL, " \n");
            status = word == NULL ? 999 : (unsigned)atoi(word);
            size_t answer_count = numbers(strtok(NULL, " \n"), expected, 3);
            if (f == NULL || given_count != f->given || answer_count != (status == 0 ? f->answered : 0)
                || f->f(given, places) != status || memcmp(expected, out, sizeof out) != 0)
                status = 999;
        }
        answered += status == 0;
        refused += status != 0 && status != 999;
        differing += status == 999;
    }
    printf("replay: %u calls of the sample (%u functions, %u lists; %u answered, %u refused), differing %u\n",
           calls, seen, lists, answered, refused, differing);
    return calls > 0 && seen == FUNCTION_COUNT && lists > 0 && differing == 0 ? 0 : 1;
}
