/* Seventeen functions, each put in the place of the archive's by the linker, with one slip of the boundary: fuzz must report each. */
#include "brundelak.h"

/* A NaN tidied, any other number kept: made quiet, made the one without sign and payload, or its sign taken away. */
static inline void tidy(double *x, uint64_t set, uint64_t clear)
{
    uint64_t b;
    memcpy(&b, x, sizeof b);
    if (*x != *x)
        b = (b & ~clear) | set;
    memcpy(x, &b, sizeof b);
}

uint8_t __real_brundelak_root(double x, double *out);
uint8_t __real_brundelak_star(const uint8_t *bytes, uint64_t len, uint64_t place, uint32_t *number, uint32_t *asc, int32_t *dec,
                              int32_t *asc_rate, int32_t *dec_rate, uint64_t *next);
uint8_t __real_brundelak_find(const uint8_t *bytes, uint64_t len, uint32_t number, uint64_t *index, uint32_t *asc, int32_t *dec,
                              int32_t *asc_rate, int32_t *dec_rate);
uint8_t __real_brundelak_batch(const uint8_t *bytes, uint64_t len, double day1, double day2, uint8_t *status, uint64_t status_len,
                               double *asc, uint64_t asc_len, double *dec, uint64_t dec_len, uint32_t *tally);
uint8_t __real_brundelak_tally_raise(uint8_t status, uint32_t *tally);
uint8_t __real_brundelak_put_star(uint8_t *out, uint64_t len, uint64_t place, uint32_t number, uint32_t asc, int32_t dec,
                                  int32_t asc_rate, int32_t dec_rate, uint64_t *next);
uint8_t __real_brundelak_radio_star(const uint8_t *bytes, uint64_t len, uint64_t place, uint32_t *number, uint32_t *asc, int32_t *dec,
                                    int32_t *asc_rate, int32_t *dec_rate, uint64_t *next);
uint8_t __real_brundelak_radio_to_list(const uint8_t *bytes, uint64_t len, uint8_t *out, uint64_t out_len, uint64_t *written);
uint8_t __real_brundelak_list_to_radio(const uint8_t *bytes, uint64_t len, uint8_t *out, uint64_t out_len, uint64_t *written);
uint8_t __real_brundelak_list_12_to_20(const uint8_t *bytes, uint64_t len, uint8_t *out, uint64_t out_len, uint64_t *written);
uint8_t __real_brundelak_list_20_to_12(const uint8_t *bytes, uint64_t len, uint8_t *out, uint64_t out_len, uint64_t *written);
uint8_t __real_brundelak_strike(uint8_t *bytes, uint64_t len, uint32_t number);
uint8_t __real_brundelak_add(uint8_t *bytes, uint64_t len, uint32_t number, uint32_t asc, int32_t dec, int32_t asc_rate, int32_t dec_rate);
uint8_t __real_brundelak_gather(uint8_t *bytes, uint64_t len);
uint8_t __real_brundelak_heading(uint32_t asc, int32_t dec, int32_t asc_rate, int32_t dec_rate, double day1, double day2, double long_,
                                 double lat, double *heading, double *azimuth, double *alt);
uint8_t __wrap_brundelak_heading(uint32_t asc, int32_t dec, int32_t asc_rate, int32_t dec_rate, double day1, double day2, double long_,
                                 double lat, double *heading, double *azimuth, double *alt);
uint8_t __real_brundelak_mean_heading(const double *headings, uint64_t headings_len, double *mean, int64_t *sheet);
uint8_t __wrap_brundelak_mean_heading(const double *headings, uint64_t headings_len, double *mean, int64_t *sheet);
uint8_t __real_brundelak_residuals(const uint8_t *status, uint64_t status_len, const double *asc, uint64_t asc_len, const double *dec,
                                   uint64_t dec_len, const double *measured_asc, uint64_t measured_asc_len, const double *measured_dec,
                                   uint64_t measured_dec_len, int64_t *asc_sheet, int64_t *dec_sheet);
uint8_t __wrap_brundelak_residuals(const uint8_t *status, uint64_t status_len, const double *asc, uint64_t asc_len, const double *dec,
                                   uint64_t dec_len, const double *measured_asc, uint64_t measured_asc_len, const double *measured_dec,
                                   uint64_t measured_dec_len, int64_t *asc_sheet, int64_t *dec_sheet);
uint8_t __wrap_brundelak_radio_star(const uint8_t *bytes, uint64_t len, uint64_t place, uint32_t *number, uint32_t *asc, int32_t *dec,
                                    int32_t *asc_rate, int32_t *dec_rate, uint64_t *next);
uint8_t __wrap_brundelak_radio_to_list(const uint8_t *bytes, uint64_t len, uint8_t *out, uint64_t out_len, uint64_t *written);
uint8_t __wrap_brundelak_list_to_radio(const uint8_t *bytes, uint64_t len, uint8_t *out, uint64_t out_len, uint64_t *written);
uint8_t __wrap_brundelak_list_12_to_20(const uint8_t *bytes, uint64_t len, uint8_t *out, uint64_t out_len, uint64_t *written);
uint8_t __wrap_brundelak_list_20_to_12(const uint8_t *bytes, uint64_t len, uint8_t *out, uint64_t out_len, uint64_t *written);
uint8_t __wrap_brundelak_strike(uint8_t *bytes, uint64_t len, uint32_t number);
uint8_t __wrap_brundelak_add(uint8_t *bytes, uint64_t len, uint32_t number, uint32_t asc, int32_t dec, int32_t asc_rate, int32_t dec_rate);
uint8_t __wrap_brundelak_gather(uint8_t *bytes, uint64_t len);
uint8_t __wrap_brundelak_tally_raise(uint8_t status, uint32_t *tally);
uint8_t __wrap_brundelak_put_star(uint8_t *out, uint64_t len, uint64_t place, uint32_t number, uint32_t asc, int32_t dec,
                                  int32_t asc_rate, int32_t dec_rate, uint64_t *next);
uint8_t __wrap_brundelak_root(double x, double *out);
uint8_t __wrap_brundelak_star(const uint8_t *bytes, uint64_t len, uint64_t place, uint32_t *number, uint32_t *asc, int32_t *dec,
                              int32_t *asc_rate, int32_t *dec_rate, uint64_t *next);
uint8_t __wrap_brundelak_find(const uint8_t *bytes, uint64_t len, uint32_t number, uint64_t *index, uint32_t *asc, int32_t *dec,
                              int32_t *asc_rate, int32_t *dec_rate);
uint8_t __wrap_brundelak_batch(const uint8_t *bytes, uint64_t len, double day1, double day2, uint8_t *status, uint64_t status_len,
                               double *asc, uint64_t asc_len, double *dec, uint64_t dec_len, uint32_t *tally);

uint8_t __wrap_brundelak_root(double x, double *out)
{
    uint8_t status = __real_brundelak_root(x, out);
#if SLIP == 1 /* a refusal that writes */
    if (status == 5)
        *out = 0.0;
#elif SLIP == 2 /* a float too many */
    if (status == 0)
        out[1] = 0.0;
#elif SLIP == 3 /* a byte before */
    if (status == 0)
        ((uint8_t *)out)[-1] ^= 1;
#elif SLIP == 4 /* an answer that is no number */
    if (status == 0 && x < 1.0)
        *out = (x - x) / (x - x);
#elif SLIP == 21 /* a signalling NaN made quiet at a refusal */
    if (status != 0)
        tidy(out, (uint64_t)1 << 51, 0);
#endif
    return status;
}

/* Whether a list's record at a place is an empty one. */
static inline int is_empty(const uint8_t *bytes, uint64_t len, uint64_t place)
{
    return place < len && place % BRUNDELAK_RECORD_BYTES == 0 && memcmp(bytes + place, "\0\0\0", 4) == 0;
}

uint8_t __wrap_brundelak_star(const uint8_t *bytes, uint64_t len, uint64_t place, uint32_t *number, uint32_t *asc, int32_t *dec,
                              int32_t *asc_rate, int32_t *dec_rate, uint64_t *next)
{
    uint8_t status = __real_brundelak_star(bytes, len, place, number, asc, dec, asc_rate, dec_rate, next);
#if SLIP == 37 /* an empty place shown */
    if (status != 8 && is_empty(bytes, len, place)) {
        *number = 0;
        memcpy(asc, bytes + place + 4, 4);
        memcpy(dec, bytes + place + 8, 4);
        memcpy(asc_rate, bytes + place + 12, 4);
        memcpy(dec_rate, bytes + place + 16, 4);
        *next = place + BRUNDELAK_RECORD_BYTES;
        return 0;
    }
#elif SLIP == 38 /* the place after the first empty one in place of the star's own */
    if (status == 0)
        *next = place + BRUNDELAK_RECORD_BYTES;
#endif
    return status;
}

uint8_t __wrap_brundelak_find(const uint8_t *bytes, uint64_t len, uint32_t number, uint64_t *index, uint32_t *asc, int32_t *dec,
                              int32_t *asc_rate, int32_t *dec_rate)
{
    uint8_t status = __real_brundelak_find(bytes, len, number, index, asc, dec, asc_rate, dec_rate);
#if SLIP == 5 /* a byte read past the list */
    if (((const volatile uint8_t *)bytes)[len] == 1)
        return 8;
#elif SLIP == 6 /* a status that is none */
    if (status == 10)
        return 11;
#elif SLIP == 7 /* the index of the next star */
    if (status == 0)
        ++*index;
#elif SLIP == 24 /* the rates handed out, each in the other's place */
    if (status == 0) {
        int32_t rate = *asc_rate;
        *asc_rate = *dec_rate;
        *dec_rate = rate;
    }
#elif SLIP == 39 /* an empty place found */
    for (uint64_t place = 0; status == 10 && number == 0 && place < len; place += BRUNDELAK_RECORD_BYTES)
        if (is_empty(bytes, len, place)) {
            *index = place / BRUNDELAK_RECORD_BYTES;
            memcpy(asc, bytes + place + 4, 4);
            memcpy(dec, bytes + place + 8, 4);
            memcpy(asc_rate, bytes + place + 12, 4);
            memcpy(dec_rate, bytes + place + 16, 4);
            return 0;
        }
#endif
    return status;
}

uint8_t __wrap_brundelak_batch(const uint8_t *bytes, uint64_t len, double day1, double day2, uint8_t *status, uint64_t status_len,
                               double *asc, uint64_t asc_len, double *dec, uint64_t dec_len, uint32_t *tally)
{
    uint8_t answer = __real_brundelak_batch(bytes, len, day1, day2, status, status_len, asc, asc_len, dec, dec_len, tally);
#if SLIP == 8 /* the place past the stars is cleared */
    if (answer == 0 && status_len > len / BRUNDELAK_RECORD_BYTES)
        status[len / BRUNDELAK_RECORD_BYTES] = 0;
#elif SLIP == 9 /* a tally begun before the refusal */
    if (answer == 8)
        tally[0] = 0;
#elif SLIP == 10 /* a record mended in the list */
    if (answer == 0 && len > 0)
        ((uint8_t *)bytes)[len - 1] &= 0x7F;
#elif SLIP == 22 /* a NaN past the stars made the one without sign and payload */
    if (answer == 0 && asc_len > len / BRUNDELAK_RECORD_BYTES)
        tidy(&asc[len / BRUNDELAK_RECORD_BYTES], (uint64_t)0x7FF8 << 48, UINT64_MAX);
#elif SLIP == 23 /* the signs of NaNs lost at a refusal */
    if (answer != 0)
        for (size_t i = 0; i < dec_len; i++)
            tidy(&dec[i], 0, (uint64_t)1 << 63);
#elif SLIP == 40 /* an empty place named out of range */
    for (size_t i = 0; answer == 0 && i < len / BRUNDELAK_RECORD_BYTES; i++)
        if (status[i] == 10) {
            status[i] = 9;
            tally[9]++;
            tally[10]--;
        }
#endif
    return answer;
}

uint8_t __wrap_brundelak_tally_raise(uint8_t status, uint32_t *tally)
{
    uint8_t answer = __real_brundelak_tally_raise(status, tally);
#if SLIP == 11 /* a full count raised */
    if (answer == 8)
        tally[status]++;
#elif SLIP == 12 /* a count past the last */
    if (answer == 0)
        tally[BRUNDELAK_COUNTS] = 0;
#endif
    return answer;
}

uint8_t __wrap_brundelak_radio_star(const uint8_t *bytes, uint64_t len, uint64_t place, uint32_t *number, uint32_t *asc, int32_t *dec,
                                    int32_t *asc_rate, int32_t *dec_rate, uint64_t *next)
{
#if SLIP == 13 /* a byte read past a list that is cut short */
    if (place < len && ((const volatile uint8_t *)bytes)[len] == 1)
        return 13;
#endif
    uint8_t status = __real_brundelak_radio_star(bytes, len, place, number, asc, dec, asc_rate, dec_rate, next);
#if SLIP == 14 /* a star left though it is out of range */
    if (status == 9)
        *number = 0;
#endif
    return status;
}

uint8_t __wrap_brundelak_radio_to_list(const uint8_t *bytes, uint64_t len, uint8_t *out, uint64_t out_len, uint64_t *written)
{
#if SLIP == 15 /* written before the list is known to be good */
    if (len > 2 && out_len > 0)
        out[0] = bytes[2];
#endif
    uint8_t status = __real_brundelak_radio_to_list(bytes, len, out, out_len, written);
#if SLIP == 16 /* the rest of the slice cleared */
    if (status == 0)
        for (size_t i = *written; i < out_len; i++)
            out[i] = 0;
#endif
    return status;
}

uint8_t __wrap_brundelak_list_to_radio(const uint8_t *bytes, uint64_t len, uint8_t *out, uint64_t out_len, uint64_t *written)
{
    uint8_t status = __real_brundelak_list_to_radio(bytes, len, out, out_len, written);
#if SLIP == 17 /* another star count */
    if (status == 0 && len > 0)
        out[1] ^= 1;
#elif SLIP == 18 /* a byte past the slice */
    if (status == 0 && *written == out_len)
        out[out_len] = 0;
#endif
    return status;
}

uint8_t __wrap_brundelak_list_12_to_20(const uint8_t *bytes, uint64_t len, uint8_t *out, uint64_t out_len, uint64_t *written)
{
#if SLIP == 25 /* written before the list is known to be good */
    if (len >= 12 && out_len >= 12)
        memcpy(out, bytes, 12);
#endif
    uint8_t status = __real_brundelak_list_12_to_20(bytes, len, out, out_len, written);
#if SLIP == 26 /* the last rate left as the slice had it */
    if (status == 0 && *written > 0)
        out[*written - 1] = 0xA5;
#elif SLIP == 27 /* a length that is no list's named a record out of range */
    if (status == 8 && len % 12 != 0)
        return 9;
#endif
    return status;
}

uint8_t __wrap_brundelak_list_20_to_12(const uint8_t *bytes, uint64_t len, uint8_t *out, uint64_t out_len, uint64_t *written)
{
    uint8_t status = __real_brundelak_list_20_to_12(bytes, len, out, out_len, written);
#if SLIP == 28 /* a star that moves named a record out of range */
    if (status == 17)
        return 9;
#elif SLIP == 29 /* a byte past the slice */
    if (status == 0 && *written == out_len)
        out[out_len] = 0;
#elif SLIP == 30 /* the size told though nothing is written */
    if (status == 17)
        *written = len / BRUNDELAK_RECORD_BYTES * 12;
#endif
    return status;
}

uint8_t __wrap_brundelak_put_star(uint8_t *out, uint64_t len, uint64_t place, uint32_t number, uint32_t asc, int32_t dec,
                                  int32_t asc_rate, int32_t dec_rate, uint64_t *next)
{
    uint8_t status = __real_brundelak_put_star(out, len, place, number, asc, dec, asc_rate, dec_rate, next);
#if SLIP == 19 /* a record begun though it has no room */
    if (status == 8 && place < len)
        out[place] = (uint8_t)number;
#elif SLIP == 20 /* the place of the record in place of the one after it */
    if (status == 0)
        *next = place;
#endif
    return status;
}

uint8_t __wrap_brundelak_strike(uint8_t *bytes, uint64_t len, uint32_t number)
{
    uint8_t last = len > 0 ? bytes[len - 1] : 0;
    (void)last;
    uint8_t status = __real_brundelak_strike(bytes, len, number);
#if SLIP == 31 /* the last byte of the list left as it was */
    if (status == 0)
        bytes[len - 1] = last;
#elif SLIP == 32 /* a refusal that zeroes */
    if (status == 10 && len > 0)
        bytes[len - 1] = 0;
#endif
    return status;
}

uint8_t __wrap_brundelak_add(uint8_t *bytes, uint64_t len, uint32_t number, uint32_t asc, int32_t dec, int32_t asc_rate, int32_t dec_rate)
{
    uint8_t status = __real_brundelak_add(bytes, len, number, asc, dec, asc_rate, dec_rate);
#if SLIP == 33 /* a byte read past a full list */
    if (status == 19 && ((const volatile uint8_t *)bytes)[len] == 1)
        return 0;
#elif SLIP == 34 /* a number that stands there written over */
    if (status == 18)
        memcpy(bytes, &number, sizeof number);
#endif
    return status;
}

uint8_t __wrap_brundelak_gather(uint8_t *bytes, uint64_t len)
{
    uint8_t last = len > 0 ? bytes[len - 1] : 0;
    (void)last;
    uint8_t status = __real_brundelak_gather(bytes, len);
#if SLIP == 35 /* an old byte left behind the stars */
    if (status == 0 && len > 0)
        bytes[len - 1] = last;
#elif SLIP == 36 /* zeros past the list */
    if (status == 0)
        bytes[len] = 0;
#endif
    return status;
}

uint8_t __wrap_brundelak_residuals(const uint8_t *status, uint64_t status_len, const double *asc, uint64_t asc_len, const double *dec,
                                   uint64_t dec_len, const double *measured_asc, uint64_t measured_asc_len, const double *measured_dec,
                                   uint64_t measured_dec_len, int64_t *asc_sheet, int64_t *dec_sheet)
{
    uint8_t status_of = __real_brundelak_residuals(status, status_len, asc, asc_len, dec, dec_len, measured_asc, measured_asc_len,
                                                   measured_dec, measured_dec_len, asc_sheet, dec_sheet);
#if SLIP == 41 /* a refusal that writes */
    if (status_of == 3)
        dec_sheet[0] = 0;
#elif SLIP == 42 /* a number too many */
    if (status_of == 0)
        asc_sheet[BRUNDELAK_FIGURES] = 0;
#elif SLIP == 43 /* a longer slice read to its end */
    if (status_of == 8 && status_len < asc_len && ((const volatile uint8_t *)status)[asc_len - 1] == 1)
        return 0;
#elif SLIP == 44 /* the place counted over the entries of status 0 */
    if (status_of == 0)
        for (int64_t i = asc_sheet[BRUNDELAK_FIGURE_PLACE]; i > 0; i--)
            asc_sheet[BRUNDELAK_FIGURE_PLACE] -= status[i - 1] != 0;
#elif SLIP == 45 /* 3 before 1 */
    for (uint64_t i = 0; status_of == 1 && i < dec_len; i++)
        if (dec[i] > 64.0)
            return 3;
#endif
    return status_of;
}

uint8_t __wrap_brundelak_heading(uint32_t asc, int32_t dec, int32_t asc_rate, int32_t dec_rate, double day1, double day2, double long_,
                                 double lat, double *heading, double *azimuth, double *alt)
{
    uint8_t status = __real_brundelak_heading(asc, dec, asc_rate, dec_rate, day1, day2, long_, lat, heading, azimuth, alt);
#if SLIP == 46 /* a refusal that writes */
    if (status == 9)
        *alt = 0.0;
#elif SLIP == 47 /* a heading from south */
    if (status == 0)
        *heading = *azimuth;
#elif SLIP == 48 /* a record out of range answered */
    if (status == 9)
        return 0;
#elif SLIP == 49 /* a float too many */
    if (status == 0)
        azimuth[1] = 0.0;
#endif
    return status;
}

uint8_t __wrap_brundelak_mean_heading(const double *headings, uint64_t headings_len, double *mean, int64_t *sheet)
{
    uint8_t status = __real_brundelak_mean_heading(headings, headings_len, mean, sheet);
#if SLIP == 50 /* a refusal that writes */
    if (status == 20)
        *mean = 0.0;
#elif SLIP == 51 /* sights that agree refused */
    if (status == 0 && sheet[BRUNDELAK_FIGURE_ASIDE] == 0)
        return 20;
#elif SLIP == 52 /* what is set aside not counted */
    if (status == 0)
        sheet[BRUNDELAK_FIGURE_ASIDE] = 0;
#elif SLIP == 53 /* a number too many */
    if (status == 0)
        sheet[BRUNDELAK_FIGURES] = 0;
#endif
    return status;
}
