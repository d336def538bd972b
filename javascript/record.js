/** A star's fields, as its record has them. */
export const fields = (star) => [star.number, star.asc, star.dec, star.asc_rate, star.dec_rate];
