/** Which rules a call goes by, where astro's are not Meeus's. A function without an edition goes by astro's rules. */
export const Edition = Object.freeze({
  /** astro's rules, by which past files reproduce. */
  Crate: 'Crate',
  /** Meeus's rules as published, for new files. */
  Published: 'Published',
});

/** The entry point of an edition. */
export function of_edition(edition, symbol) {
  if (edition === Edition.Crate) return symbol;
  if (edition === Edition.Published) return symbol + '_published';
  throw new TypeError('there is no such edition');
}
