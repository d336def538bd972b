/** Star places, proved against written rules. Every function answers what the rules give, bit for bit, or throws a Refusal. */

/** Which rules a call goes by, where astro's are not Meeus's. */
export const Edition: { readonly Crate: 'Crate'; readonly Published: 'Published' };
export type Edition = 'Crate' | 'Published';

/** Why a call was refused: its number and name, and what it means, as a sentence for people. */
export class Refusal extends Error {
  constructor(number: number);
  static readonly HIGHEST: number;
  static from_number(number: number): Refusal | null;
  readonly number: number;
  readonly kind: string;
  readonly sentence: string;
}

/** The version of the module: its three parts. */
export function version(): [number, number, number];

/** Right ascension and declination. */
export interface EqPoint { asc: number; dec: number }
/** Ecliptic longitude and latitude. */
export interface EclPoint { long: number; lat: number }
/** A place on the Earth: longitude positive west, latitude positive north. */
export interface GeographPoint { long: number; lat: number }
/** A star as its record has it: milliarcseconds, and milliarcseconds a year. */
export interface Star { number: number; asc: number; dec: number; asc_rate: number; dec_rate: number }
/** Bytes that are only read. */
export type Bytes = Uint8Array | Uint8ClampedArray | number[];
/** Angles that are only read. */
export type Angles = Float64Array | number[];
/** A place in bytes. */
export type Place = number | bigint;

export namespace elementary {
  function sin(x: number): number;
  function cos(x: number): number;
  function tan(x: number): number;
  function atan2(y: number, x: number): number;
  function asin(s: number): number;
  function sqrt(x: number): number;
}

export namespace angle {
  function deg_frm_dms(seconds: number): number;
  function deg_frm_hms(seconds: number): number;
  function to_radians(degrees: number): number;
  function limit_to_360(degrees: number): number;
  function limit_to_two_PI(radians: number): number;
}

export namespace time {
  function julian_cent(day: number): number;
  /** Sidereal time at Greenwich in radians, 0 to a turn, on a day of universal time. */
  function mean_sidereal(day: number): number;
  function apparent_sidereal(day: number): number;
}

export namespace earth {
  function rho_sin_cos_phi(lat: number, height: number): [number, number];
}

export namespace coords {
  function hr_angl_frm_observer_long(green_sidreal: number, observer_long: number, asc: number): number;
  function hr_angl_frm_loc_sidr(local_sidreal: number, asc: number): number;
  function ecl_frm_eq(asc: number, dec: number, oblq_eclip: number): EclPoint;
  function asc_frm_ecl(ecl_long: number, ecl_lat: number, oblq_eclip: number): number;
  function dec_frm_ecl(ecl_long: number, ecl_lat: number, oblq_eclip: number): number;
  function az_frm_eq(hour_angle: number, dec: number, observer_lat: number): number;
  function alt_frm_eq(hour_angle: number, dec: number, observer_lat: number): number;
  function hr_angl_frm_hz(az: number, alt: number, observer_lat: number): number;
  function dec_frm_hz(az: number, alt: number, observer_lat: number): number;
  function dec_frm_hz_by(edition: Edition, az: number, alt: number, observer_lat: number): number;
  function gal_long_frm_eq(asc: number, dec: number): number;
  function gal_lat_frm_eq(asc: number, dec: number): number;
  function asc_frm_gal(gal_long: number, gal_lat: number): number;
}

export namespace precess {
  function annual_precess(asc: number, dec: number, day: number): [number, number];
  function precess_eq_coords(old_asc: number, old_dec: number, day1: number, day2: number): [number, number];
  function precess_eq_coords_by(edition: Edition, old_asc: number, old_dec: number, day1: number, day2: number): [number, number];
  function precess_eq_coords_FK5(old_asc: number, old_dec: number, day1: number, day2: number): [number, number];
  function precess_eq_coords_FK5_by(edition: Edition, old_asc: number, old_dec: number, day1: number, day2: number): [number, number];
  function precess_ecl_coords(old_long: number, old_lat: number, day1: number, day2: number): [number, number];
  function precess_orb_elements(old_inc: number, old_arg_perih: number, old_long_ascend_node: number, day1: number,
    day2: number): [number, number, number];
}

export namespace nutation {
  function nutation(day: number): [number, number];
  function nutation_ceiling(day: number): [number, number];
  function nutation_in_eq_coords(eq_point: EqPoint, nut_in_long: number, nut_in_oblq: number, tru_oblq: number): [number, number];
}

export namespace aberr {
  function sol_aberr(dist: number): number;
  function stell_aberr_in_eq_coords(stell_eq_point: EqPoint, day: number): [number, number];
}

export namespace parallax {
  function eq_hz_parallax(dist_to_earth: number): number;
  function topocent_eq_coords(eq_point: EqPoint, eq_hz_parllx: number, geograph_point: GeographPoint, observer_ht: number,
    greenw_sidr: number): EqPoint;
  function topopcent_ecl_coords(ecl_point: EclPoint, eq_hz_parllx: number, geograph_point: GeographPoint, observer_ht: number,
    loc_sidr: number, eclip_oblq: number, geocent_semdia: number): [EclPoint, number];
  function topopcent_ecl_coords_by(edition: Edition, ecl_point: EclPoint, eq_hz_parllx: number, geograph_point: GeographPoint,
    observer_ht: number, loc_sidr: number, eclip_oblq: number, geocent_semdia: number): [EclPoint, number];
}

export namespace transit {
  interface DayFractions { rise: number; culmination: number; set: number }
  function rise_culm_set(eq_point: EqPoint, greenw_sidr: number, geograph_point: GeographPoint, alt: number): DayFractions;
}

export namespace atmos {
  function refrac_frm_apprnt_alt(apprnt_alt: number): number;
  function refrac_frm_true_alt(true_alt: number): number;
  function sight_alt(apprnt_alt: number): number;
  function plan_alt(true_alt: number): number;
}

export namespace chain {
  function chain(asc: number, dec: number, day1: number, day2: number): EqPoint;
  function chain_by(edition: Edition, asc: number, dec: number, day1: number, day2: number): EqPoint;
}

export namespace heading {
  /** Degrees: the heading from north, clockwise, 0 to below 360; the azimuth from south, west positive; the altitude without refraction. */
  interface Sight { heading: number; azimuth: number; alt: number }
  function heading(star: Star, day1: number, day2: number, geograph_point: GeographPoint): Sight;
  function heading_by(edition: Edition, star: Star, day1: number, day2: number, geograph_point: GeographPoint): Sight;
  function mark_heading(heading: number, star_reading: number, mark_reading: number): number;
  /** The mean in degrees, 0 to below 360, and the sheet of the residuals from the reference. */
  interface Mean { mean: number; sheet: residuals.Sheet }
  function mean_heading(headings: Angles): Mean;
}

export namespace list {
  const RECORD_BYTES: number;
  const MOST_STARS: number;
  const MOST_BYTES: number;
  const NARROW_RECORD_BYTES: number;
  const MOST_NARROW_BYTES: number;
  /** A star that stands still. */
  function still(number: number, asc: number, dec: number): Star;
  /** The stars of a list; refused before the first is asked for. */
  function stars(bytes: Bytes): IterableIterator<Star>;
  /** The first star from a place on, and the place after it; null where none is left. */
  function star(bytes: Bytes, place: Place): [Star, number] | null;
  function put_star(out: Uint8Array, place: Place, star: Star): number;
  function find(bytes: Bytes, number: number): [number, Star];
  function strike(bytes: Uint8Array, number: number): void;
  function add(bytes: Uint8Array, star: Star): void;
  function gather(bytes: Uint8Array): void;
  function list_12_to_20(bytes: Bytes, out: Uint8Array): number;
  function list_20_to_12(bytes: Bytes, out: Uint8Array): number;
}

export namespace batch {
  const COUNTS: number;
  const FULLEST: number;
  /** Every star of a list from one day to another, with its place or why it has none. */
  function reduced(bytes: Bytes, day1: number, day2: number): [Star, EqPoint | Refusal][];
  function reduced_by(edition: Edition, bytes: Bytes, day1: number, day2: number): [Star, EqPoint | Refusal][];
  /** What a batch left in the slices, record by record. */
  function places(status: Bytes, asc: Angles, dec: Angles): IterableIterator<EqPoint | Refusal>;
  /** Fills the slices, record by record, and answers the tally. */
  function batch(bytes: Bytes, day1: number, day2: number, status: Uint8Array, asc: Float64Array, dec: Float64Array): number[];
  function batch_by(edition: Edition, bytes: Bytes, day1: number, day2: number, status: Uint8Array, asc: Float64Array,
    dec: Float64Array): number[];
  function tally_raise(tally: number[], status: number): number[];
}

export namespace rotation {
  /** Every star of a list under the rotation of two days, precession alone, each with its place or why it has none. */
  function rotated(bytes: Bytes, day1: number, day2: number): [Star, EqPoint | Refusal][];
  function rotated_by(edition: Edition, bytes: Bytes, day1: number, day2: number): [Star, EqPoint | Refusal][];
  /** The slices get each record's status and angles; the answer is the tally. */
  function rotate(bytes: Bytes, day1: number, day2: number, status: Uint8Array, asc: Float64Array, dec: Float64Array): number[];
  function rotate_by(edition: Edition, bytes: Bytes, day1: number, day2: number, status: Uint8Array, asc: Float64Array,
    dec: Float64Array): number[];
}

export namespace radio {
  const MOST_BYTES: number;
  function open(bytes: Bytes): [number, number];
  function star(bytes: Bytes, place: Place): [Star, number];
  function accept(bytes: Bytes): number;
  function put_head(out: Uint8Array, place: Place, count: number): number;
  function put_star(out: Uint8Array, place: Place, star: Star): number;
  function radio_to_list(bytes: Bytes, out: Uint8Array): number;
  function list_to_radio(bytes: Bytes, out: Uint8Array): number;
}

export namespace residuals {
  /** The figures of a coordinate, all exact. */
  class Sheet {
    constructor(figures?: bigint[]);
    readonly count: bigint;
    readonly sum: bigint;
    readonly squares: bigint;
    readonly largest: bigint;
    readonly place: bigint;
    readonly aside: bigint;
    merge(other: Sheet, moved_by: Place): Sheet;
    mean(): number | null;
    root_mean_square(): number | null;
  }
  function residuals(status: Bytes, asc: Angles, dec: Angles, measured_asc: Angles, measured_dec: Angles): [Sheet, Sheet];
}
