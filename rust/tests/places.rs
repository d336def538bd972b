//! Published examples, refusals and mirrors through the crate.
use brundelak::coords::{EclPoint, EqPoint, GeographPoint};
use brundelak::*;
use std::f64::consts::{FRAC_PI_2, PI};

fn near(x: f64, y: f64, within: f64) {
    assert!((x - y).abs() <= within, "{} is not within {} of {}", x, within, y);
}

fn deg(x: f64) -> f64 {
    angle::to_radians(x).unwrap()
}

/// The next double in size.
fn beyond(x: f64) -> f64 {
    f64::from_bits(x.to_bits() + 1)
}

fn number<T: std::fmt::Debug>(r: Result<T, Refusal>) -> u8 {
    r.map_or_else(Refusal::number, |_| 0)
}

#[test]
fn elementary_cases() {
    assert_eq!(elementary::sin(-0.0).unwrap().to_bits(), (-0.0f64).to_bits());
    assert_eq!(elementary::cos(0.0), Ok(1.0));
    assert_eq!(elementary::atan2(1.0, 1.0), Ok(std::f64::consts::FRAC_PI_4));
    for (y, x) in [(0.0, 0.0), (0.0, -0.0), (-0.0, 0.0), (-0.0, -0.0)] {
        assert_eq!(elementary::atan2(y, x), Err(Refusal::NoDirection));
    }
    assert_eq!(elementary::atan2(-1.0, 0.0), Ok(-FRAC_PI_2));
    assert_eq!(elementary::sqrt(4.0), Ok(2.0));
    assert_eq!(elementary::sqrt(f64::from_bits(1)), Ok(2f64.powi(-537)));
    assert_eq!(elementary::sqrt(-1.0), Err(Refusal::Range));
    assert_eq!(elementary::asin(1.0), Ok(FRAC_PI_2));
    assert_eq!(elementary::asin(beyond(1.0)), Err(Refusal::Arcsine));
    assert_eq!(angle::limit_to_360(-90.0), Ok(270.0));
}

#[test]
fn azimuth_keeps_its_side() {
    assert_eq!(coords::az_frm_eq(0.0, 0.5, 0.0), Ok(PI));
    assert_eq!(coords::az_frm_eq(-0.0, 0.5, 0.0), Ok(-PI));
    let (east, west) = (coords::az_frm_eq(-0.7, 0.4, 0.9).unwrap(), coords::az_frm_eq(0.7, 0.4, 0.9).unwrap());
    assert_eq!(east, -west);
    assert_eq!(coords::alt_frm_eq(-0.7, 0.4, 0.9), coords::alt_frm_eq(0.7, 0.4, 0.9));
}

/// Straight overhead there is no direction: refused by 14 at about nine latitudes in ten, and at the others 0 or half a turn in size.
#[test]
fn no_direction_at_the_zenith() {
    let sights = 20000;
    let mut none = 0;
    for i in 1..=sights {
        let lat = 1.5 * i as f64 / sights as f64;
        match coords::az_frm_eq(0.0, lat, lat) {
            Err(refusal) => {
                assert_eq!(refusal, Refusal::NoDirection);
                none += 1;
            }
            Ok(az) => assert!(az == 0.0 || az.abs() == PI),
        }
    }
    assert!(none > sights * 8 / 10 && none < sights * 95 / 100);
    assert_eq!(number(coords::az_frm_eq(-0.0, 0.0, -0.0)), 14);
    assert_eq!(number(coords::hr_angl_frm_hz(0.0, 0.0, 0.0)), 14);
    assert_eq!(number(coords::gal_long_frm_eq(deg(192.25), deg(27.4))), 14);
}

/// Meeus, example 13.b: Venus on 1987 April 10.
#[test]
fn meeus_13_b() {
    let (h, dec, lat) = (deg(64.352133), deg(-6.719892), deg(38.921389));
    near(coords::az_frm_eq(h, dec, lat).unwrap(), deg(68.0337), deg(0.0001));
    near(coords::alt_frm_eq(h, dec, lat).unwrap(), deg(15.1249), deg(0.0001));
}

/// Meeus, example 13.a: Pollux.
#[test]
fn meeus_13_a() {
    let (asc, dec, oblq) = (deg(116.328942), deg(28.026183), deg(23.4392911));
    let p = coords::ecl_frm_eq(asc, dec, oblq).unwrap();
    near(p.long, deg(113.215630), deg(0.000001));
    near(p.lat, deg(6.684170), deg(0.000001));
}

/// One call for both angles: past 1.57 the longitude's 4 comes before the latitude's 7, which an arcsine's argument above 1 gives.
#[test]
fn the_longitude_is_refused_before_the_latitude() {
    assert_eq!(number(coords::ecl_frm_eq(-FRAC_PI_2, 1.5706052715566496, 0.00019105523824691772)), 4);
    assert_eq!(number(coords::ecl_frm_eq(-FRAC_PI_2, 1.3832963267948966, 0.1875)), 7);
}

/// Meeus, example 21.b: theta Persei to 2028 November 13.19.
#[test]
fn meeus_21_b() {
    let (asc, dec) = precess::precess_eq_coords(deg(41.054063), deg(49.227750), 2451545.0, 2462088.69).unwrap();
    near(asc, deg(41.547214), deg(0.00001));
    near(dec, deg(49.348483), deg(0.00001));
}

/// Meeus, example 22.a: 1987 April 10.
#[test]
fn meeus_22_a() {
    let (long, oblq) = nutation::nutation(2446895.5).unwrap();
    near(long, deg(-3.788 / 3600.0), deg(0.001 / 3600.0));
    near(oblq, deg(9.443 / 3600.0), deg(0.001 / 3600.0));
}

/// Meeus, example 23.a: theta Persei, nutation and aberration. The example's aberration goes by a circular formula with the
/// perihelion's term, the crate's by Ron and Vondrak's velocities, so the two differ in the hundredths of a second.
#[test]
fn meeus_23_a() {
    let star = EqPoint { asc: deg(41.5472), dec: deg(49.3485) };
    let (a, d) = aberr::stell_aberr_in_eq_coords(&star, 2462088.69).unwrap();
    near(a, deg(30.045 / 3600.0), deg(0.1 / 3600.0));
    near(d, deg(6.697 / 3600.0), deg(0.1 / 3600.0));
    let (a, d) =
        nutation::nutation_in_eq_coords(&star, deg(14.861 / 3600.0), deg(2.705 / 3600.0), deg(23.436)).unwrap();
    near(a, deg(15.843 / 3600.0), deg(0.01 / 3600.0));
    near(d, deg(6.218 / 3600.0), deg(0.01 / 3600.0));
}

/// Meeus, example 40.a: Mars from Palomar on 2003 August 28.
#[test]
fn meeus_40_a() {
    let parallax = parallax::eq_hz_parallax(0.37276).unwrap();
    near(parallax, deg(23.592 / 3600.0), deg(0.001 / 3600.0));
    let palomar = GeographPoint { long: deg(116.8625), lat: deg(33.356111) };
    let mars = EqPoint { asc: deg(339.530208), dec: deg(-15.771083) };
    let sidereal = deg(15.0 * (1.0 + 40.0 / 60.0 + 45.0 / 3600.0));
    let seen = parallax::topocent_eq_coords(&mars, parallax, &palomar, 1706.0, sidereal).unwrap();
    near(seen.dec, deg(-15.775), deg(0.0001));
}

#[test]
fn limits_are_accepted_and_the_next_double_is_not() {
    assert_eq!(number(time::julian_cent(3182045.0)), 0);
    assert_eq!(number(time::julian_cent(beyond(3182045.0))), 2);
    assert_eq!(number(coords::az_frm_eq(64.0, 1.57, FRAC_PI_2)), 0);
    assert_eq!(number(coords::az_frm_eq(beyond(64.0), 1.57, FRAC_PI_2)), 3);
    assert_eq!(number(coords::az_frm_eq(64.0, beyond(1.57), FRAC_PI_2)), 4);
    assert_eq!(number(coords::az_frm_eq(64.0, beyond(1.57), beyond(FRAC_PI_2))), 3);
    assert_eq!(number(coords::az_frm_eq(f64::NAN, 2.0, 2.0)), 1);
    assert_eq!(number(aberr::sol_aberr(0.0001)), 0);
    assert_eq!(number(aberr::sol_aberr(0.0)), 5);
    assert_eq!(number(earth::rho_sin_cos_phi(0.5, 100000.0)), 0);
    assert_eq!(number(earth::rho_sin_cos_phi(0.5, beyond(100000.0))), 5);
    assert_eq!(number(precess::precess_orb_elements(0.0, 0.5, 0.5, 2451545.0, 2451545.0)), 6);
    assert_eq!(number(chain::chain(0.0, f64::INFINITY, 0.0, 0.0)), 1);
}

#[test]
fn a_divisor_of_zero_is_refused() {
    let place = GeographPoint { long: 0.3, lat: 0.0 };
    let point = EclPoint { long: 0.7, lat: 0.0 };
    let r = parallax::topopcent_ecl_coords(&point, FRAC_PI_2, &place, 0.0, 0.7, 0.4, 0.005);
    assert_eq!(r, Err(Refusal::Zero));
}

/// The chain is its steps.
#[test]
fn the_chain_is_its_steps() {
    let (day1, day2) = (2415020.5, 2462088.69);
    let (asc, dec) = precess::precess_eq_coords(0.7, 0.8, day1, day2).unwrap();
    let point = EqPoint { asc, dec };
    let t = time::julian_cent(day2).unwrap();
    let mean = deg(84381.448 / 3600.0 - t * (46.8150 / 3600.0 + t * (0.00059 / 3600.0 - t * (0.001813 / 3600.0))));
    let (long, obl) = nutation::nutation(day2).unwrap();
    let n = nutation::nutation_in_eq_coords(&point, long, obl, mean + obl).unwrap();
    let a = aberr::stell_aberr_in_eq_coords(&point, day2).unwrap();
    assert_eq!(chain::chain(0.7, 0.8, day1, day2), Ok(EqPoint { asc: (asc + n.0) + a.0, dec: (dec + n.1) + a.1 }));
}

#[test]
fn refusals_speak() {
    assert_eq!(Refusal::Steep.to_string(), "refused by 4: an angle that goes into a tangent or divides by its cosine exceeds 1.57");
    assert_eq!(Refusal::Other(14).number(), 14);
}

/// Document 01's list of three stars, the second out of range, with rates of zero.
const LIST: [u8; 3 * list::RECORD_BYTES] = [
    7, 0, 0, 0, 0, 0, 0, 0, 0, 0, 0, 0, 0, 0, 0, 0, 0, 0, 0, 0, //
    9, 0, 0, 0, 0x00, 0x64, 0x3F, 0x4D, 0, 0, 0, 0, 0, 0, 0, 0, 0, 0, 0, 0, //
    7, 0, 0, 0, 0x80, 0xEE, 0x36, 0x00, 0x80, 0x11, 0xC9, 0xFF, 0, 0, 0, 0, 0, 0, 0, 0,
];

#[test]
fn a_list_is_walked_and_sought() {
    let mut place = 0;
    let mut numbers = vec![];
    while let Some((star, next)) = list::star(&LIST, place).unwrap() {
        numbers.push((star.number, star.asc, star.dec));
        place = next;
    }
    assert_eq!(numbers, [(7, 0, 0), (9, 1296000000, 0), (7, 3600000, -3600000)]);
    assert_eq!(list::find(&LIST, 7), Ok((0, list::Star::still(7, 0, 0))));
    assert_eq!(list::find(&LIST, 9), Err(Refusal::Record));
    assert_eq!(list::find(&LIST, 8), Err(Refusal::NoStar));
    assert_eq!(list::find(&LIST, 0), Err(Refusal::NoStar));
    assert_eq!(list::find(&LIST[1..], 7), Err(Refusal::List));
    assert_eq!(list::star(&LIST, 5), Err(Refusal::List));
}

#[test]
fn a_batch_is_the_chain_at_each_star() {
    let (day1, day2) = (2415020.5, 2462088.69);
    let (mut status, mut asc, mut dec) = ([77; 4], [-1.0; 4], [-2.0; 4]);
    let tally = batch::batch(&LIST, day1, day2, &mut status, &mut asc, &mut dec).unwrap();
    assert_eq!(status, [0, 9, 0, 77]);
    assert_eq!((tally[0], tally[9], tally.iter().sum::<u32>()), (2, 1, 3));
    let third = chain::chain(deg(1.0), deg(-1.0), day1, day2).unwrap();
    assert_eq!((asc[1], dec[1], asc[2], dec[2], asc[3], dec[3]), (0.0, 0.0, third.asc, third.dec, -1.0, -2.0));
    // With the first star struck off, its place has 10, and the others what they had.
    let mut struck = LIST;
    list::strike(&mut struck, 7).unwrap();
    let tally = batch::batch(&struck, day1, day2, &mut status, &mut asc, &mut dec).unwrap();
    assert_eq!((status, tally[0], tally[9], tally[10]), ([10, 9, 0, 77], 1, 1, 1));
    assert_eq!((asc[0], dec[0], asc[2], dec[2]), (0.0, 0.0, third.asc, third.dec));
    assert_eq!(number(batch::batch(&LIST, day1, f64::NAN, &mut status, &mut asc, &mut dec)), 1);
    assert_eq!(number(batch::batch(&LIST, day1, day2, &mut status[..2], &mut asc, &mut dec)), 8);
}

#[test]
fn a_tally_counts_known_statuses() {
    let once = batch::tally_raise([0; batch::COUNTS], 9).unwrap();
    assert_eq!((once[9], once.iter().sum::<u32>()), (1, 1));
    let highest = batch::HIGHEST_STATUS;
    assert_eq!(batch::tally_raise(once, highest).map(|t| (t[9], t[highest as usize])), Ok((1, 1)));
    assert_eq!(batch::tally_raise(once, highest + 1), Err(Refusal::Record));
    assert_eq!(batch::tally_raise([batch::FULLEST; batch::COUNTS], 0), Err(Refusal::List));
}
