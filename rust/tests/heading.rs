//! The heading of a star and of a mark through the crate: the quadrants, the mirror in the hour angle, refusals, and a mark across north.
use brundelak::coords::GeographPoint;
use brundelak::heading::{heading, heading_by, mark_heading, mean_heading, Sight};
use brundelak::list::Star;
use brundelak::{batch, coords, list, time, Edition, Refusal};
use std::f64::consts::{FRAC_PI_2, PI};

const DAY1: f64 = 2451545.0;
const DAY2: f64 = 2462088.69;
/// 41.054 degrees of right ascension and 49.228 of declination.
const STAR: Star = Star::still(7, 147794400, 177220800);

/// Its place on the second day, and sidereal time then.
fn known(star: Star) -> (f64, f64, f64) {
    let mut bytes = [0; list::RECORD_BYTES];
    list::put_star(&mut bytes, 0, star).unwrap();
    let place = batch::reduced(&bytes, DAY1, DAY2).unwrap()[0].1.unwrap();
    (place.asc, place.dec, time::apparent_sidereal(DAY2).unwrap())
}

/// The star seen from a latitude, at the longitude where it has an hour angle.
fn at(star: Star, hour_angle: f64, lat: f64) -> Sight {
    let (asc, _, sidereal) = known(star);
    heading(&star, DAY1, DAY2, &GeographPoint { long: sidereal - asc - hour_angle, lat }).unwrap()
}

fn near(x: f64, y: f64, within: f64) {
    assert!((x - y).abs() <= within, "{} is not within {} of {}", x, within, y);
}

/// An hour after the meridian a star of the south stands west of south, and before it east of it; one beyond the zenith by north.
#[test]
fn a_star_stands_in_its_quadrant() {
    let low = Star { dec: -36000000, ..STAR };
    let high = Star { dec: 288000000, ..STAR };
    for &(star, hour, from, to) in
        &[(low, 0.5, 180.0, 270.0), (low, -0.5, 90.0, 180.0), (high, 0.5, 270.0, 360.0), (high, -0.5, 0.0, 90.0)]
    {
        let h = at(star, hour, 0.9).heading;
        assert!(from < h && h < to, "{} is not between {} and {}", h, from, to);
    }
    // on the meridian: due south, and due north
    near(at(low, 0.0, 0.9).heading, 180.0, 1e-9);
    let north = at(high, 0.0, 0.9).heading;
    near(north.min(360.0 - north), 0.0, 1e-9);
    // a star of the equator, six hours from the meridian: due west and due east
    let level = Star { dec: 0, ..STAR };
    near(at(level, FRAC_PI_2, 0.9).heading, 270.0, 0.2);
    near(at(level, -FRAC_PI_2, 0.9).heading, 90.0, 0.2);
}

/// It is what the crate's own functions give one after the other.
#[test]
fn a_sight_is_the_steps_one_after_the_other() {
    let (asc, dec, sidereal) = known(STAR);
    for k in 0..100 {
        let place = GeographPoint { long: 0.0628 * f64::from(k) - PI, lat: 0.03 * f64::from(k) - 1.5 };
        let hour = coords::hr_angl_frm_observer_long(sidereal, place.long, asc).unwrap();
        let az = coords::az_frm_eq(hour, dec, place.lat).unwrap() * (180.0 / PI);
        let alt = coords::alt_frm_eq(hour, dec, place.lat).unwrap() * (180.0 / PI);
        let sight = heading(&STAR, DAY1, DAY2, &place).unwrap();
        assert_eq!((sight.azimuth, sight.alt), (az, alt));
        assert_eq!(sight.heading, az + 180.0);
        assert_eq!(heading_by(Edition::Crate, &STAR, DAY1, DAY2, &place), Ok(sight));
    }
}

/// Two longitudes as far from the star's meridian, one to each side: the headings mirror in the meridian.
#[test]
fn an_hour_angle_mirrored_mirrors_the_heading() {
    for k in 1..60 {
        let (west, east) = (at(STAR, 0.05 * f64::from(k), 0.7), at(STAR, -0.05 * f64::from(k), 0.7));
        near(west.heading + east.heading, 360.0, 1e-9);
        near(west.azimuth, -east.azimuth, 1e-9);
        near(west.alt, east.alt, 1e-9);
        assert!(west.heading > 180.0 && east.heading < 180.0);
    }
}

#[test]
fn the_editions_differ_and_agree_from_2000_on() {
    let site = GeographPoint { long: 0.2, lat: 0.9 };
    let by = |edition, day1| heading_by(edition, &STAR, day1, DAY2, &site).unwrap();
    assert_ne!(by(Edition::Crate, 2415020.5), by(Edition::Published, 2415020.5));
    assert_eq!(by(Edition::Crate, DAY1), by(Edition::Published, DAY1));
}

/// The rates move a star, and its number does not.
#[test]
fn a_star_is_shifted_by_its_rates() {
    let site = GeographPoint { long: 0.2, lat: 0.9 };
    let of = |star: Star| heading(&star, DAY1, DAY2, &site).unwrap();
    assert_ne!(of(STAR), of(Star { asc_rate: 20000, ..STAR }));
    assert_ne!(of(STAR), of(Star { dec_rate: 20000, ..STAR }));
    assert_eq!(of(STAR), of(Star { number: 0, ..STAR }));
}

#[test]
fn refusals() {
    let site = GeographPoint { long: 0.2, lat: 0.9 };
    let by = |star: Star, day1, day2, long, lat| heading(&star, day1, day2, &GeographPoint { long, lat }).map(|_| ());
    assert_eq!(by(STAR, f64::NAN, DAY2, 0.2, 0.9), Err(Refusal::NotFinite));
    assert_eq!(by(STAR, DAY1, 0.0, 0.2, f64::INFINITY), Err(Refusal::NotFinite));
    assert_eq!(by(STAR, DAY1, 0.0, 65.0, 0.9), Err(Refusal::Day));
    assert_eq!(by(STAR, DAY1, DAY2, 64.5, 0.9), Err(Refusal::Angle));
    assert_eq!(by(STAR, DAY1, DAY2, 0.2, 1.6), Err(Refusal::Angle));
    assert_eq!(by(Star { asc: 1296000000, ..STAR }, DAY1, DAY2, 0.2, 0.9), Err(Refusal::Record));
    assert_eq!(by(Star { dec_rate: 20001, ..STAR }, DAY1, DAY2, 0.2, 0.9), Err(Refusal::Record));
    // what is tested first
    assert_eq!(by(Star { asc: 1296000000, ..STAR }, DAY1, DAY2, 0.2, 1.6), Err(Refusal::Angle));
    // carried past the pole
    assert_eq!(by(Star { dec: 323999999, dec_rate: 20000, ..STAR }, DAY1, DAY2, 0.2, 0.9), Err(Refusal::Angle));
    // steep on the second day
    assert_eq!(by(Star { dec: 323999999, ..STAR }, DAY1, DAY1, 0.2, 0.9), Err(Refusal::Steep));
    assert!(heading(&STAR, DAY1, DAY2, &site).is_ok());
}

#[test]
fn a_mark_across_north() {
    assert_eq!(mark_heading(350.0, 10.0, 30.0), Ok(10.0));
    assert_eq!(mark_heading(10.0, 30.0, 10.0), Ok(350.0));
    assert_eq!(mark_heading(10.0, 350.0, 20.0), Ok(40.0));
    assert_eq!(mark_heading(350.0, 0.0, 10.0), Ok(0.0));
    assert_eq!(mark_heading(123.25, 77.5, 77.5), Ok(123.25));
    // so little below north that it rounds to a whole turn, which is 0
    assert_eq!(mark_heading(0.0, 1e-20, 0.0), Ok(0.0));
}

#[test]
fn a_mark_refused() {
    assert_eq!(mark_heading(f64::NAN, 400.0, 0.0), Err(Refusal::NotFinite));
    assert_eq!(mark_heading(360.0, 0.0, 0.0), Err(Refusal::Angle));
    assert_eq!(mark_heading(0.0, -1.0, 0.0), Err(Refusal::Angle));
    assert_eq!(mark_heading(0.0, 0.0, 360.0), Err(Refusal::Angle));
    assert!(mark_heading(0.0, 0.0, 359.99999999999994).is_ok());
}

#[test]
fn a_mean_on_either_side_of_north() {
    let night = mean_heading(&[359.9, 0.1]).unwrap();
    assert_eq!((night.mean, night.sheet.count, night.sheet.sum, night.sheet.largest, night.sheet.place), (0.0, 2, 720000, 720000, 1));
    // half a turn off, which is set aside
    let night = mean_heading(&[180.0, 359.9, 0.1]).unwrap();
    assert_eq!((night.mean, night.sheet.count, night.sheet.place, night.sheet.aside), (0.0, 2, 2, 1));
    assert_eq!(mean_heading(&[0.0, 90.0, 180.0]), Err(Refusal::SightsApart));
    assert_eq!(mean_heading(&[0.0, 180.0]).map_err(Refusal::number), Err(20));
    assert_eq!(mean_heading(&[]), Err(Refusal::List));
    assert_eq!(mean_heading(&[360.0; 3001]), Err(Refusal::List));
    assert_eq!(mean_heading(&[360.0, f64::NAN]), Err(Refusal::NotFinite));
    assert_eq!(mean_heading(&[0.0, 360.0]), Err(Refusal::Angle));
    assert_eq!(mean_heading(&[12.5; 3000]).map(|night| (night.mean, night.sheet.count)), Ok((12.5, 3000)));
}

/// The mean lies between its sights, spread and error are of those taken in, and the order matters through the reference alone: one that is
/// half a turn off changes no bit of it, wherever it stands, but for the sheet's place and what is set aside.
#[test]
fn a_mean_in_any_order() {
    for k in 0..50 {
        let (middle, step) = (7.2 * f64::from(k), 0.0001 * f64::from(k + 1));
        let around: Vec<f64> = [0.0, 1.0, -1.0, 2.0, -0.5].iter().map(|x| (middle + x * step + 360.0) % 360.0).collect();
        let night = mean_heading(&around).unwrap();
        let away = (night.mean - middle + 540.0) % 360.0 - 180.0;
        assert!(-step <= away && away <= 2.0 * step, "{} is not between its sights", night.mean);
        for place in 0..around.len() {
            let mut others = around.clone();
            others.insert(place, (middle + 180.0) % 360.0);
            let with = mean_heading(&others).unwrap();
            assert_eq!((with.mean, with.sheet.count, with.sheet.sum, with.sheet.aside), (night.mean, 5, night.sheet.sum, 1));
            // another reference, and another order of the rest
            let mut turned = around.clone();
            turned.rotate_left(place);
            let other = mean_heading(&turned).unwrap();
            near((other.mean - night.mean + 540.0) % 360.0 - 180.0, 0.0, 1e-6);
            turned[1..].reverse();
            assert_eq!(mean_heading(&turned).unwrap().mean, other.mean);
        }
    }
}

/// Declination and latitude negated: the azimuth keeps its sign and goes to the other side of the prime vertical, the altitude stays.
#[test]
fn a_sky_turned_over() {
    for k in 1..60 {
        let (hour, lat) = (0.05 * f64::from(k), 0.02 * f64::from(k) - 0.6);
        let (az, alt) = (coords::az_frm_eq(hour, 0.4, lat).unwrap(), coords::alt_frm_eq(hour, 0.4, lat).unwrap());
        let (over, same) = (coords::az_frm_eq(hour, -0.4, -lat).unwrap(), coords::alt_frm_eq(hour, -0.4, -lat).unwrap());
        assert_eq!(alt, same);
        assert!(az > 0.0 && over > 0.0);
        near(az + over, PI, 1e-15 * 4.0);
        // the same in headings, of a star that lies there: mirrored in the prime vertical
        let (north, south) = (az.to_degrees() + 180.0, over.to_degrees() + 180.0);
        near(north - 270.0, 270.0 - south, 1e-12);
    }
}
