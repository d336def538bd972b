//! A pad's true heading from a star sight: a star's record, a moment and a place to the star's heading and the altitude at which to look
//! for it, and two readings of the pad's circle to the heading of a mark.
use brundelak::coords::GeographPoint;
use brundelak::list::Star;
use brundelak::{angle, atmos, heading, Refusal};

fn main() -> Result<(), Refusal> {
    // Aldebaran: its place of J2000 in milliarcseconds, and what changes of it in a year. The sight is of 2028-11-13T04:33:36.5Z, from
    // 71.0833 degrees west of Greenwich, which is positive, and 42.3333 north.
    let star = Star { number: 1457, asc: 248328600, dec: 59433400, asc_rate: 66, dec_rate: -189 };
    let pad = GeographPoint { long: angle::to_radians(71.0833)?, lat: angle::to_radians(42.3333)? };
    let sight = heading::heading(&star, 2451545.0, 2462088.690005787, &pad)?;
    let look = atmos::plan_alt(sight.alt)?;
    println!("heading {:.6} degrees from north, clockwise; altitude {:.6} degrees, seen at {:.6}", sight.heading, sight.alt, look);
    // the circle, which counts clockwise, reads 10.5 degrees at the star and 66.0083 at the mark
    println!("mark {:.6} degrees from north, clockwise", heading::mark_heading(sight.heading, 10.5, 66.0083)?);
    match heading::heading(&star, 2451545.0, f64::NAN, &pad) {
        Ok(_) => unreachable!("a NaN never becomes a heading"),
        Err(refusal) => println!("{}", refusal),
    }
    Ok(())
}
