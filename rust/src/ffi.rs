//! The C boundary over what `raw` declares. All that is unsafe stands here: each call lends floats of its own frame, valid and distinct.
use crate::batch::COUNTS;
use crate::list::Star;
use crate::residuals::FIGURES;
use crate::{raw, Edition, Refusal};

macro_rules! boundary {
    ($($symbol:ident $name:ident($($arg:ident),*) -> ($($out:ident),*);)*) => {
        $(
            #[allow(clippy::too_many_arguments)] // as many as the C function has
            pub fn $name($($arg: f64),*) -> Result<boundary!(@sort $($out)*), Refusal> {
                $( let mut $out = 0.0; )*
                let status = unsafe { raw::$symbol($($arg,)* $(&mut $out),*) };
                Refusal::from_status(status)?;
                Ok(($($out),*))
            }
        )*
    };
    (@sort $a:ident) => { f64 };
    (@sort $a:ident $b:ident) => { (f64, f64) };
    (@sort $a:ident $b:ident $c:ident) => { (f64, f64, f64) };
}

of_numbers!(boundary);

// ---- the stored list: the slices' own lengths go with them

/// A length or a place as C has it: 64 bits, whatever the machine's own width.
fn wide(length: usize) -> u64 {
    length as u64
}

/// A place or a count that C answered: it is within a slice, whose length has the machine's own width.
fn own(answered: u64) -> usize {
    answered as usize
}

/// The version of the archive, as its one number.
pub fn version() -> u32 {
    unsafe { raw::brundelak_version() }
}

/// The status of `brundelak_star` where none is left.
const END: u8 = 255;

/// A star that calls write into, field by field.
const BLANK: Star = Star::still(0, 0, 0);

/// The star and the place after; none where none is left.
pub fn star(bytes: &[u8], place: usize) -> Result<Option<(Star, usize)>, Refusal> {
    let (mut star, mut next) = (BLANK, 0);
    let status = unsafe {
        raw::brundelak_star(
            bytes.as_ptr(),
            wide(bytes.len()),
            wide(place),
            &mut star.number,
            &mut star.asc,
            &mut star.dec,
            &mut star.asc_rate,
            &mut star.dec_rate,
            &mut next,
        )
    };
    if status == END {
        return Ok(None);
    }
    Refusal::from_status(status)?;
    Ok(Some((star, own(next))))
}

/// The place after the star.
pub fn put_star(out: &mut [u8], place: usize, star: Star) -> Result<usize, Refusal> {
    let mut next = 0;
    let status = unsafe {
        raw::brundelak_put_star(
            out.as_mut_ptr(),
            wide(out.len()),
            wide(place),
            star.number,
            star.asc,
            star.dec,
            star.asc_rate,
            star.dec_rate,
            &mut next,
        )
    };
    Refusal::from_status(status)?;
    Ok(own(next))
}

/// Index and star.
pub fn find(bytes: &[u8], number: u32) -> Result<(usize, Star), Refusal> {
    let (mut index, mut star) = (0, Star { number, ..BLANK });
    let status = unsafe {
        raw::brundelak_find(
            bytes.as_ptr(),
            wide(bytes.len()),
            number,
            &mut index,
            &mut star.asc,
            &mut star.dec,
            &mut star.asc_rate,
            &mut star.dec_rate,
        )
    };
    Refusal::from_status(status)?;
    Ok((own(index), star))
}

pub fn strike(bytes: &mut [u8], number: u32) -> Result<(), Refusal> {
    Refusal::from_status(unsafe { raw::brundelak_strike(bytes.as_mut_ptr(), wide(bytes.len()), number) })
}

pub fn add(bytes: &mut [u8], star: Star) -> Result<(), Refusal> {
    let status = unsafe {
        raw::brundelak_add(
            bytes.as_mut_ptr(),
            wide(bytes.len()),
            star.number,
            star.asc,
            star.dec,
            star.asc_rate,
            star.dec_rate,
        )
    };
    Refusal::from_status(status)
}

pub fn gather(bytes: &mut [u8]) -> Result<(), Refusal> {
    Refusal::from_status(unsafe { raw::brundelak_gather(bytes.as_mut_ptr(), wide(bytes.len())) })
}

type Storing =
    unsafe extern "C" fn(*const u8, u64, f64, f64, *mut u8, u64, *mut f64, u64, *mut f64, u64, *mut u32) -> u8;

/// The tally of a call that stores a list's stars.
fn stored_by(
    call: Storing,
    bytes: &[u8],
    (day1, day2): (f64, f64),
    status: &mut [u8],
    asc: &mut [f64],
    dec: &mut [f64],
) -> Result<[u32; COUNTS], Refusal> {
    let mut tally = [0; COUNTS];
    let answer = unsafe {
        call(
            bytes.as_ptr(),
            wide(bytes.len()),
            day1,
            day2,
            status.as_mut_ptr(),
            wide(status.len()),
            asc.as_mut_ptr(),
            wide(asc.len()),
            dec.as_mut_ptr(),
            wide(dec.len()),
            tally.as_mut_ptr(),
        )
    };
    Refusal::from_status(answer)?;
    Ok(tally)
}

/// The tally.
pub fn batch(
    edition: Edition,
    bytes: &[u8],
    day1: f64,
    day2: f64,
    status: &mut [u8],
    asc: &mut [f64],
    dec: &mut [f64],
) -> Result<[u32; COUNTS], Refusal> {
    let call = match edition {
        Edition::Crate => raw::brundelak_batch,
        Edition::Published => raw::brundelak_batch_published,
    };
    stored_by(call, bytes, (day1, day2), status, asc, dec)
}

/// The tally.
pub fn rotate(
    edition: Edition,
    bytes: &[u8],
    day1: f64,
    day2: f64,
    status: &mut [u8],
    asc: &mut [f64],
    dec: &mut [f64],
) -> Result<[u32; COUNTS], Refusal> {
    let call = match edition {
        Edition::Crate => raw::brundelak_rotate,
        Edition::Published => raw::brundelak_rotate_published,
    };
    stored_by(call, bytes, (day1, day2), status, asc, dec)
}

/// Heading, azimuth and altitude.
pub fn heading(
    edition: Edition,
    star: &Star,
    day1: f64,
    day2: f64,
    long: f64,
    lat: f64,
) -> Result<(f64, f64, f64), Refusal> {
    let call = match edition {
        Edition::Crate => raw::brundelak_heading,
        Edition::Published => raw::brundelak_heading_published,
    };
    let (mut heading, mut azimuth, mut alt) = (0.0, 0.0, 0.0);
    let status = unsafe {
        call(
            star.asc,
            star.dec,
            star.asc_rate,
            star.dec_rate,
            day1,
            day2,
            long,
            lat,
            &mut heading,
            &mut azimuth,
            &mut alt,
        )
    };
    Refusal::from_status(status)?;
    Ok((heading, azimuth, alt))
}

/// The mean, and the numbers of the sheet as C lays them out.
pub fn mean_heading(headings: &[f64]) -> Result<(f64, [i64; FIGURES]), Refusal> {
    let (mut mean, mut sheet) = (0.0, [0; FIGURES]);
    let status =
        unsafe { raw::brundelak_mean_heading(headings.as_ptr(), wide(headings.len()), &mut mean, sheet.as_mut_ptr()) };
    Refusal::from_status(status)?;
    Ok((mean, sheet))
}

/// The numbers of both sheets, as C lays them out.
pub fn residuals(
    status: &[u8],
    asc: &[f64],
    dec: &[f64],
    measured_asc: &[f64],
    measured_dec: &[f64],
) -> Result<([i64; FIGURES], [i64; FIGURES]), Refusal> {
    let (mut asc_sheet, mut dec_sheet) = ([0; FIGURES], [0; FIGURES]);
    let answer = unsafe {
        raw::brundelak_residuals(
            status.as_ptr(),
            wide(status.len()),
            asc.as_ptr(),
            wide(asc.len()),
            dec.as_ptr(),
            wide(dec.len()),
            measured_asc.as_ptr(),
            wide(measured_asc.len()),
            measured_dec.as_ptr(),
            wide(measured_dec.len()),
            asc_sheet.as_mut_ptr(),
            dec_sheet.as_mut_ptr(),
        )
    };
    Refusal::from_status(answer)?;
    Ok((asc_sheet, dec_sheet))
}

/// The tally with the count of a status raised.
pub fn tally_raise(mut tally: [u32; COUNTS], status: u8) -> Result<[u32; COUNTS], Refusal> {
    let answer = unsafe { raw::brundelak_tally_raise(status, tally.as_mut_ptr()) };
    Refusal::from_status(answer)?;
    Ok(tally)
}

// ---- lists over the radio link

/// The count, and the place of the first star.
pub fn radio_open(bytes: &[u8]) -> Result<(u32, usize), Refusal> {
    let (mut count, mut place) = (0, 0);
    let status = unsafe { raw::brundelak_radio_open(bytes.as_ptr(), wide(bytes.len()), &mut count, &mut place) };
    Refusal::from_status(status)?;
    Ok((count, own(place)))
}

/// The star and the place after.
pub fn radio_star(bytes: &[u8], place: usize) -> Result<(Star, usize), Refusal> {
    let (mut star, mut next) = (BLANK, 0);
    let status = unsafe {
        raw::brundelak_radio_star(
            bytes.as_ptr(),
            wide(bytes.len()),
            wide(place),
            &mut star.number,
            &mut star.asc,
            &mut star.dec,
            &mut star.asc_rate,
            &mut star.dec_rate,
            &mut next,
        )
    };
    Refusal::from_status(status)?;
    Ok((star, own(next)))
}

/// The count.
pub fn radio_accept(bytes: &[u8]) -> Result<u32, Refusal> {
    let mut count = 0;
    let status = unsafe { raw::brundelak_radio_accept(bytes.as_ptr(), wide(bytes.len()), &mut count) };
    Refusal::from_status(status)?;
    Ok(count)
}

/// The place after the head.
pub fn radio_put_head(out: &mut [u8], place: usize, count: u32) -> Result<usize, Refusal> {
    let mut next = 0;
    let status = unsafe { raw::brundelak_radio_put_head(out.as_mut_ptr(), wide(out.len()), wide(place), count, &mut next) };
    Refusal::from_status(status)?;
    Ok(own(next))
}

/// The place after the star.
pub fn radio_put_star(out: &mut [u8], place: usize, star: Star) -> Result<usize, Refusal> {
    let mut next = 0;
    let status = unsafe {
        raw::brundelak_radio_put_star(
            out.as_mut_ptr(),
            wide(out.len()),
            wide(place),
            star.number,
            star.asc,
            star.dec,
            star.asc_rate,
            star.dec_rate,
            &mut next,
        )
    };
    Refusal::from_status(status)?;
    Ok(own(next))
}

/// Bytes in one form moved to another in a slice: how many were written.
type Mover = unsafe extern "C" fn(*const u8, u64, *mut u8, u64, *mut u64) -> u8;

fn moved(mover: Mover, bytes: &[u8], out: &mut [u8]) -> Result<usize, Refusal> {
    let mut written = 0;
    let status = unsafe { mover(bytes.as_ptr(), wide(bytes.len()), out.as_mut_ptr(), wide(out.len()), &mut written) };
    Refusal::from_status(status)?;
    Ok(own(written))
}

pub fn list_12_to_20(bytes: &[u8], out: &mut [u8]) -> Result<usize, Refusal> {
    moved(raw::brundelak_list_12_to_20, bytes, out)
}

pub fn list_20_to_12(bytes: &[u8], out: &mut [u8]) -> Result<usize, Refusal> {
    moved(raw::brundelak_list_20_to_12, bytes, out)
}

pub fn radio_to_list(bytes: &[u8], out: &mut [u8]) -> Result<usize, Refusal> {
    moved(raw::brundelak_radio_to_list, bytes, out)
}

pub fn list_to_radio(bytes: &[u8], out: &mut [u8]) -> Result<usize, Refusal> {
    moved(raw::brundelak_list_to_radio, bytes, out)
}
