//! A text put into a lent slice from a place on: the rule written a second time, and a call of the port compared with it.
use inputs::Random;
use Count;

/// What is answered, or the number of the refusal.
pub type Answer<T> = Result<T, u8>;

pub fn status_of<T>(answer: &Answer<T>) -> u8 {
    answer.as_ref().err().map_or(0, |&n| n)
}

/// The text that a slice of some length gets from a place on: 8 where it has no room, after its own refusal.
fn with_room(text: Answer<Vec<u8>>, len: usize, place: usize) -> Answer<Vec<u8>> {
    let text = text?;
    match place.checked_add(text.len()) {
        Some(end) if end <= len => Ok(text),
        _ => Err(8),
    }
}

/// The length of a slice that a text goes into: exact, too short, or longer.
pub fn room(r: &mut Random, place: usize, text: &Answer<Vec<u8>>) -> usize {
    let exact = place.saturating_add(text.as_ref().map(|t| t.len()).unwrap_or(20));
    let exact = if exact > 100000 { 20 } else { exact };
    match r.below(8) {
        0 => exact.saturating_sub(1),
        1 => r.below(exact + 1),
        2 | 3 => exact + r.below(9),
        _ => exact,
    }
}

/// A call that writes into a slice of some length from a place on, eight bytes on either side of it. No two bytes beside each other are
/// the same before it.
pub(crate) fn compare_put<F>(name: &str, text: Answer<Vec<u8>>, len: usize, place: usize, count: &mut Count, call: F)
where
    F: FnOnce(*mut u8, *mut usize) -> u8,
{
    let expected = with_room(text, len, place);
    let mut want: Vec<u8> = (0..len + 16).map(|i| 0xA5 ^ i as u8).collect();
    let mut got = (want.clone(), 0x1234567);
    let status = call(unsafe { got.0.as_mut_ptr().offset(8) }, &mut got.1);
    let mut after = 0x1234567;
    if let Ok(ref t) = expected {
        want[8 + place..8 + place + t.len()].copy_from_slice(t);
        after = place + t.len();
    }
    let agrees = status == status_of(&expected) && got == (want, after);
    count.tell(status, agrees, || format!("{}: status {}, {:?} for {:?}, place {} of {}", name, status, got, expected, place, len));
}

/// What is moved there and back must be as it was.
pub(crate) fn compare_back(name: &str, returned: Answer<Vec<u8>>, bytes: &[u8], count: &mut Count) {
    if returned.as_ref().map(|b| &b[..]) != Ok(bytes) {
        count.differ(|| format!("{}: there and back {:?} is {:?}", name, bytes, returned));
    }
}

// ---- the sample

pub fn hex(bytes: &[u8]) -> String {
    bytes.iter().map(|b| format!("{:02x}", b)).collect()
}

/// The status, and behind it what is answered.
pub fn told<T, F: FnOnce(T) -> String>(answer: Answer<T>, shown: F) -> String {
    match answer {
        Ok(x) => format!("0 {}", shown(x)).trim_end().to_string(),
        Err(n) => n.to_string(),
    }
}

pub fn put_told(text: Answer<Vec<u8>>, len: usize, place: usize) -> String {
    told(with_room(text, len, place), |t| hex(&t))
}
