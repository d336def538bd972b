//! The ceiling on nutation, document 02's request (xii), written a second time, over the rows of the supplied text.
use own;
use written;

/// The coefficients of longitude and of obliquity, each with its slow part, read off the supplied text.
fn rows() -> Vec<[f64; 4]> {
    own::NUTATION
        .lines()
        .map(str::trim)
        .filter(|line| line.starts_with("terms("))
        .map(|line| {
            let numbers = line["terms(".len()..line.find(')').unwrap()].split(',').map(|n| n.trim().parse().unwrap());
            let last: Vec<f64> = numbers.skip(5).collect();
            [last[0], last[1], last[2], last[3]]
        })
        .collect()
}

/// The most of longitude and of obliquity on a day.
pub fn ceiling(day: f64) -> Vec<f64> {
    let (rows, t) = (rows(), written::century(day).abs());
    assert_eq!(rows.len(), 63);
    let most = |c: f64, d: f64| (c.abs() + t * d.abs() / 10.0) * 1.0 * (0.0001 / 3600.0);
    let (mut long, mut oblq) = (0.0, 0.0);
    for row in rows {
        long += most(row[0], row[1]);
        oblq += most(row[2], row[3]);
    }
    vec![written::radians(long), written::radians(oblq)]
}
