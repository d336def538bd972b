//! The supplied text as it is, with Rust's own library functions, over section 3's helpers written in the same way.
#![allow(non_snake_case, non_camel_case_types, dead_code, unused)]

pub mod angle;
pub mod planet;
pub mod time;

#[path = "../../target/oracle/own/aberr.rs"]
pub mod aberr;
#[path = "../../target/oracle/own/coords.rs"]
pub mod coords;
#[path = "../../target/oracle/own/nutation.rs"]
pub mod nutation;
/// The text of the table of nutation, for the ceiling on it.
pub const NUTATION: &str = include_str!("../../target/oracle/own/nutation.rs");
#[path = "../../target/oracle/own/parallax.rs"]
pub mod parallax;
#[path = "../../target/oracle/own/precess.rs"]
pub mod precess;
