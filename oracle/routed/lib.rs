//! The supplied text over the port: its library functions and section 3's helpers are answered through the C boundary.
#![allow(non_snake_case, non_camel_case_types, dead_code, unused)]

pub mod library;
pub mod angle;
pub mod planet;
pub mod time;

#[path = "../../target/oracle/routed/aberr.rs"]
pub mod aberr;
#[path = "../../target/oracle/routed/coords.rs"]
pub mod coords;
#[path = "../../target/oracle/routed/nutation.rs"]
pub mod nutation;
#[path = "../../target/oracle/routed/parallax.rs"]
pub mod parallax;
#[path = "../../target/oracle/routed/precess.rs"]
pub mod precess;
