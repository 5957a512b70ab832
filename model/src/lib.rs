//! An independent model of document 01 and Asks 1, 7, 12 and 13 of document 02, written from the paper and not
//! from the core, so that the two can be compared call by call.
//!
//! - `stick`: the stick itself: fresh, take, tick, give, press.
//! - `diskette`: diskettes as DOS 2.0S writes them.
//! - `doctor`: the doctor over a diskette's image.
//! - `script`: the call script of `play`, as bytes and as readable text.
//! - `random`: whole conversations on both ports, made from a seed.
//! - `images`: damaged diskettes for the doctor, made from a seed.
//! - `compare`: plays a script on both sides and shortens one that differs.

pub mod compare;
pub mod diskette;
pub mod doctor;
pub mod images;
pub mod random;
pub mod script;
pub mod stick;
