//! Plain, unproved Rust of the proved library's algorithms, written for speed.
//!
//! The last lines here are the one place that says which versions the library has now; the others are compared with
//! them, not timed. `locator` is the library's other way of opening, and timed in rows of its own.

pub mod deal;
pub mod differences_once;
pub mod differences_slopes;
pub mod field;
pub mod fit;
pub mod fit_groups;
pub mod fit_newton;
pub mod fit_old;
pub mod happy;
pub mod happy_new;
pub mod happy_old;
pub mod lamp;
pub mod letters;
pub mod locator;
pub mod pairs;
pub mod record;
pub mod tables;
pub mod text;

// The versions that the library has now.
pub use differences_once as differences_now;
pub use fit_groups as fit_now;
pub use happy_new as happy_now;
