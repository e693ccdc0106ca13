//! What the proved program is measured against and compared with: an ordinary chooser, a second and
//! independent one for small wirings, and generators of small and large wirings.

pub mod generate;
pub mod ordinary;
#[cfg(feature = "proved")]
pub mod proved;
pub mod second;
pub mod wiring;

#[cfg(test)]
mod examples;
