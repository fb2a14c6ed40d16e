//! A library without `std` that uses the crate. Its own panic handler does not compile where `std` comes in.
#![no_std]
use arcs::{checked, vect2d, Arc, Refusal};

/// How far `p` is from the circle.
pub fn gap(center: vect2d, radius: f64, p: vect2d) -> Result<f64, Refusal> {
    checked::point_to_arc_dist(p, &Arc::circle(center, radius)).map(|(distance, _)| distance)
}

#[panic_handler]
fn stop(_: &core::panic::PanicInfo<'_>) -> ! {
    loop {}
}
