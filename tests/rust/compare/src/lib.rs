//! The library and the plain Rust model side by side.

pub mod calls;
pub mod convert;
pub mod copper;
pub mod fields;
pub mod files;
pub mod masks;
pub mod paint;
pub mod pair;
pub mod playfield;
pub mod random;
pub mod recording;
pub mod refused;
pub mod session;
pub mod settings;
pub mod tube;
pub mod why;
