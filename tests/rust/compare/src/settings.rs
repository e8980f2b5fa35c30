//! Numbers from the environment.

use std::env;
use std::time::{SystemTime, UNIX_EPOCH};

/// A number, decimal or with 0x, or nothing where the variable is not set.
pub fn number(name: &str) -> Option<u64> {
    let text = env::var(name).ok()?;
    let text = text.trim();
    let parsed = match text.strip_prefix("0x") {
        Some(hex) => u64::from_str_radix(hex, 16),
        None => text.parse(),
    };
    Some(parsed.unwrap_or_else(|_| panic!("{} is not a number: {}", name, text)))
}

/// XOSERA_SEED, or a seed from the clock.
pub fn seed() -> u64 {
    number("XOSERA_SEED").unwrap_or_else(|| {
        let clock = SystemTime::now().duration_since(UNIX_EPOCH);
        clock.expect("a clock after 1970").as_nanos() as u64 & 0xFFFF_FFFF
    })
}
