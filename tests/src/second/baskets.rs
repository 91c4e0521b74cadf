//! Document 01, Records: "a basket's report tells how many securities it holds and the lowest of
//! them".

use super::RANGE;

/// The number of securities and the lowest. "map 64 (bit n is security n, not 0)": 4 for 0.
pub fn report(map: u64) -> Result<(u64, u64), u64> {
    let held: Vec<u64> = (0..64).filter(|&n| holds(map, n)).collect();
    match held.first() {
        Some(&lowest) => Ok((held.len() as u64, lowest)),
        None => Err(RANGE),
    }
}

/// "bit n is security n".
pub fn holds(map: u64, security: u64) -> bool {
    map / 2u64.pow(security as u32) % 2 == 1
}
