//! Document 01, Steps: the value of a nominal.

use super::RANGE;

/// "account plus positions of a giver in one security is at most 500,000,000".
pub const GREATEST_NOMINAL: u64 = 500_000_000;
/// Records, price: "price 32 (1 to 3,000,000; 1,000,000 is par)".
pub const GREATEST_PRICE: u64 = 3_000_000;
/// Records, price: "haircut 16 (0 to 9,999 hundredths of a percent)".
pub const GREATEST_HAIRCUT: u64 = 9_999;

/// "Value of nominal N: N × price × (10,000 − haircut) / 10^8, rounded down." The haircut is not
/// above 10,000.
pub fn worth(nominal: u64, price: u64, haircut: u64) -> u64 {
    let product = u128::from(nominal) * u128::from(price) * u128::from(10_000 - haircut);
    (product / 100_000_000) as u64
}

/// The value with 4 for a "field out of range".
pub fn value(nominal: u64, price: u64, haircut: u64) -> Result<u64, u64> {
    if nominal > GREATEST_NOMINAL
        || !(1..=GREATEST_PRICE).contains(&price)
        || haircut > GREATEST_HAIRCUT
    {
        return Err(RANGE);
    }
    Ok(worth(nominal, price, haircut))
}
