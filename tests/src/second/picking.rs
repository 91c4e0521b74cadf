//! Document 01, Steps: Eligible, Pick and Free.

use super::baskets::holds;
use super::calendar::Calendar;
use super::valuation::{worth, GREATEST_HAIRCUT, GREATEST_NOMINAL, GREATEST_PRICE};
use super::{DAY, RANGE};

/// "It has ... 64 securities".
pub const SECURITIES: usize = 64;
/// Records, price: "lot 32 (1 to 1,000,000)".
pub const GREATEST_LOT: u64 = 1_000_000;
/// "exposures are at most 10^13".
pub const GREATEST_EXPOSURE: u64 = 10_000_000_000_000;
/// Records, basket: "greatest age 8".
pub const GREATEST_AGE: u64 = 255;

/// The last price record of a security; all 0 where it is not set up.
#[derive(Clone, Copy, Debug)]
pub struct Security {
    pub lot: u64,
    pub price: u64,
    pub haircut: u64,
    pub quote: u64,
}

impl Security {
    pub fn set_up(self) -> bool {
        self.lot != 0
    }

    /// The ranges of the price record, or not set up and all 0.
    fn in_range(self) -> bool {
        if !self.set_up() {
            return self.price == 0 && self.haircut == 0 && self.quote == 0;
        }
        self.lot <= GREATEST_LOT
            && self.price >= 1
            && self.price <= GREATEST_PRICE
            && self.haircut <= GREATEST_HAIRCUT
    }

    /// "Value of nominal N"; what is not set up has no price and is worth nothing.
    pub fn worth(self, nominal: u64) -> u64 {
        worth(nominal, self.price, self.haircut)
    }
}

/// The four columns of 64: lots, prices, haircuts, quote days.
pub fn securities(columns: &[u64]) -> Vec<Security> {
    assert_eq!(columns.len(), 4 * SECURITIES);
    (0..SECURITIES)
        .map(|n| Security {
            lot: columns[n],
            price: columns[n + SECURITIES],
            haircut: columns[n + 2 * SECURITIES],
            quote: columns[n + 3 * SECURITIES],
        })
        .collect()
}

/// The basket as far as Pick needs it: its map and its greatest age.
#[derive(Clone, Copy, Debug)]
pub struct Basket {
    pub map: u64,
    pub oldest: u64,
}

/// "Eligible for a basket: in its map, set up, price age not above the greatest age, one lot worth
/// at least 1 cent."
pub fn eligible(
    calendar: &Calendar,
    basket: Basket,
    number: usize,
    security: Security,
    today: u64,
) -> bool {
    holds(basket.map, number as u64)
        && security.set_up()
        && calendar.price_age(security.quote, today).expect("days were looked at before")
            <= basket.oldest
        && security.worth(security.lot) >= 1
}

/// A Pick's outcome: "one nominal for each of the 64 securities", "value found and count".
#[derive(Clone, Debug, PartialEq, Eq)]
pub struct Picked {
    pub nominals: Vec<u64>,
    pub value: u64,
    pub count: u64,
}

/// "Pick amount X from a giver's account".
pub fn pick(
    calendar: &Calendar,
    account: &[u64],
    columns: &[u64],
    basket: Basket,
    today: u64,
    amount: u64,
) -> Result<Picked, u64> {
    let securities = securities(columns);
    // Codes: "The lowest that applies is given", so 4 before 7.
    ranges(account, &securities)?;
    if basket.map == 0 || basket.oldest > GREATEST_AGE || amount > GREATEST_EXPOSURE {
        return Err(RANGE);
    }
    days(calendar, &securities, today)?;

    let mut nominals = vec![0; SECURITIES];
    let mut rest = amount;
    // "eligible securities by rising number"
    for number in 0..SECURITIES {
        let security = securities[number];
        if !eligible(calendar, basket, number, security, today) {
            continue;
        }
        // "from each, the largest count of whole lots in the account whose value is not above what
        // remains of X, which that value then lowers"
        let lots = most_lots_within(security, account[number], rest);
        nominals[number] = lots * security.lot;
        rest -= security.worth(nominals[number]);
    }
    let count = nominals.iter().filter(|&&nominal| nominal > 0).count() as u64;
    Ok(Picked { nominals, value: amount - rest, count })
}

/// "the largest count of whole lots in the account whose value is not above what remains": an
/// estimate by division, which is then held to those words.
fn most_lots_within(security: Security, nominal: u64, rest: u64) -> u64 {
    let all = nominal / security.lot;
    let lot_times_factor = u128::from(security.lot)
        * u128::from(security.price)
        * u128::from(10_000 - security.haircut);
    let by_value = ((u128::from(rest) + 1) * 100_000_000 - 1) / lot_times_factor;
    let lots = u128::from(all).min(by_value) as u64;
    // Values rise with the count of lots, so the next count speaks for all greater ones.
    assert!(security.worth(lots * security.lot) <= rest);
    assert!(lots == all || security.worth((lots + 1) * security.lot) > rest);
    lots
}

/// A Free's outcome: what goes back, and the value and number as in the answer.
#[derive(Clone, Debug, PartialEq, Eq)]
pub struct Freed {
    pub nominals: Vec<u64>,
    pub left: u64,
    pub count: u64,
}

/// "Free down to exposure E".
pub fn free(position: &[u64], columns: &[u64], exposure: u64) -> Result<Freed, u64> {
    let securities = securities(columns);
    ranges(position, &securities)?;
    if exposure > GREATEST_EXPOSURE {
        return Err(RANGE);
    }

    let mut kept = position.to_vec();
    let mut nominals = vec![0; SECURITIES];
    let mut value = position_value(&kept, &securities);
    // "by falling number"
    for number in (0..SECURITIES).rev() {
        let security = securities[number];
        // "none if it is below E"
        if !security.set_up() || value < exposure {
            continue;
        }
        // "give back the largest count of lots that leaves the position worth E or more"
        let others = value - security.worth(kept[number]);
        let lots = most_lots_above(security, kept[number], exposure.saturating_sub(others));
        nominals[number] = lots * security.lot;
        kept[number] -= nominals[number];
        value = others + security.worth(kept[number]);
    }
    assert_eq!(value, position_value(&kept, &securities));
    let count = nominals.iter().filter(|&&nominal| nominal > 0).count() as u64;
    Ok(Freed { nominals, left: value, count })
}

/// "A position's value is the sum over its securities, each at its whole nominal and last price."
pub fn position_value(position: &[u64], securities: &[Security]) -> u64 {
    position.iter().zip(securities).map(|(&nominal, security)| security.worth(nominal)).sum()
}

/// "the largest count of lots" that can leave `nominal` with the rest worth `needed` or more: an
/// estimate by division, which is then held to those words.
fn most_lots_above(security: Security, nominal: u64, needed: u64) -> u64 {
    let factor = u128::from(security.price) * u128::from(10_000 - security.haircut);
    // The least nominal worth what is needed, rounded up.
    let least = (u128::from(needed) * 100_000_000 + factor - 1) / factor;
    let lots = (u128::from(nominal) - least) as u64 / security.lot;
    let all = nominal / security.lot;
    assert!(lots <= all && security.worth(nominal - lots * security.lot) >= needed);
    assert!(lots == all || security.worth(nominal - (lots + 1) * security.lot) < needed);
    lots
}

/// 4 for a nominal or a security out of its range.
fn ranges(nominals: &[u64], securities: &[Security]) -> Result<(), u64> {
    assert_eq!(nominals.len(), SECURITIES);
    if nominals.iter().any(|&nominal| nominal > GREATEST_NOMINAL) {
        return Err(RANGE);
    }
    if securities.iter().any(|security| !security.in_range()) {
        return Err(RANGE);
    }
    Ok(())
}

/// 7 for "any day named, quote days too, not open or above 146,096" and "quote after today".
fn days(calendar: &Calendar, securities: &[Security], today: u64) -> Result<(), u64> {
    calendar.must_be_open(today)?;
    for security in securities.iter().filter(|security| security.set_up()) {
        calendar.must_be_open(security.quote)?;
        if security.quote > today {
            return Err(DAY);
        }
    }
    Ok(())
}
