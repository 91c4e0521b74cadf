//! Document 01, Records: what a record that was read asks for.

use super::book::{Basket, Deal, Mode, Profile, Request, Side};
use crate::answers::Reading;

/// A deposit or a withdrawal.
#[derive(Clone, Copy, Debug, PartialEq, Eq)]
pub struct Entry {
    pub participant: usize,
    pub security: usize,
    pub nominal: u32,
}

/// A record of kinds 0 to 12, its fields in their ranges.
#[derive(Clone, Copy, Debug, PartialEq, Eq)]
pub enum Action {
    Opening {
        day: u32,
        tolerance: u32,
    },
    Price {
        security: usize,
        lot: u32,
        price: u32,
        haircut: u32,
        quote: u32,
    },
    Participant {
        number: usize,
        profile: Profile,
    },
    Basket {
        number: usize,
        basket: Basket,
    },
    Deposit(Entry),
    Withdrawal(Entry),
    /// A FOP or a return, its number still 0.
    Request(Request),
    Cancel {
        participant: u8,
        number: u32,
    },
    Settle,
    Mark,
    Recall {
        giver: u8,
        exposure: usize,
        security: usize,
        nominal: u32,
    },
    NextDay,
}

impl Action {
    /// The reading's numbers are in range, so that each fits.
    pub fn of(reading: &Reading) -> Action {
        let f = &reading.fields;
        let word = |place: usize| f[place] as u32;
        let byte = |place: usize| f[place] as u8;
        let entry = Entry { participant: f[0] as usize, security: f[1] as usize, nominal: word(2) };
        match reading.kind {
            0 => Action::Opening { day: word(0), tolerance: word(1) },
            1 => Action::Price {
                security: f[0] as usize,
                lot: word(1),
                price: word(2),
                haircut: word(3),
                quote: word(4),
            },
            2 => Action::Participant {
                number: f[0] as usize,
                profile: Profile { mode: mode_of(f[1]), list: word(2), partial: f[3] == 1 },
            },
            3 => Action::Basket {
                number: f[0] as usize,
                basket: Basket { map: f[1], greatest_age: byte(2) },
            },
            4 => Action::Deposit(entry),
            5 => Action::Withdrawal(entry),
            6 => request(f, Deal::Fop { basket: byte(3), closing: word(6) }, f[7]),
            7 => request(f, Deal::Return { exposure: byte(3) }, f[6]),
            8 => Action::Cancel { participant: byte(0), number: word(1) },
            9 => Action::Settle,
            10 => Action::Mark,
            11 => Action::Recall {
                giver: byte(0),
                exposure: f[1] as usize,
                security: f[2] as usize,
                nominal: word(3),
            },
            12 => Action::NextDay,
            kind => unreachable!("the reader takes no kind {kind}"),
        }
    }
}

/// "mode 8 (0 automatic, 1 list, 2 by hand)".
fn mode_of(number: u64) -> Mode {
    match number {
        0 => Mode::Automatic,
        1 => Mode::List,
        _ => Mode::ByHand,
    }
}

fn request(f: &[u64; 8], deal: Deal, reference: u64) -> Action {
    Action::Request(Request {
        number: 0,
        side: if f[0] == 0 { Side::Giver } else { Side::Taker },
        giver: f[1] as u8,
        taker: f[2] as u8,
        deal,
        amount: f[4],
        settlement: f[5] as u32,
        reference,
        settled: 0,
        partner: None,
        partial: false,
        cancelled: false,
        ended: false,
    })
}
