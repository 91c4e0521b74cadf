//! The answers, laid out as in include/yordzepa.h.

/// The number of securities (document 01, The desk's business).
pub const SECURITIES: usize = 64;
/// Lots, prices, haircuts and quote days: 64 of each, in this order.
pub const COLUMNS: usize = 4 * SECURITIES;
/// The most fields that a record has (the FOP's).
pub const FIELDS: usize = 8;

/// A code and one number.
#[repr(C)]
#[derive(Clone, Copy, Debug, PartialEq, Eq)]
pub struct Answer {
    pub code: u64,
    pub value: u64,
}

/// What a basket holds.
#[repr(C)]
#[derive(Clone, Copy, Debug, PartialEq, Eq)]
pub struct Report {
    pub code: u64,
    pub count: u64,
    pub lowest: u64,
}

/// What a Pick took.
#[repr(C)]
#[derive(Clone, Copy, Debug, PartialEq, Eq)]
pub struct PickAnswer {
    pub code: u64,
    pub nominals: [u64; SECURITIES],
    pub value: u64,
    pub count: u64,
}

/// What a Free gave back.
#[repr(C)]
#[derive(Clone, Copy, Debug, PartialEq, Eq)]
pub struct FreeAnswer {
    pub code: u64,
    pub nominals: [u64; SECURITIES],
    pub left: u64,
    pub count: u64,
}

/// A record that was read.
#[repr(C)]
#[derive(Clone, Copy, Debug, PartialEq, Eq)]
pub struct Reading {
    pub code: u64,
    pub kind: u64,
    pub fields: [u64; FIELDS],
}

// Document 01, Codes: "The answer's other fields are 0".

impl Answer {
    pub fn refused(code: u64) -> Answer {
        Answer { code, value: 0 }
    }
}

impl Report {
    pub fn refused(code: u64) -> Report {
        Report { code, count: 0, lowest: 0 }
    }
}

impl PickAnswer {
    pub fn refused(code: u64) -> PickAnswer {
        PickAnswer { code, nominals: [0; SECURITIES], value: 0, count: 0 }
    }
}

impl FreeAnswer {
    pub fn refused(code: u64) -> FreeAnswer {
        FreeAnswer { code, nominals: [0; SECURITIES], left: 0, count: 0 }
    }
}

impl Reading {
    pub fn refused(code: u64) -> Reading {
        Reading { code, kind: 0, fields: [0; FIELDS] }
    }
}
