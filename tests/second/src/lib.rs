//! A second implementation of documents 01 and 02, written from these papers alone. The tests compare the first implementation with it, and
//! the benchmark measures against it.
//!
//! Layers as in the paper: `calendar`, `claim` and `months`, `study`, `valuation`; beside them the lent `rates`, the claim file (`block`,
//! `run`), its sums by duration (`durations`), what the program prints (`report`), the rule for a `small_company` and the load that anyone
//! can rebuild (`shared_load`); `examples`, `generate`, `load` and `rng` make inputs for tests and measurements.

pub mod block;
pub mod calendar;
pub mod claim;
pub mod durations;
pub mod examples;
pub mod generate;
pub mod load;
pub mod months;
pub mod rates;
pub mod report;
pub mod rng;
pub mod run;
pub mod shared_load;
pub mod small_company;
pub mod study;
pub mod valuation;

#[cfg(feature = "first")]
pub mod earlier;
#[cfg(feature = "first")]
pub mod ffi;

/// The refusals of document 01's table and document 02's requests, under their numbers.
#[derive(Clone, Copy, Debug, PartialEq, Eq)]
#[repr(u8)]
pub enum Refusal {
    Window = 1,
    Date = 2,
    Status = 3,
    Sequence = 4,
    ShortElimination = 5,
    RateTable = 6,
    Cell = 7,
    Rate = 8,
    Full = 9,
    ShortList = 10,
    Block = 11,
    Valuation = 12,
    Discount = 13,
    Records = 14,
    OtherWindow = 15,
    Benefit = 16,
    OpenClaims = 17,
    NotTaken = 18,
    NoSuchCount = 19,
    Load = 20,
}

impl Refusal {
    pub fn number(self) -> u8 {
        self as u8
    }
}
