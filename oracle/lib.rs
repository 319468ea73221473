//! The oracle: the Rust source as `build` patches it, with the stand-ins, refusals and counts of docs/REQUIREMENTS.md.

pub mod explicit_black;
pub mod fused_multiply_add;
pub mod lets_be_rational;

pub mod discount_inputs;
pub mod functions;
pub mod inputs;
pub mod ladder;
pub mod ladder_inputs;
pub mod price;
pub mod price_inputs;
pub mod quote;
pub mod sheet;
pub mod standin;
pub mod window;
pub mod window_inputs;

pub use lets_be_rational::special_function::{DefaultSpecialFn, SpecialFn};

/// How many evaluations this thread has made.
pub mod evaluations {
    use std::cell::Cell;

    thread_local!(static MADE: Cell<u64> = const { Cell::new(0) });

    /// Called once by each `inverse_gaussian_cdf` and `inverse_gaussian_survival`.
    #[inline]
    pub fn made_one() {
        MADE.with(|made| made.set(made.get() + 1));
    }

    /// What `f` gives, and how many evaluations it made.
    #[inline]
    pub fn counted<R>(f: impl FnOnce() -> R) -> (R, u64) {
        let before = MADE.with(Cell::get);
        let result = f();
        (result, MADE.with(Cell::get) - before)
    }
}
