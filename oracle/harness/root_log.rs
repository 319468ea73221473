// The arguments of the roots that this thread takes, by their bits.
use std::cell::RefCell;

thread_local!(static TAKEN: RefCell<Vec<u64>> = const { RefCell::new(Vec::new()) });

/// Called once by each `sqrt`.
pub fn note(x: f64) {
    TAKEN.with_borrow_mut(|taken| taken.push(x.to_bits()));
}

/// What `f` gives, and the arguments of the roots that it took, in their order.
pub fn logged<R>(f: impl FnOnce() -> R) -> (R, Vec<u64>) {
    TAKEN.take();
    let result = f();
    (result, TAKEN.take())
}
