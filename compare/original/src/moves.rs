//! A count of moves, by which a walk that never ends is stopped. Without the feature `counted` it is nothing.

#[cfg(feature = "counted")]
thread_local! {
    static LEFT: std::cell::Cell<u64> = const { std::cell::Cell::new(u64::MAX) };
}

/// What a walk that made too many moves panics with.
pub const ENDLESS: &str = "a walk never ends";

/// How many moves the walks may make from now on.
pub fn allow(moves: u64) {
    #[cfg(feature = "counted")]
    LEFT.with(|left| left.set(moves));
    #[cfg(not(feature = "counted"))]
    let _ = moves;
}

#[inline(always)]
pub(crate) fn count() {
    #[cfg(feature = "counted")]
    LEFT.with(|left| match left.get() {
        0 => panic!("{ENDLESS}"),
        n => left.set(n - 1),
    });
}
