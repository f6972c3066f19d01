//! Stand-in for `tracing`: events are dropped.
#[macro_export]
macro_rules! trace {
    ($($t:tt)*) => {};
}
