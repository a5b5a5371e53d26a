//! Stand-in: logging that is thrown away, its arguments unevaluated.

#[macro_export]
macro_rules! trace {
    ($($any:tt)*) => {{}};
}

#[macro_export]
macro_rules! debug {
    ($($any:tt)*) => {{}};
}

#[macro_export]
macro_rules! info {
    ($($any:tt)*) => {{}};
}

#[macro_export]
macro_rules! warn {
    ($($any:tt)*) => {{}};
}

#[macro_export]
macro_rules! error {
    ($($any:tt)*) => {{}};
}
