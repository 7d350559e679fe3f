//! Stands in for the crate log, which cannot be fetched here. With no logger set the real macros write nothing;
//! these write nothing either.

#[macro_export]
macro_rules! info {
    ($($message:tt)*) => {{ let _ = format_args!($($message)*); }};
}

#[macro_export]
macro_rules! error {
    ($($message:tt)*) => {{ let _ = format_args!($($message)*); }};
}
