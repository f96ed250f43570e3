// A stand-in for the crate `log` with every message compiled away.

#[macro_export]
macro_rules! debug { ($($part:tt)*) => { if false { let _ = format_args!($($part)*); } }; }

#[macro_export]
macro_rules! trace { ($($part:tt)*) => { if false { let _ = format_args!($($part)*); } }; }

#[macro_export]
macro_rules! warn { ($($part:tt)*) => { if false { let _ = format_args!($($part)*); } }; }
