// A stand-in for the crate `log`: a message goes to the listener, if one is set, and else nowhere.

use std::cell::Cell;
use std::fmt::Arguments;

thread_local! {
    static LISTENER: Cell<Option<fn(&str)>> = const { Cell::new(None) };
}

pub fn listen(listener: Option<fn(&str)>) {
    LISTENER.with(|place| place.set(listener));
}

pub fn message(text: Arguments) {
    if let Some(listener) = LISTENER.with(Cell::get) {
        listener(&text.to_string());
    }
}

#[macro_export]
macro_rules! debug { ($($part:tt)*) => { $crate::message(format_args!($($part)*)) }; }

#[macro_export]
macro_rules! trace { ($($part:tt)*) => { $crate::message(format_args!($($part)*)) }; }

#[macro_export]
macro_rules! warn { ($($part:tt)*) => { $crate::message(format_args!($($part)*)) }; }
