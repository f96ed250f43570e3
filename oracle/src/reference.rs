// The published Rust as a library: the folder `unicorn` is laid out by the build script.

pub mod unicorn;
