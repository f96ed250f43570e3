// A stand-in for the crate `anyhow`: its `Result`.

pub type Result<T> = std::result::Result<T, Box<dyn std::error::Error>>;
