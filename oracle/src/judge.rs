// The judge as a library: cases of every sort, and their answers by the published Rust but for the departures.

pub mod answer;
pub mod cases;
pub mod damages;
pub mod departures;
pub mod features;
pub mod fold;
pub mod graph;
pub mod house;
pub mod making;
pub mod mix;
pub mod random;
pub mod table;
pub mod texts;
pub mod varied;
