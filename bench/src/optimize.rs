// The published optimize.rs, unchanged, and beside it a way to call its private function.

include!("published_optimize.rs");
include!("calls.rs");
