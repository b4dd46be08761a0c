//! What the programs of this folder share: the inputs, the C calls, and how a call is timed.

pub mod cases;
/// The C calls, as the crate declares them; what is not measured is not used.
#[allow(dead_code)]
#[path = "../../rust/src/ffi.rs"]
pub mod ffi;
pub mod rounds;
