//! The static library halyardgage held against the model, through its C calls.

pub mod calls;
pub mod checks;
pub mod every;
pub mod expected;
pub mod guarded;
pub mod inputs;
pub mod logs;
pub mod rounds;
