//! Answers that were meddled with.

pub mod closure;
pub mod plans;
pub mod sheets;
