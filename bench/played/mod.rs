//! What the programs by hand share that do what the monitor does, on one thread (play.rs) or on many (domain.rs).

pub mod events;
pub mod pipe;
pub mod script;
pub mod text;

pub type Done<T> = Result<T, Box<dyn std::error::Error + Send + Sync>>;
