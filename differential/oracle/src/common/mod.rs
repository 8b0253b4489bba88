// SHIM of common/mod.rs: NasError and Direction only (codec.rs and direction.rs are not given).
use crate::prelude::*;
#[path = "../../text/src/common/security.rs"]
mod security;
pub use security::MAX_REPLAY_WINDOW;
pub(crate) use security::{Core, Keys, NextCount, System, wiped};

pub type Result<T> = core::result::Result<T, NasError>;
#[derive(Debug, Clone, PartialEq)]
pub enum NasError {
    BufferTooShort,
    MessageTooShort,
    ReservedSecurityHeaderType(u8),
    DecodingError(String),
    EncodingError(String),
    SecurityRefused(String),
    NasCountExhausted,
    IntegrityCheckFailed,
    AuthenticMessageRefused { error: Box<NasError>, plain: Vec<u8> },
}
#[derive(Debug, Clone, Copy, PartialEq, Eq)]
pub enum Direction {
    Uplink = 0,
    Downlink = 1,
}
impl From<Direction> for oxirush_security::Direction {
    fn from(d: Direction) -> Self {
        match d {
            Direction::Uplink => Self::Uplink,
            Direction::Downlink => Self::Downlink,
        }
    }
}
