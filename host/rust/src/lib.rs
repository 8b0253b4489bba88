//! The NAS security contexts of 5GS and EPS, under the names of oxirush-nas, over the proved library `libnas_c.a`.
//!
//! What is proved ends at the library's functions. This crate is Rust, read and tested: each method lends its buffers, makes one
//! call, and turns the answer's number into a `Result`. docs/HOST.md of the repository is the page for hosts.
//!
//! ```
//! use saihdelu::nas_5gs::*;
//!
//! // A core and a handset that share their keys, with AES for both algorithms
//! let (int, enc) = (KNasInt::new(&[1; 16]), KNasEnc::new(&[2; 16]));
//! let (nia, nea) = (IntegrityAlgorithm::NIA2, CipheringAlgorithm::NEA2);
//! let mut core = NasSecurityContext::from_fresh_keys(&int, &enc, nia, nea)?;
//! let mut handset = NasSecurityContext::from_fresh_keys(&int, &enc, nia, nea)?;
//!
//! let header = Nas5gsSecurityHeaderType::IntegrityProtectedAndCiphered;
//! let status = [0x7e, 0x00, 0x64, 0x16];
//! let sealed = core.protect_bytes_for_access(status, header, Direction::Downlink, NasConnection::ThreeGpp)?;
//! let opened = handset.unprotect_raw_for_access(&sealed, Direction::Downlink, NasConnection::ThreeGpp)?;
//! assert_eq!((opened.message, opened.count), (status.to_vec(), NasCount::ZERO));
//! # Ok::<(), saihdelu::NasError>(())
//! ```
//!
//! # What differs from oxirush-nas
//!
//! - Keys are given, not derived: `restore` and `reselect_algorithms` take the two NAS keys.
//! - Messages are octets; there is no codec. `Verified` has the `distance` beside the COUNT, and `unprotect_eps_message` and
//!   `verify_n1_to_s1_container` answer it too.
//! - The N1-to-S1 container is its one octet, the S1-to-N1 container its value; both calls that make or verify the latter answer
//!   the COUNT that they used.
//! - Errors are the numbered refusals of the library: [`NasError`].
//! - Null integrity with a cipher is taken. Keys are not wiped.
//! - `unprotect_raw_across_access` is this library's own: it opens what was sealed on the other access, too.
//!
//! Contexts have no `Clone`: whoever went on with an old copy would use its COUNTs and its keystream again.

#![deny(missing_docs)]

#[cfg(test)]
mod face_tests;
pub mod journal;
pub mod nas_5gs;
pub mod nas_eps;
mod sys;

use std::fmt;

/// The direction of a message.
#[derive(Clone, Copy, Debug, PartialEq, Eq, Hash)]
pub enum Direction {
    /// From the handset.
    Uplink = 0,
    /// To the handset.
    Downlink = 1,
}

/// The largest window size.
pub const MAX_REPLAY_WINDOW: u8 = 64;

// As a next COUNT: all are used.
const COUNTS: u32 = 1 << 24;

/// A NAS COUNT, 0 to 16,777,215.
#[derive(Clone, Copy, Debug, PartialEq, Eq, PartialOrd, Ord, Hash)]
pub struct NasCount(u32);

impl NasCount {
    /// The first COUNT.
    pub const ZERO: NasCount = NasCount(0);

    /// The COUNT of a number; `None` above 16,777,215.
    ///
    /// ```
    /// use saihdelu::NasCount;
    ///
    /// assert_eq!(NasCount::new(0), Some(NasCount::ZERO));
    /// assert_eq!(NasCount::new(1 << 24), None);
    /// ```
    pub fn new(number: u32) -> Option<NasCount> {
        if number < COUNTS {
            Some(NasCount(number))
        } else {
            None
        }
    }

    /// The number.
    ///
    /// ```
    /// use saihdelu::NasCount;
    ///
    /// assert_eq!(NasCount::new(300).unwrap().get(), 300);
    /// ```
    pub fn get(self) -> u32 {
        self.0
    }

    /// The last octet, which a message carries.
    ///
    /// ```
    /// use saihdelu::NasCount;
    ///
    /// assert_eq!(NasCount::new(300).unwrap().sequence_number(), 44);
    /// ```
    pub fn sequence_number(self) -> u8 {
        (self.0 % 256) as u8
    }

    // The library's number of a stored next COUNT.
    fn stored(next: Option<NasCount>) -> u32 {
        next.map_or(COUNTS, NasCount::get)
    }
}

macro_rules! key {
    ($name:ident, $what:literal) => {
        #[doc = $what]
        ///
        /// A type of its own, so that the two keys cannot be taken for each other. `Debug` does not show the octets; they are not
        /// wiped when it is dropped.
        #[derive(Clone)]
        pub struct $name([u8; 16]);

        impl $name {
            /// The key of 16 octets.
            ///
            /// ```
            #[doc = concat!("use saihdelu::", stringify!($name), ";")]
            ///
            #[doc = concat!("let key = ", stringify!($name), "::new(&[7; 16]);")]
            #[doc = concat!("assert_eq!(format!(\"{:?}\", key), \"", stringify!($name), "\");")]
            /// ```
            pub fn new(octets: &[u8; 16]) -> $name {
                $name(*octets)
            }
        }

        impl fmt::Debug for $name {
            fn fmt(&self, f: &mut fmt::Formatter<'_>) -> fmt::Result {
                f.write_str(stringify!($name))
            }
        }
    };
}

key!(KNasInt, "The NAS integrity key.");
key!(KNasEnc, "The NAS ciphering key.");

/// Why a call was refused. [`NasError::number`] is the library's number, [`NasError::sentence`] says it in words.
///
/// Each but [`NasError::AuthenticMessageRefused`] left the context as it was.
#[non_exhaustive]
#[derive(Clone, Debug, PartialEq, Eq)]
pub enum NasError {
    /// 1: a message, a container value or a journal record is too short.
    BufferTooShort,
    /// 2: the first octet is not that of a protected message.
    WrongDiscriminator,
    /// 3: the security header type is none that protects.
    WrongHeaderType,
    /// 4: above 65,535 octets, or above 60,000 in a journal.
    TooLong,
    /// 5: an output is too short. This crate lends what is needed, so only a fault of its own could show it.
    OutputTooShort,
    /// 6: no COUNT is left.
    NasCountExhausted,
    /// 7: the code is wrong: damaged, forged, repeated or too late.
    IntegrityCheckFailed,
    /// 8: the code is right and the content is refused. The COUNT is used.
    AuthenticMessageRefused {
        /// Why: 9, 10, 11, 12 or 18.
        error: Box<NasError>,
        /// The plaintext.
        plain: Vec<u8>,
        /// Its security header type, 1 to 4; 0 for an EPS message, which has none.
        security_header_type: u8,
        /// The COUNT that was used.
        count: NasCount,
        /// How many COUNTs were skipped before it, or how far below the highest used one it lies.
        distance: u32,
        /// From [`nas_5gs::NasSecurityContext::unprotect_raw_across_access`]: the access that it was taken on. Else `None`.
        connection: Option<nas_5gs::NasConnection>,
    },
    /// 9: not a known message.
    UnknownMessage,
    /// 10: header type and message do not go together.
    WrongPairing,
    /// 11: not a message of this direction.
    WrongDirection,
    /// 12: not an EPS ATTACH REQUEST or TRACKING AREA UPDATE REQUEST.
    NotAMobilityRequest,
    /// 13: an algorithm code from 4 on.
    ReservedAlgorithm,
    /// 14: a window size above [`MAX_REPLAY_WINDOW`].
    WindowTooLarge,
    /// 15: the container's algorithms are not those of the context.
    OtherAlgorithms,
    /// 16: an NCC or key set identifier above 7, an ngKSI above 15.
    NumberTooLarge,
    /// 18: an initial message that has a container or cannot be walked, or whose container holds another message.
    WrongContainer,
    /// 19: no such direction or connection. The types of this crate leave no room for it.
    NoSuchPlace,
    /// A number that this crate has no name for: the library is newer.
    Other(u8),
}

impl NasError {
    /// The library's number, 1 to 19.
    ///
    /// ```
    /// use saihdelu::nas_5gs::*;
    ///
    /// let (int, enc) = (KNasInt::new(&[1; 16]), KNasEnc::new(&[2; 16]));
    /// let refused = NasSecurityContext::from_fresh_keys(&int, &enc, IntegrityAlgorithm::NIA4, CipheringAlgorithm::NEA2);
    /// assert_eq!(refused.unwrap_err().number(), 13);
    /// ```
    pub fn number(&self) -> u8 {
        match self {
            NasError::BufferTooShort => 1,
            NasError::WrongDiscriminator => 2,
            NasError::WrongHeaderType => 3,
            NasError::TooLong => 4,
            NasError::OutputTooShort => 5,
            NasError::NasCountExhausted => 6,
            NasError::IntegrityCheckFailed => 7,
            NasError::AuthenticMessageRefused { .. } => 8,
            NasError::UnknownMessage => 9,
            NasError::WrongPairing => 10,
            NasError::WrongDirection => 11,
            NasError::NotAMobilityRequest => 12,
            NasError::ReservedAlgorithm => 13,
            NasError::WindowTooLarge => 14,
            NasError::OtherAlgorithms => 15,
            NasError::NumberTooLarge => 16,
            NasError::WrongContainer => 18,
            NasError::NoSuchPlace => 19,
            NasError::Other(number) => *number,
        }
    }

    /// The refusal in one sentence, that of saihdelu.h.
    ///
    /// ```
    /// use saihdelu::NasError;
    ///
    /// assert_eq!(NasError::WindowTooLarge.sentence(), "the window size is above 64");
    /// assert_eq!(NasError::WindowTooLarge.to_string(), "refusal 14: the window size is above 64");
    /// ```
    pub fn sentence(&self) -> &'static str {
        match self.number() {
            1 => "too short: a message, a container value, or a journal record of a length that its kind does not allow",
            2 => "the first octet is not that of a protected message",
            3 => "the security header type is none that protects a message",
            4 => "too long: above 65535 octets, or above 60000 in a journal",
            5 => "an output is shorter than what would be written",
            6 => "every COUNT of this direction and connection is used, or none is left that this message could have",
            7 => "the code is wrong for every COUNT that the message could have: damaged, forged, repeated, or too late",
            8 => "the code is right and the content is refused: the COUNT is used and the plaintext handed over",
            9 => "not a known message",
            10 => "the security header type and the message do not go together",
            11 => "not a message of this direction",
            12 => "not an EPS ATTACH REQUEST or TRACKING AREA UPDATE REQUEST",
            13 => "an algorithm code is 4 or above, or the context is one that a refused creation handed back",
            14 => "the window size is above 64",
            15 => "the container's algorithms are not those of the context",
            16 => "NCC or key set identifier above 7, ngKSI above 15, or a next COUNT above 16777216",
            17 => "not given by this library",
            18 => "the initial message has a container, cannot be walked, or its container does not hold a message of its type",
            19 => "no such direction or connection",
            _ => "no such number",
        }
    }

    // The error of a number that carries nothing.
    fn of(number: u8) -> NasError {
        match number {
            1 => NasError::BufferTooShort,
            2 => NasError::WrongDiscriminator,
            3 => NasError::WrongHeaderType,
            4 => NasError::TooLong,
            5 => NasError::OutputTooShort,
            6 => NasError::NasCountExhausted,
            7 => NasError::IntegrityCheckFailed,
            9 => NasError::UnknownMessage,
            10 => NasError::WrongPairing,
            11 => NasError::WrongDirection,
            12 => NasError::NotAMobilityRequest,
            13 => NasError::ReservedAlgorithm,
            14 => NasError::WindowTooLarge,
            15 => NasError::OtherAlgorithms,
            16 => NasError::NumberTooLarge,
            18 => NasError::WrongContainer,
            19 => NasError::NoSuchPlace,
            _ => NasError::Other(number),
        }
    }
}

impl fmt::Display for NasError {
    fn fmt(&self, f: &mut fmt::Formatter<'_>) -> fmt::Result {
        write!(f, "refusal {}: {}", self.number(), self.sentence())?;
        match self {
            NasError::AuthenticMessageRefused { error, .. } => write!(f, "; {}", error),
            _ => Ok(()),
        }
    }
}

impl std::error::Error for NasError {
    fn source(&self) -> Option<&(dyn std::error::Error + 'static)> {
        match self {
            NasError::AuthenticMessageRefused { error, .. } => Some(&**error),
            _ => None,
        }
    }
}

/// The result of a call.
pub type Result<T> = std::result::Result<T, NasError>;

// The answer of a call that cannot answer 8.
fn done(answer: sys::Answer) -> Result<sys::Answer> {
    match answer.number {
        0 => Ok(answer),
        number => Err(NasError::of(number)),
    }
}

// The answer of an open, whose first output is `plain`: its front on success, and inside refusal 8.
fn opened(answer: sys::Answer, plain: &mut Vec<u8>) -> Result<sys::Answer> {
    match answer.number {
        0 => {
            plain.truncate(answer.wrote);
            Ok(answer)
        }
        8 => {
            plain.truncate(answer.wrote);
            Err(NasError::AuthenticMessageRefused {
                error: Box::new(NasError::of(answer.carried)),
                plain: std::mem::take(plain),
                security_header_type: answer.header_type,
                count: NasCount(answer.count),
                distance: answer.distance,
                connection: nas_5gs::NasConnection::answered(answer.connection),
            })
        }
        number => Err(NasError::of(number)),
    }
}

// The algorithm codes of TS 24.501 9.11.3.34 and TS 24.301 9.9.3.23, with the four that are reserved.
macro_rules! algorithms {
    ($name:ident, $what:literal, $module:literal, $($variant:ident = $code:literal $text:literal),+) => {
        #[doc = $what]
        #[derive(Clone, Copy, Debug, PartialEq, Eq, Hash)]
        pub enum $name {
            $(#[doc = $text] $variant = $code),+
        }

        impl $name {
            /// The algorithm of a code; `None` above 7.
            ///
            /// ```
            #[doc = concat!("use saihdelu::", $module, "::", stringify!($name), ";")]
            ///
            #[doc = concat!("assert_eq!(", stringify!($name), "::from_code(2).map(|a| a as u8), Some(2));")]
            #[doc = concat!("assert_eq!(", stringify!($name), "::from_code(8), None);")]
            /// ```
            pub fn from_code(code: u8) -> Option<$name> {
                match code {
                    $($code => Some($name::$variant),)+
                    _ => None,
                }
            }
        }
    };
}
use algorithms;
