//! The EPS context: two records, uplink and downlink (TS 24.301 4.4, TS 33.401). It opens no message of a 5GS context, nor the
//! other way round; the inner message is not looked at, so there is no refusal 8.

use crate::{algorithms, done, opened, sys};
pub use crate::{Direction, KNasEnc, KNasInt, NasCount, NasError, Result, MAX_REPLAY_WINDOW};
use std::fmt;

algorithms!(
    IntegrityAlgorithm, "The integrity algorithm (TS 24.301 9.9.3.23). Codes 4 to 7 are reserved and refused with 13.", "nas_eps",
    EIA0 = 0 "Null: no code is made or asked for, and no message is refused as repeated.",
    EIA1 = 1 "128-EIA1, SNOW 3G.", EIA2 = 2 "128-EIA2, AES.", EIA3 = 3 "128-EIA3, ZUC.",
    EIA4 = 4 "Reserved.", EIA5 = 5 "Reserved.", EIA6 = 6 "Reserved.", EIA7 = 7 "Reserved."
);

algorithms!(
    CipheringAlgorithm, "The ciphering algorithm (TS 24.301 9.9.3.23). Codes 4 to 7 are reserved and refused with 13.", "nas_eps",
    EEA0 = 0 "Null: nothing is ciphered.",
    EEA1 = 1 "128-EEA1, SNOW 3G.", EEA2 = 2 "128-EEA2, AES.", EEA3 = 3 "128-EEA3, ZUC.",
    EEA4 = 4 "Reserved.", EEA5 = 5 "Reserved.", EEA6 = 6 "Reserved.", EEA7 = 7 "Reserved."
);

/// The security header type (TS 24.301 9.3.1) of a message that is sealed whole. SERVICE REQUEST, type 12, has a call of its own.
#[derive(Clone, Copy, Debug, PartialEq, Eq, Hash)]
pub enum NasEpsSecurityHeaderType {
    /// 0: none that protects; sealing under it is refused with 3.
    PlainNasMessageNotSecurityProtected = 0,
    /// 1: integrity protected.
    IntegrityProtected = 1,
    /// 2: integrity protected and ciphered.
    IntegrityProtectedAndCiphered = 2,
    /// 3: integrity protected with a new context.
    IntegrityProtectedWithNewEpsSecurityContext = 3,
    /// 4: integrity protected and ciphered with a new context.
    IntegrityProtectedAndCipheredWithNewEpsSecurityContext = 4,
}

use NasEpsSecurityHeaderType as HeaderType;

impl NasEpsSecurityHeaderType {
    /// The header type of a number; `None` above 4.
    ///
    /// ```
    /// use saihdelu::nas_eps::NasEpsSecurityHeaderType;
    ///
    /// assert_eq!(NasEpsSecurityHeaderType::from_number(1), Some(NasEpsSecurityHeaderType::IntegrityProtected));
    /// assert_eq!(NasEpsSecurityHeaderType::from_number(12), None);
    /// ```
    pub fn from_number(number: u8) -> Option<NasEpsSecurityHeaderType> {
        match number {
            0 => Some(HeaderType::PlainNasMessageNotSecurityProtected),
            1 => Some(HeaderType::IntegrityProtected),
            2 => Some(HeaderType::IntegrityProtectedAndCiphered),
            3 => Some(HeaderType::IntegrityProtectedWithNewEpsSecurityContext),
            4 => Some(HeaderType::IntegrityProtectedAndCipheredWithNewEpsSecurityContext),
            _ => None,
        }
    }
}

/// What a context made of a sealed message that it took.
#[non_exhaustive]
#[derive(Clone, Debug, PartialEq, Eq)]
pub enum Verified {
    /// A message of header type 1 to 4.
    Message {
        /// The plain message.
        message: Vec<u8>,
        /// Its security header type.
        security_header_type: NasEpsSecurityHeaderType,
        /// The COUNT that was used.
        count: NasCount,
        /// How many COUNTs were skipped before it, or how far below the highest used one it lies.
        distance: u32,
    },
    /// A SERVICE REQUEST. Its code has 16 bits: one that is out of reach is taken as another COUNT one time in 65,536.
    ServiceRequest {
        /// The key set identifier, 0 to 7. The context holds none: the host compares it.
        identifier: u8,
        /// The COUNT that was used.
        count: NasCount,
        /// How many COUNTs were skipped before it, 0 to 31.
        distance: u32,
    },
}

/// An EPS security context. One owner; each call that uses a COUNT takes `&mut self`.
///
/// ```
/// use saihdelu::nas_eps::*;
///
/// let (int, enc) = (KNasInt::new(&[1; 16]), KNasEnc::new(&[2; 16]));
/// let context = NasSecurityContext::from_fresh_keys(&int, &enc, IntegrityAlgorithm::EIA2, CipheringAlgorithm::EEA2)?;
/// // `Debug` shows codes, window and next COUNTs, and no key
/// assert!(format!("{:?}", context).contains("EIA2"));
/// # Ok::<(), NasError>(())
/// ```
pub struct NasSecurityContext {
    context: sys::EpsContext,
}

impl NasSecurityContext {
    // The context that a call by value left, kept whatever the answer is.
    fn keep(&mut self, left: sys::EpsLeft) -> sys::Answer {
        self.context = left.context;
        left.answer
    }

    fn made(make: impl FnOnce() -> sys::EpsLeft) -> Result<NasSecurityContext> {
        // No proof knows a size: with a library of another layout no context is made.
        assert_eq!(unsafe { sys::saihdelu_eps_context_size() }, std::mem::size_of::<sys::EpsContext>(), "libnas_c.a has another layout");
        let left = make();
        done(left.answer)?;
        Ok(NasSecurityContext { context: left.context })
    }

    /// A context for fresh keys: every COUNT from 0, no window. For keys that nothing was sealed with before.
    ///
    /// Refused: 13.
    ///
    /// ```
    /// use saihdelu::nas_eps::*;
    ///
    /// let (int, enc) = (KNasInt::new(&[1; 16]), KNasEnc::new(&[2; 16]));
    /// let context = NasSecurityContext::from_fresh_keys(&int, &enc, IntegrityAlgorithm::EIA2, CipheringAlgorithm::EEA2)?;
    /// assert_eq!(context.nas_count(Direction::Uplink), Some(NasCount::ZERO));
    /// # Ok::<(), NasError>(())
    /// ```
    pub fn from_fresh_keys(
        knas_int: &KNasInt,
        knas_enc: &KNasEnc,
        integrity_algo: IntegrityAlgorithm,
        ciphering_algo: CipheringAlgorithm,
    ) -> Result<NasSecurityContext> {
        Self::made(|| unsafe { sys::saihdelu_eps_new(integrity_algo as u8, ciphering_algo as u8, &knas_int.0, &knas_enc.0) })
    }

    /// A context that goes on at stored next COUNTs, uplink and downlink, `None` for a row that is used up; no window. The COUNTs
    /// must be at or above those last in use with these keys: after older ones, COUNTs and keystream are used again.
    ///
    /// Refused: 13.
    ///
    /// ```
    /// use saihdelu::nas_eps::*;
    ///
    /// let (int, enc) = (KNasInt::new(&[1; 16]), KNasEnc::new(&[2; 16]));
    /// let (eia, eea) = (IntegrityAlgorithm::EIA2, CipheringAlgorithm::EEA2);
    /// let context = NasSecurityContext::restore(&int, &enc, eia, eea, (NasCount::new(7), None))?;
    /// assert_eq!(context.nas_count(Direction::Uplink), NasCount::new(7));
    /// assert_eq!(context.nas_count(Direction::Downlink), None);
    /// # Ok::<(), NasError>(())
    /// ```
    pub fn restore(
        knas_int: &KNasInt,
        knas_enc: &KNasEnc,
        integrity_algo: IntegrityAlgorithm,
        ciphering_algo: CipheringAlgorithm,
        counts: (Option<NasCount>, Option<NasCount>),
    ) -> Result<NasSecurityContext> {
        Self::made(|| unsafe {
            sys::saihdelu_eps_restore(
                integrity_algo as u8,
                ciphering_algo as u8,
                &knas_int.0,
                &knas_enc.0,
                NasCount::stored(counts.0),
                NasCount::stored(counts.1),
            )
        })
    }

    /// New algorithms and both new keys; COUNTs and window stay. Away from null integrity every late COUNT is closed.
    ///
    /// Refused: 13.
    ///
    /// ```
    /// use saihdelu::nas_eps::*;
    ///
    /// let (int, enc) = (KNasInt::new(&[1; 16]), KNasEnc::new(&[2; 16]));
    /// let mut context = NasSecurityContext::from_fresh_keys(&int, &enc, IntegrityAlgorithm::EIA2, CipheringAlgorithm::EEA2)?;
    /// context.protect_service_request(0)?;
    /// let (int, enc) = (KNasInt::new(&[3; 16]), KNasEnc::new(&[4; 16]));
    /// context.reselect_algorithms(&int, &enc, IntegrityAlgorithm::EIA1, CipheringAlgorithm::EEA1)?;
    /// assert_eq!(context.integrity_algorithm(), IntegrityAlgorithm::EIA1);
    /// assert_eq!(context.nas_count(Direction::Uplink), NasCount::new(1));
    /// # Ok::<(), NasError>(())
    /// ```
    pub fn reselect_algorithms(
        &mut self,
        knas_int: &KNasInt,
        knas_enc: &KNasEnc,
        integrity_algo: IntegrityAlgorithm,
        ciphering_algo: CipheringAlgorithm,
    ) -> Result<()> {
        let left =
            unsafe { sys::saihdelu_eps_reselect(self.context, integrity_algo as u8, ciphering_algo as u8, &knas_int.0, &knas_enc.0) };
        done(self.keep(left)).map(|_| ())
    }

    /// The integrity algorithm.
    ///
    /// ```
    /// use saihdelu::nas_eps::*;
    ///
    /// let (int, enc) = (KNasInt::new(&[1; 16]), KNasEnc::new(&[2; 16]));
    /// let context = NasSecurityContext::from_fresh_keys(&int, &enc, IntegrityAlgorithm::EIA3, CipheringAlgorithm::EEA0)?;
    /// assert_eq!(context.integrity_algorithm(), IntegrityAlgorithm::EIA3);
    /// # Ok::<(), NasError>(())
    /// ```
    pub fn integrity_algorithm(&self) -> IntegrityAlgorithm {
        let code = unsafe { sys::saihdelu_eps_integrity(self.context) };
        IntegrityAlgorithm::from_code(code).expect("a context that was made has a code from 0 to 3")
    }

    /// The ciphering algorithm.
    ///
    /// ```
    /// use saihdelu::nas_eps::*;
    ///
    /// let (int, enc) = (KNasInt::new(&[1; 16]), KNasEnc::new(&[2; 16]));
    /// let context = NasSecurityContext::from_fresh_keys(&int, &enc, IntegrityAlgorithm::EIA3, CipheringAlgorithm::EEA0)?;
    /// assert_eq!(context.ciphering_algorithm(), CipheringAlgorithm::EEA0);
    /// # Ok::<(), NasError>(())
    /// ```
    pub fn ciphering_algorithm(&self) -> CipheringAlgorithm {
        let code = unsafe { sys::saihdelu_eps_ciphering(self.context) };
        CipheringAlgorithm::from_code(code).expect("a context that was made has a code from 0 to 3")
    }

    /// The next COUNT of a row, which a seal would use; `None` at its end. What a host stores for [`Self::restore`].
    ///
    /// ```
    /// use saihdelu::nas_eps::*;
    ///
    /// let (int, enc) = (KNasInt::new(&[1; 16]), KNasEnc::new(&[2; 16]));
    /// let mut context = NasSecurityContext::from_fresh_keys(&int, &enc, IntegrityAlgorithm::EIA2, CipheringAlgorithm::EEA2)?;
    /// context.protect_service_request(0)?;
    /// assert_eq!(context.nas_count(Direction::Uplink), NasCount::new(1));
    /// # Ok::<(), NasError>(())
    /// ```
    pub fn nas_count(&self, direction: Direction) -> Option<NasCount> {
        NasCount::new(unsafe { sys::saihdelu_eps_next_count(self.context, direction as u8) })
    }

    /// The window size; 0 until one is set.
    ///
    /// ```
    /// use saihdelu::nas_eps::*;
    ///
    /// let (int, enc) = (KNasInt::new(&[1; 16]), KNasEnc::new(&[2; 16]));
    /// let context = NasSecurityContext::from_fresh_keys(&int, &enc, IntegrityAlgorithm::EIA2, CipheringAlgorithm::EEA2)?;
    /// assert_eq!(context.replay_window(), 0);
    /// # Ok::<(), NasError>(())
    /// ```
    pub fn replay_window(&self) -> u8 {
        unsafe { sys::saihdelu_eps_window(self.context) }
    }

    /// Takes a message up to `size` COUNTs below the highest used one, each once, in both records. A COUNT that only the new size
    /// covers counts as used. A SERVICE REQUEST is never taken late.
    ///
    /// Refused: 14, above [`MAX_REPLAY_WINDOW`].
    ///
    /// ```
    /// use saihdelu::nas_eps::*;
    ///
    /// let (int, enc) = (KNasInt::new(&[1; 16]), KNasEnc::new(&[2; 16]));
    /// let mut context = NasSecurityContext::from_fresh_keys(&int, &enc, IntegrityAlgorithm::EIA2, CipheringAlgorithm::EEA2)?;
    /// context.set_replay_window(8)?;
    /// assert_eq!(context.replay_window(), 8);
    /// assert_eq!(context.set_replay_window(65), Err(NasError::WindowTooLarge));
    /// # Ok::<(), NasError>(())
    /// ```
    pub fn set_replay_window(&mut self, size: u8) -> Result<()> {
        let left = unsafe { sys::saihdelu_eps_set_window(self.context, size) };
        done(self.keep(left)).map(|_| ())
    }

    /// Seals any octets.
    ///
    /// Refused, in this order: 3, 4, 6.
    ///
    /// ```
    /// use saihdelu::nas_eps::*;
    ///
    /// let (int, enc) = (KNasInt::new(&[1; 16]), KNasEnc::new(&[2; 16]));
    /// let mut core = NasSecurityContext::from_fresh_keys(&int, &enc, IntegrityAlgorithm::EIA2, CipheringAlgorithm::EEA2)?;
    /// let header = NasEpsSecurityHeaderType::IntegrityProtectedAndCiphered;
    /// let sealed = core.protect_bytes([0x07, 0x42, 0x01], header, Direction::Downlink)?;
    /// assert_eq!((sealed.len(), sealed[0]), (9, 0x27));
    /// # Ok::<(), NasError>(())
    /// ```
    pub fn protect_bytes(&mut self, inner_bytes: impl AsRef<[u8]>, sht: NasEpsSecurityHeaderType, direction: Direction) -> Result<Vec<u8>> {
        let inner = inner_bytes.as_ref();
        let mut out = vec![0; inner.len() + 6];
        let left = unsafe {
            sys::saihdelu_eps_seal(self.context, sht as u8, direction as u8, inner.as_ptr(), inner.len(), out.as_mut_ptr(), out.len())
        };
        out.truncate(done(self.keep(left))?.wrote);
        Ok(out)
    }

    /// Makes a SERVICE REQUEST with a key set identifier: uplink.
    ///
    /// Refused, in this order: 16, an identifier above 7; 6.
    ///
    /// ```
    /// use saihdelu::nas_eps::*;
    ///
    /// let (int, enc) = (KNasInt::new(&[1; 16]), KNasEnc::new(&[2; 16]));
    /// let mut handset = NasSecurityContext::from_fresh_keys(&int, &enc, IntegrityAlgorithm::EIA2, CipheringAlgorithm::EEA2)?;
    /// assert_eq!(handset.protect_service_request(5)?[..2], [0xc7, 0xa0]);
    /// assert_eq!(handset.protect_service_request(8), Err(NasError::NumberTooLarge));
    /// # Ok::<(), NasError>(())
    /// ```
    pub fn protect_service_request(&mut self, identifier: u8) -> Result<[u8; 4]> {
        let mut out = [0; 4];
        let left = unsafe { sys::saihdelu_eps_service_request(self.context, identifier, out.as_mut_ptr(), out.len()) };
        done(self.keep(left)).map(|_| out)
    }

    /// Opens a sealed message or a SERVICE REQUEST.
    ///
    /// Refused, in this order: 1, 2, 3, 1, 11, 4, 6 or 7.
    ///
    /// ```
    /// use saihdelu::nas_eps::*;
    ///
    /// let (int, enc) = (KNasInt::new(&[1; 16]), KNasEnc::new(&[2; 16]));
    /// let (eia, eea) = (IntegrityAlgorithm::EIA2, CipheringAlgorithm::EEA2);
    /// let mut handset = NasSecurityContext::from_fresh_keys(&int, &enc, eia, eea)?;
    /// let mut core = NasSecurityContext::from_fresh_keys(&int, &enc, eia, eea)?;
    ///
    /// let request = handset.protect_service_request(5)?;
    /// match core.unprotect_raw(&request, Direction::Uplink)? {
    ///     Verified::ServiceRequest { identifier, count, .. } => assert_eq!((identifier, count), (5, NasCount::ZERO)),
    ///     other => panic!("{:?}", other),
    /// }
    /// assert_eq!(core.unprotect_raw(&request, Direction::Uplink), Err(NasError::IntegrityCheckFailed)); // repeated
    /// # Ok::<(), NasError>(())
    /// ```
    pub fn unprotect_raw(&mut self, data: &[u8], direction: Direction) -> Result<Verified> {
        let mut out = vec![0; data.len().saturating_sub(6)];
        let left = unsafe { sys::saihdelu_eps_open(self.context, direction as u8, data.as_ptr(), data.len(), out.as_mut_ptr(), out.len()) };
        let answer = opened(self.keep(left), &mut out)?;
        let (count, distance) = (NasCount(answer.count), answer.distance);
        Ok(match HeaderType::from_number(answer.header_type) {
            Some(security_header_type) => Verified::Message { message: out, security_header_type, count, distance },
            None => Verified::ServiceRequest { identifier: answer.octet, count, distance },
        })
    }
}

impl fmt::Debug for NasSecurityContext {
    fn fmt(&self, f: &mut fmt::Formatter<'_>) -> fmt::Result {
        f.debug_struct("NasSecurityContext")
            .field("integrity", &self.integrity_algorithm())
            .field("ciphering", &self.ciphering_algorithm())
            .field("window", &self.replay_window())
            .field("next", &(self.nas_count(Direction::Uplink), self.nas_count(Direction::Downlink)))
            .finish_non_exhaustive()
    }
}
