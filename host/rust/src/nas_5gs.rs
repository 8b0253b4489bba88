//! The 5GS context: four records, one for each direction and connection (TS 24.501 4.4, TS 33.501 6.4).

use crate::{algorithms, done, opened, sys};
pub use crate::{Direction, KNasEnc, KNasInt, NasCount, NasError, Result, MAX_REPLAY_WINDOW};
use std::fmt;

/// The access that a message takes; each has two rows of COUNTs of its own.
#[derive(Clone, Copy, Debug, PartialEq, Eq, Hash)]
pub enum NasConnection {
    /// 3GPP access.
    ThreeGpp = 1,
    /// Non-3GPP access.
    Non3Gpp = 2,
}

impl NasConnection {
    // The one that an answer has; 0 is none.
    pub(crate) fn answered(number: u8) -> Option<NasConnection> {
        match number {
            1 => Some(NasConnection::ThreeGpp),
            2 => Some(NasConnection::Non3Gpp),
            _ => None,
        }
    }
}

algorithms!(
    IntegrityAlgorithm, "The integrity algorithm (TS 24.501 9.11.3.34). Codes 4 to 7 are reserved and refused with 13.", "nas_5gs",
    NIA0 = 0 "Null: no code is made or asked for, and no message is refused as repeated.",
    NIA1 = 1 "128-NIA1, SNOW 3G.", NIA2 = 2 "128-NIA2, AES.", NIA3 = 3 "128-NIA3, ZUC.",
    NIA4 = 4 "Reserved.", NIA5 = 5 "Reserved.", NIA6 = 6 "Reserved.", NIA7 = 7 "Reserved."
);

algorithms!(
    CipheringAlgorithm, "The ciphering algorithm (TS 24.501 9.11.3.34). Codes 4 to 7 are reserved and refused with 13.", "nas_5gs",
    NEA0 = 0 "Null: nothing is ciphered.",
    NEA1 = 1 "128-NEA1, SNOW 3G.", NEA2 = 2 "128-NEA2, AES.", NEA3 = 3 "128-NEA3, ZUC.",
    NEA4 = 4 "Reserved.", NEA5 = 5 "Reserved.", NEA6 = 6 "Reserved.", NEA7 = 7 "Reserved."
);

/// The security header type (TS 24.501 Table 9.3.1).
#[derive(Clone, Copy, Debug, PartialEq, Eq, Hash)]
pub enum Nas5gsSecurityHeaderType {
    /// 0: none that protects; sealing under it is refused with 3.
    PlainFiveGsNasMessageNotSecurityProtected = 0,
    /// 1: integrity protected.
    IntegrityProtected = 1,
    /// 2: integrity protected and ciphered.
    IntegrityProtectedAndCiphered = 2,
    /// 3: integrity protected with a new context, for SECURITY MODE COMMAND alone.
    IntegrityProtectedWithNewFiveGNasSecurityContext = 3,
    /// 4: integrity protected and ciphered with a new context, for SECURITY MODE COMPLETE alone.
    IntegrityProtectedAndCipheredWithNewFiveGNasSecurityContext = 4,
}

use Nas5gsSecurityHeaderType as HeaderType;

impl Nas5gsSecurityHeaderType {
    /// The header type of a number; `None` above 4.
    ///
    /// ```
    /// use saihdelu::nas_5gs::Nas5gsSecurityHeaderType;
    ///
    /// assert_eq!(Nas5gsSecurityHeaderType::from_number(1), Some(Nas5gsSecurityHeaderType::IntegrityProtected));
    /// assert_eq!(Nas5gsSecurityHeaderType::from_number(5), None);
    /// ```
    pub fn from_number(number: u8) -> Option<Nas5gsSecurityHeaderType> {
        match number {
            0 => Some(HeaderType::PlainFiveGsNasMessageNotSecurityProtected),
            1 => Some(HeaderType::IntegrityProtected),
            2 => Some(HeaderType::IntegrityProtectedAndCiphered),
            3 => Some(HeaderType::IntegrityProtectedWithNewFiveGNasSecurityContext),
            4 => Some(HeaderType::IntegrityProtectedAndCipheredWithNewFiveGNasSecurityContext),
            _ => None,
        }
    }
}

/// What a context made of a sealed message that it took.
#[non_exhaustive]
#[derive(Clone, Debug, PartialEq, Eq)]
pub struct Verified {
    /// What to act on: the plaintext or, of an initial message with a container, the whole message from inside it.
    pub message: Vec<u8>,
    /// Its security header type.
    pub security_header_type: Nas5gsSecurityHeaderType,
    /// The COUNT that was used.
    pub count: NasCount,
    /// How many COUNTs were skipped before it, or how far below the highest used one it lies.
    pub distance: u32,
    /// With a container: the plaintext around it, the container still ciphered. Else `None`.
    pub sent: Option<Vec<u8>>,
}

/// A 5GS security context. One owner; each call that uses a COUNT takes `&mut self`.
///
/// ```
/// use saihdelu::nas_5gs::*;
///
/// let (int, enc) = (KNasInt::new(&[1; 16]), KNasEnc::new(&[2; 16]));
/// let context = NasSecurityContext::from_fresh_keys(&int, &enc, IntegrityAlgorithm::NIA2, CipheringAlgorithm::NEA2)?;
/// // `Debug` shows codes, window and next COUNTs, and no key
/// assert!(format!("{:?}", context).contains("NIA2"));
/// # Ok::<(), NasError>(())
/// ```
pub struct NasSecurityContext {
    context: sys::Context,
}

impl NasSecurityContext {
    // The context that a call by value left, kept whatever the answer is.
    fn keep(&mut self, left: sys::Left) -> sys::Answer {
        self.context = left.context;
        left.answer
    }

    fn made(make: impl FnOnce() -> sys::Left) -> Result<NasSecurityContext> {
        // No proof knows a size: with a library of another layout no context is made.
        assert_eq!(unsafe { sys::saihdelu_context_size() }, std::mem::size_of::<sys::Context>(), "libnas_c.a has another layout");
        let left = make();
        done(left.answer)?;
        Ok(NasSecurityContext { context: left.context })
    }

    /// A context for fresh keys: every COUNT from 0, no window. For keys that nothing was sealed with before.
    ///
    /// Refused: 13.
    ///
    /// ```
    /// use saihdelu::nas_5gs::*;
    ///
    /// let (int, enc) = (KNasInt::new(&[1; 16]), KNasEnc::new(&[2; 16]));
    /// let context = NasSecurityContext::from_fresh_keys(&int, &enc, IntegrityAlgorithm::NIA2, CipheringAlgorithm::NEA2)?;
    /// assert_eq!(context.nas_count(Direction::Uplink, NasConnection::ThreeGpp), Some(NasCount::ZERO));
    /// # Ok::<(), NasError>(())
    /// ```
    pub fn from_fresh_keys(
        knas_int: &KNasInt,
        knas_enc: &KNasEnc,
        integrity_algo: IntegrityAlgorithm,
        ciphering_algo: CipheringAlgorithm,
    ) -> Result<NasSecurityContext> {
        Self::made(|| unsafe { sys::saihdelu_new(integrity_algo as u8, ciphering_algo as u8, &knas_int.0, &knas_enc.0) })
    }

    /// A context that goes on at stored next COUNTs, uplink then downlink of each connection, `None` for a row that is used up;
    /// no window. The COUNTs must be at or above those last in use with these keys: after older ones, COUNTs and keystream are
    /// used again.
    ///
    /// Refused: 13.
    ///
    /// ```
    /// use saihdelu::nas_5gs::*;
    ///
    /// let (int, enc) = (KNasInt::new(&[1; 16]), KNasEnc::new(&[2; 16]));
    /// let (nia, nea) = (IntegrityAlgorithm::NIA2, CipheringAlgorithm::NEA2);
    /// let three_gpp = (NasCount::new(7), NasCount::new(90));
    /// let context = NasSecurityContext::restore(&int, &enc, nia, nea, three_gpp, (Some(NasCount::ZERO), None))?;
    /// assert_eq!(context.nas_count(Direction::Downlink, NasConnection::ThreeGpp), NasCount::new(90));
    /// assert_eq!(context.nas_count(Direction::Downlink, NasConnection::Non3Gpp), None);
    /// # Ok::<(), NasError>(())
    /// ```
    pub fn restore(
        knas_int: &KNasInt,
        knas_enc: &KNasEnc,
        integrity_algo: IntegrityAlgorithm,
        ciphering_algo: CipheringAlgorithm,
        three_gpp_counts: (Option<NasCount>, Option<NasCount>),
        non_3gpp_counts: (Option<NasCount>, Option<NasCount>),
    ) -> Result<NasSecurityContext> {
        Self::made(|| unsafe {
            sys::saihdelu_restore(
                integrity_algo as u8,
                ciphering_algo as u8,
                &knas_int.0,
                &knas_enc.0,
                NasCount::stored(three_gpp_counts.0),
                NasCount::stored(three_gpp_counts.1),
                NasCount::stored(non_3gpp_counts.0),
                NasCount::stored(non_3gpp_counts.1),
            )
        })
    }

    /// New algorithms and both new keys; COUNTs and window stay. Away from null integrity every late COUNT is closed.
    ///
    /// Refused: 13.
    ///
    /// ```
    /// use saihdelu::nas_5gs::*;
    ///
    /// let (int, enc) = (KNasInt::new(&[1; 16]), KNasEnc::new(&[2; 16]));
    /// let mut context = NasSecurityContext::from_fresh_keys(&int, &enc, IntegrityAlgorithm::NIA2, CipheringAlgorithm::NEA2)?;
    /// context.n1_to_s1_container()?;
    /// let (int, enc) = (KNasInt::new(&[3; 16]), KNasEnc::new(&[4; 16]));
    /// context.reselect_algorithms(&int, &enc, IntegrityAlgorithm::NIA1, CipheringAlgorithm::NEA1)?;
    /// assert_eq!(context.integrity_algorithm(), IntegrityAlgorithm::NIA1);
    /// assert_eq!(context.nas_count(Direction::Downlink, NasConnection::ThreeGpp), NasCount::new(1));
    /// # Ok::<(), NasError>(())
    /// ```
    pub fn reselect_algorithms(
        &mut self,
        knas_int: &KNasInt,
        knas_enc: &KNasEnc,
        integrity_algo: IntegrityAlgorithm,
        ciphering_algo: CipheringAlgorithm,
    ) -> Result<()> {
        let left = unsafe { sys::saihdelu_reselect(self.context, integrity_algo as u8, ciphering_algo as u8, &knas_int.0, &knas_enc.0) };
        done(self.keep(left)).map(|_| ())
    }

    /// The integrity algorithm.
    ///
    /// ```
    /// use saihdelu::nas_5gs::*;
    ///
    /// let (int, enc) = (KNasInt::new(&[1; 16]), KNasEnc::new(&[2; 16]));
    /// let context = NasSecurityContext::from_fresh_keys(&int, &enc, IntegrityAlgorithm::NIA3, CipheringAlgorithm::NEA0)?;
    /// assert_eq!(context.integrity_algorithm(), IntegrityAlgorithm::NIA3);
    /// # Ok::<(), NasError>(())
    /// ```
    pub fn integrity_algorithm(&self) -> IntegrityAlgorithm {
        let code = unsafe { sys::saihdelu_integrity(self.context) };
        IntegrityAlgorithm::from_code(code).expect("a context that was made has a code from 0 to 3")
    }

    /// The ciphering algorithm.
    ///
    /// ```
    /// use saihdelu::nas_5gs::*;
    ///
    /// let (int, enc) = (KNasInt::new(&[1; 16]), KNasEnc::new(&[2; 16]));
    /// let context = NasSecurityContext::from_fresh_keys(&int, &enc, IntegrityAlgorithm::NIA3, CipheringAlgorithm::NEA0)?;
    /// assert_eq!(context.ciphering_algorithm(), CipheringAlgorithm::NEA0);
    /// # Ok::<(), NasError>(())
    /// ```
    pub fn ciphering_algorithm(&self) -> CipheringAlgorithm {
        let code = unsafe { sys::saihdelu_ciphering(self.context) };
        CipheringAlgorithm::from_code(code).expect("a context that was made has a code from 0 to 3")
    }

    /// The next COUNT of a row, which a seal would use; `None` at its end. What a host stores for [`Self::restore`].
    ///
    /// ```
    /// use saihdelu::nas_5gs::*;
    ///
    /// let (int, enc) = (KNasInt::new(&[1; 16]), KNasEnc::new(&[2; 16]));
    /// let mut context = NasSecurityContext::from_fresh_keys(&int, &enc, IntegrityAlgorithm::NIA2, CipheringAlgorithm::NEA2)?;
    /// context.n1_to_s1_container()?;
    /// assert_eq!(context.nas_count(Direction::Downlink, NasConnection::ThreeGpp), NasCount::new(1));
    /// # Ok::<(), NasError>(())
    /// ```
    pub fn nas_count(&self, direction: Direction, connection: NasConnection) -> Option<NasCount> {
        NasCount::new(unsafe { sys::saihdelu_next_count(self.context, direction as u8, connection as u8) })
    }

    /// The window size; 0 until one is set.
    ///
    /// ```
    /// use saihdelu::nas_5gs::*;
    ///
    /// let (int, enc) = (KNasInt::new(&[1; 16]), KNasEnc::new(&[2; 16]));
    /// let context = NasSecurityContext::from_fresh_keys(&int, &enc, IntegrityAlgorithm::NIA2, CipheringAlgorithm::NEA2)?;
    /// assert_eq!(context.replay_window(), 0);
    /// # Ok::<(), NasError>(())
    /// ```
    pub fn replay_window(&self) -> u8 {
        unsafe { sys::saihdelu_window(self.context) }
    }

    /// Takes a message up to `size` COUNTs below the highest used one, each once, in all four records. A COUNT that only the new
    /// size covers counts as used.
    ///
    /// Refused: 14, above [`MAX_REPLAY_WINDOW`].
    ///
    /// ```
    /// use saihdelu::nas_5gs::*;
    ///
    /// let (int, enc) = (KNasInt::new(&[1; 16]), KNasEnc::new(&[2; 16]));
    /// let (nia, nea) = (IntegrityAlgorithm::NIA2, CipheringAlgorithm::NEA2);
    /// let mut core = NasSecurityContext::from_fresh_keys(&int, &enc, nia, nea)?;
    /// let mut handset = NasSecurityContext::from_fresh_keys(&int, &enc, nia, nea)?;
    /// handset.set_replay_window(32)?;
    ///
    /// // COUNT 1 overtakes COUNT 0, which is then taken late, and not again
    /// let header = Nas5gsSecurityHeaderType::IntegrityProtectedAndCiphered;
    /// let (down, three_gpp) = (Direction::Downlink, NasConnection::ThreeGpp);
    /// let slow = core.protect_bytes_for_access([0x7e, 0x00, 0x64, 0x16], header, down, three_gpp)?;
    /// let fast = core.protect_bytes_for_access([0x7e, 0x00, 0x64, 0x16], header, down, three_gpp)?;
    /// assert_eq!(handset.unprotect_raw_for_access(&fast, down, three_gpp)?.count.get(), 1);
    /// assert_eq!(handset.unprotect_raw_for_access(&slow, down, three_gpp)?.count.get(), 0);
    /// assert_eq!(handset.unprotect_raw_for_access(&slow, down, three_gpp), Err(NasError::IntegrityCheckFailed));
    /// assert_eq!(handset.set_replay_window(65), Err(NasError::WindowTooLarge));
    /// # Ok::<(), NasError>(())
    /// ```
    pub fn set_replay_window(&mut self, size: u8) -> Result<()> {
        done(unsafe { sys::saihdelu_set_window_in_place(&mut self.context, size) }).map(|_| ())
    }

    /// Seals a plain 5GS message.
    ///
    /// Refused, in this order: 9, 3, 10, 11, 4, 6.
    ///
    /// ```
    /// use saihdelu::nas_5gs::*;
    ///
    /// let (int, enc) = (KNasInt::new(&[1; 16]), KNasEnc::new(&[2; 16]));
    /// let mut core = NasSecurityContext::from_fresh_keys(&int, &enc, IntegrityAlgorithm::NIA2, CipheringAlgorithm::NEA2)?;
    /// let header = Nas5gsSecurityHeaderType::IntegrityProtectedAndCiphered;
    /// let accept = [0x7e, 0x00, 0x42, 0x01, 0x09]; // REGISTRATION ACCEPT
    /// let sealed = core.protect_bytes_for_access(accept, header, Direction::Downlink, NasConnection::ThreeGpp)?;
    /// assert_eq!((sealed.len(), sealed[0], sealed[1]), (accept.len() + 7, 0x7e, 2));
    ///
    /// // A message of the core, in the handset's direction
    /// let refused = core.protect_bytes_for_access(accept, header, Direction::Uplink, NasConnection::ThreeGpp);
    /// assert_eq!(refused, Err(NasError::WrongDirection));
    /// # Ok::<(), NasError>(())
    /// ```
    pub fn protect_bytes_for_access(
        &mut self,
        inner_bytes: impl AsRef<[u8]>,
        sht: Nas5gsSecurityHeaderType,
        direction: Direction,
        connection: NasConnection,
    ) -> Result<Vec<u8>> {
        let inner = inner_bytes.as_ref();
        let mut out = vec![0; inner.len() + 7];
        let answer = unsafe {
            sys::saihdelu_seal_in_place(
                &mut self.context,
                sht as u8,
                direction as u8,
                connection as u8,
                inner.as_ptr(),
                inner.len(),
                out.as_mut_ptr(),
                out.len(),
            )
        };
        out.truncate(done(answer)?.wrote);
        Ok(out)
    }

    /// Seals octets that are not looked at, for tests of a receiver.
    ///
    /// Refused, in this order: 3, 4, 6.
    ///
    /// ```
    /// use saihdelu::nas_5gs::*;
    ///
    /// let (int, enc) = (KNasInt::new(&[1; 16]), KNasEnc::new(&[2; 16]));
    /// let (nia, nea) = (IntegrityAlgorithm::NIA2, CipheringAlgorithm::NEA2);
    /// let mut core = NasSecurityContext::from_fresh_keys(&int, &enc, nia, nea)?;
    /// let mut handset = NasSecurityContext::from_fresh_keys(&int, &enc, nia, nea)?;
    ///
    /// let header = Nas5gsSecurityHeaderType::IntegrityProtectedAndCiphered;
    /// let (down, three_gpp) = (Direction::Downlink, NasConnection::ThreeGpp);
    /// let sealed = core.protect_opaque_payload_for_access([0xaa], header, down, three_gpp)?;
    ///
    /// // The code is right and the content is refused: the plaintext comes with the refusal
    /// match handset.unprotect_raw_for_access(&sealed, down, three_gpp) {
    ///     Err(NasError::AuthenticMessageRefused { plain, error, count, .. }) => {
    ///         assert_eq!((plain, *error, count), (vec![0xaa], NasError::UnknownMessage, NasCount::ZERO));
    ///     }
    ///     other => panic!("{:?}", other),
    /// }
    /// # Ok::<(), NasError>(())
    /// ```
    pub fn protect_opaque_payload_for_access(
        &mut self,
        inner_bytes: impl AsRef<[u8]>,
        sht: Nas5gsSecurityHeaderType,
        direction: Direction,
        connection: NasConnection,
    ) -> Result<Vec<u8>> {
        let inner = inner_bytes.as_ref();
        let mut out = vec![0; inner.len() + 7];
        let left = unsafe {
            sys::saihdelu_seal_opaque(
                self.context,
                sht as u8,
                direction as u8,
                connection as u8,
                inner.as_ptr(),
                inner.len(),
                out.as_mut_ptr(),
                out.len(),
            )
        };
        out.truncate(done(self.keep(left))?.wrote);
        Ok(out)
    }

    /// Seals an initial message, SERVICE REQUEST or DEREGISTRATION REQUEST from the handset, given whole and without a container:
    /// header type 1, uplink. What is not cleartext goes out ciphered in a container, which is made here.
    ///
    /// Refused, in this order: 9, 18, 4, 6.
    ///
    /// ```
    /// use saihdelu::nas_5gs::*;
    ///
    /// let (int, enc) = (KNasInt::new(&[1; 16]), KNasEnc::new(&[2; 16]));
    /// let (nia, nea) = (IntegrityAlgorithm::NIA2, CipheringAlgorithm::NEA2);
    /// let mut handset = NasSecurityContext::from_fresh_keys(&int, &enc, nia, nea)?;
    /// let mut core = NasSecurityContext::from_fresh_keys(&int, &enc, nia, nea)?;
    ///
    /// // SERVICE REQUEST with an uplink data status (40), which is not for everybody
    /// let request = [0x7e, 0, 0x4c, 0x10, 0, 7, 0xf4, 0, 0x40, 0xc0, 0, 0, 1, 0x40, 2, 0x20, 0];
    /// let sealed = handset.protect_initial_for_access(request, NasConnection::ThreeGpp)?;
    /// let opened = core.unprotect_raw_for_access(&sealed, Direction::Uplink, NasConnection::ThreeGpp)?;
    /// assert_eq!(opened.message, request);
    /// assert_eq!(opened.sent.unwrap()[..13], request[..13]); // in clear: the mandatory part
    /// # Ok::<(), NasError>(())
    /// ```
    pub fn protect_initial_for_access(&mut self, message: impl AsRef<[u8]>, connection: NasConnection) -> Result<Vec<u8>> {
        let whole = message.as_ref();
        let mut out = vec![0; 2 * whole.len() + 9];
        let left =
            unsafe { sys::saihdelu_initial(self.context, connection as u8, whole.as_ptr(), whole.len(), out.as_mut_ptr(), out.len()) };
        out.truncate(done(self.keep(left))?.wrote);
        Ok(out)
    }

    /// Opens a sealed message.
    ///
    /// Refused, in this order: 1, 2, 3, 1, 4, 6 or 7, 8.
    ///
    /// ```
    /// use saihdelu::nas_5gs::*;
    ///
    /// let (int, enc) = (KNasInt::new(&[1; 16]), KNasEnc::new(&[2; 16]));
    /// let (nia, nea) = (IntegrityAlgorithm::NIA2, CipheringAlgorithm::NEA2);
    /// let mut core = NasSecurityContext::from_fresh_keys(&int, &enc, nia, nea)?;
    /// let mut handset = NasSecurityContext::from_fresh_keys(&int, &enc, nia, nea)?;
    ///
    /// let header = Nas5gsSecurityHeaderType::IntegrityProtectedAndCiphered;
    /// let (down, three_gpp) = (Direction::Downlink, NasConnection::ThreeGpp);
    /// let _lost = core.protect_bytes_for_access([0x7e, 0x00, 0x64, 0x16], header, down, three_gpp)?;
    /// let sealed = core.protect_bytes_for_access([0x7e, 0x00, 0x64, 0x16], header, down, three_gpp)?;
    /// let opened = handset.unprotect_raw_for_access(&sealed, down, three_gpp)?;
    /// assert_eq!((opened.message, opened.security_header_type), (vec![0x7e, 0x00, 0x64, 0x16], header));
    /// assert_eq!((opened.count.get(), opened.distance), (1, 1)); // one was skipped
    /// # Ok::<(), NasError>(())
    /// ```
    pub fn unprotect_raw_for_access(&mut self, data: &[u8], direction: Direction, connection: NasConnection) -> Result<Verified> {
        Ok(self.open_by(sys::saihdelu_open_in_place, data, direction, connection)?.0)
    }

    /// Opens a sealed message that may have been sealed on the other access than the one that it arrives on, as one that is late after a
    /// handover between accesses: what [`Self::unprotect_raw_for_access`] answers, and the access that it was taken on.
    ///
    /// It opens on the access that the message arrived on; where that would refuse with 6 or 7, it tries the record of the other one. A
    /// COUNT is used in one record or in none. Under null integrity no code tells the accesses apart, and the other one is not tried.
    /// It may be called for every message; it costs at most four codes instead of two, and gives a forged message two tries more.
    ///
    /// Refused, in this order: 1, 2, 3, 1, 4, 6 or 7, 8. Where both accesses would refuse, 6 if both would with 6, else 7.
    ///
    /// ```
    /// use saihdelu::nas_5gs::*;
    ///
    /// let (int, enc) = (KNasInt::new(&[1; 16]), KNasEnc::new(&[2; 16]));
    /// let (nia, nea) = (IntegrityAlgorithm::NIA2, CipheringAlgorithm::NEA2);
    /// let mut core = NasSecurityContext::from_fresh_keys(&int, &enc, nia, nea)?;
    /// let mut handset = NasSecurityContext::from_fresh_keys(&int, &enc, nia, nea)?;
    /// handset.set_replay_window(8)?;
    ///
    /// let header = Nas5gsSecurityHeaderType::IntegrityProtectedAndCiphered;
    /// let (down, old, new) = (Direction::Downlink, NasConnection::ThreeGpp, NasConnection::Non3Gpp);
    /// let slow = core.protect_bytes_for_access([0x7e, 0x00, 0x64, 0x16], header, down, old)?;
    /// let fast = core.protect_bytes_for_access([0x7e, 0x00, 0x64, 0x16], header, down, old)?;
    /// handset.unprotect_raw_for_access(&fast, down, old)?;
    ///
    /// // The handset moves to non-3GPP access, and the message that is still under way comes by it
    /// assert_eq!(handset.unprotect_raw_for_access(&slow, down, new), Err(NasError::IntegrityCheckFailed));
    /// let (opened, taken_on) = handset.unprotect_raw_across_access(&slow, down, new)?;
    /// assert_eq!((opened.message, opened.count.get(), taken_on), (vec![0x7e, 0x00, 0x64, 0x16], 0, old));
    ///
    /// // Once, whichever access it comes by
    /// for arrives_on in [old, new] {
    ///     assert_eq!(handset.unprotect_raw_across_access(&slow, down, arrives_on), Err(NasError::IntegrityCheckFailed));
    /// }
    /// # Ok::<(), NasError>(())
    /// ```
    pub fn unprotect_raw_across_access(
        &mut self,
        data: &[u8],
        direction: Direction,
        arrived_on: NasConnection,
    ) -> Result<(Verified, NasConnection)> {
        let (verified, connection) = self.open_by(sys::saihdelu_open_across_in_place, data, direction, arrived_on)?;
        Ok((verified, connection.expect("a message that was taken has a connection")))
    }

    // Both opens differ in the function alone; that of one access answers no connection.
    fn open_by(
        &mut self,
        open: sys::OpenInPlace,
        data: &[u8],
        direction: Direction,
        connection: NasConnection,
    ) -> Result<(Verified, Option<NasConnection>)> {
        let room = data.len().saturating_sub(7);
        let (mut out, mut second) = (vec![0; room], vec![0; room]);
        let answer = unsafe {
            open(
                &mut self.context,
                direction as u8,
                connection as u8,
                data.as_ptr(),
                data.len(),
                out.as_mut_ptr(),
                out.len(),
                second.as_mut_ptr(),
                second.len(),
            )
        };
        let answer = opened(answer, &mut out)?;
        second.truncate(answer.second);
        let (message, sent) = if answer.second > 0 { (second, Some(out)) } else { (out, None) };
        let verified = Verified {
            message,
            security_header_type: HeaderType::from_number(answer.header_type).expect("an opened message has a header type from 1 to 4"),
            count: NasCount(answer.count),
            distance: answer.distance,
            sent,
        };
        Ok((verified, NasConnection::answered(answer.connection)))
    }

    /// Seals an EPS ATTACH REQUEST (07 41) or TRACKING AREA UPDATE REQUEST (07 48) of a handset that goes over to EPS; uplink record of
    /// 3GPP access. The COUNT goes into the keys of the mapped context.
    ///
    /// Refused, in this order: 12, 4, 6.
    ///
    /// ```
    /// use saihdelu::nas_5gs::*;
    ///
    /// let (int, enc) = (KNasInt::new(&[1; 16]), KNasEnc::new(&[2; 16]));
    /// let mut handset = NasSecurityContext::from_fresh_keys(&int, &enc, IntegrityAlgorithm::NIA2, CipheringAlgorithm::NEA2)?;
    /// let (sealed, count) = handset.protect_eps_message(&[0x07, 0x48, 0x01])?;
    /// assert_eq!((sealed[0], &sealed[6..], count), (0x17, &[0x07, 0x48, 0x01][..], NasCount::ZERO));
    /// # Ok::<(), NasError>(())
    /// ```
    pub fn protect_eps_message(&mut self, eps_plain: &[u8]) -> Result<(Vec<u8>, NasCount)> {
        let mut out = vec![0; eps_plain.len() + 6];
        let left =
            unsafe { sys::saihdelu_seal_eps_message(self.context, eps_plain.as_ptr(), eps_plain.len(), out.as_mut_ptr(), out.len()) };
        let answer = done(self.keep(left))?;
        out.truncate(answer.wrote);
        Ok((out, NasCount(answer.count)))
    }

    /// Opens one: the plain message, its COUNT and its distance.
    ///
    /// Refused, in this order: 1, 2, 4, 6 or 7, 8 carrying 12.
    ///
    /// ```
    /// use saihdelu::nas_5gs::*;
    ///
    /// let (int, enc) = (KNasInt::new(&[1; 16]), KNasEnc::new(&[2; 16]));
    /// let (nia, nea) = (IntegrityAlgorithm::NIA2, CipheringAlgorithm::NEA2);
    /// let mut handset = NasSecurityContext::from_fresh_keys(&int, &enc, nia, nea)?;
    /// let mut core = NasSecurityContext::from_fresh_keys(&int, &enc, nia, nea)?;
    /// let (sealed, count) = handset.protect_eps_message(&[0x07, 0x48, 0x01])?;
    /// assert_eq!(core.unprotect_eps_message(&sealed)?, (vec![0x07, 0x48, 0x01], count, 0));
    /// # Ok::<(), NasError>(())
    /// ```
    pub fn unprotect_eps_message(&mut self, pdu: &[u8]) -> Result<(Vec<u8>, NasCount, u32)> {
        let mut out = vec![0; pdu.len().saturating_sub(6)];
        let left = unsafe { sys::saihdelu_open_eps_message(self.context, pdu.as_ptr(), pdu.len(), out.as_mut_ptr(), out.len()) };
        let answer = opened(self.keep(left), &mut out)?;
        Ok((out, NasCount(answer.count), answer.distance))
    }

    /// Makes the N1-to-S1 container of a handover to EPS: its octet, and the COUNT, which goes into the mapped key.
    ///
    /// Refused: 6.
    ///
    /// ```
    /// use saihdelu::nas_5gs::*;
    ///
    /// let (int, enc) = (KNasInt::new(&[1; 16]), KNasEnc::new(&[2; 16]));
    /// let mut core = NasSecurityContext::from_fresh_keys(&int, &enc, IntegrityAlgorithm::NIA2, CipheringAlgorithm::NEA2)?;
    /// assert_eq!(core.n1_to_s1_container()?, (0, NasCount::ZERO));
    /// # Ok::<(), NasError>(())
    /// ```
    pub fn n1_to_s1_container(&mut self) -> Result<(u8, NasCount)> {
        let left = unsafe { sys::saihdelu_n1_to_s1(self.context) };
        let answer = done(self.keep(left))?;
        Ok((answer.octet, NasCount(answer.count)))
    }

    /// Takes one: its COUNT and its distance. It has no code, so any octet is taken: hand a container over once.
    ///
    /// Refused: 6.
    ///
    /// ```
    /// use saihdelu::nas_5gs::*;
    ///
    /// let (int, enc) = (KNasInt::new(&[1; 16]), KNasEnc::new(&[2; 16]));
    /// let mut handset = NasSecurityContext::from_fresh_keys(&int, &enc, IntegrityAlgorithm::NIA2, CipheringAlgorithm::NEA2)?;
    /// assert_eq!(handset.verify_n1_to_s1_container(5)?, (NasCount::new(5).unwrap(), 5));
    /// # Ok::<(), NasError>(())
    /// ```
    pub fn verify_n1_to_s1_container(&mut self, container: u8) -> Result<(NasCount, u32)> {
        let left = unsafe { sys::saihdelu_verify_n1_to_s1(self.context, container) };
        let answer = done(self.keep(left))?;
        Ok((NasCount(answer.count), answer.distance))
    }

    /// Makes the S1-to-N1 container of a handover from EPS: its value, and the COUNT that was used.
    ///
    /// Refused, in this order: 16, 6.
    ///
    /// ```
    /// use saihdelu::nas_5gs::*;
    ///
    /// let (int, enc) = (KNasInt::new(&[1; 16]), KNasEnc::new(&[2; 16]));
    /// let mut core = NasSecurityContext::from_fresh_keys(&int, &enc, IntegrityAlgorithm::NIA2, CipheringAlgorithm::NEA2)?;
    /// let (value, count) = core.s1_to_n1_container(2, 5)?;
    /// assert_eq!((&value[4..], count), (&[0x22, 0x25, 0, 0][..], NasCount::ZERO));
    /// assert_eq!(core.s1_to_n1_container(8, 5), Err(NasError::NumberTooLarge));
    /// # Ok::<(), NasError>(())
    /// ```
    pub fn s1_to_n1_container(&mut self, ncc: u8, ngksi: u8) -> Result<([u8; 8], NasCount)> {
        let mut out = [0; 8];
        let left = unsafe { sys::saihdelu_s1_to_n1(self.context, ncc, ngksi, out.as_mut_ptr(), out.len()) };
        let answer = done(self.keep(left))?;
        Ok((out, NasCount(answer.count)))
    }

    /// Verifies one: the COUNT that was used. The same container passes again and uses a COUNT again: hand one over once.
    ///
    /// Refused, in this order: 1, 4, 15, 6, 7.
    ///
    /// ```
    /// use saihdelu::nas_5gs::*;
    ///
    /// let (int, enc) = (KNasInt::new(&[1; 16]), KNasEnc::new(&[2; 16]));
    /// let (nia, nea) = (IntegrityAlgorithm::NIA2, CipheringAlgorithm::NEA2);
    /// let mut core = NasSecurityContext::from_fresh_keys(&int, &enc, nia, nea)?;
    /// let mut handset = NasSecurityContext::from_fresh_keys(&int, &enc, nia, nea)?;
    /// let (value, count) = core.s1_to_n1_container(2, 5)?;
    /// assert_eq!(handset.verify_s1_to_n1_container(&value), Ok(count));
    /// # Ok::<(), NasError>(())
    /// ```
    pub fn verify_s1_to_n1_container(&mut self, value: &[u8]) -> Result<NasCount> {
        let left = unsafe { sys::saihdelu_verify_s1_to_n1(self.context, value.as_ptr(), value.len()) };
        Ok(NasCount(done(self.keep(left))?.count))
    }
}

impl fmt::Debug for NasSecurityContext {
    fn fmt(&self, f: &mut fmt::Formatter<'_>) -> fmt::Result {
        let next = |connection| (self.nas_count(Direction::Uplink, connection), self.nas_count(Direction::Downlink, connection));
        f.debug_struct("NasSecurityContext")
            .field("integrity", &self.integrity_algorithm())
            .field("ciphering", &self.ciphering_algorithm())
            .field("window", &self.replay_window())
            .field("next_3gpp", &next(NasConnection::ThreeGpp))
            .field("next_non_3gpp", &next(NasConnection::Non3Gpp))
            .finish_non_exhaustive()
    }
}
