// SHIM of nas_5gs/mod.rs with its modules ie, types and messages (the codec is not given).
#[path = "../../text/src/nas_5gs/message_types.rs"]
pub mod message_types;
#[path = "../../text/src/nas_5gs/security.rs"]
pub mod security;
pub use crate::common::{Direction, MAX_REPLAY_WINDOW};
pub use ie::*;
pub use message_types::*;
pub use messages::*;
pub use oxirush_security::NasCount;
pub use oxirush_security::nas_5gs::{KAmf, KNasEnc, KNasInt, NasConnection};
pub use security::{NasSecurityContext, Verified};
pub use types::*;

pub mod ie {
    macro_rules! codes {
        ($n:ident: $($v:ident)*) => {
            #[derive(Debug, Clone, Copy, PartialEq, Eq)]
            #[repr(u8)]
            pub enum $n { $($v),* }
            impl $n {
                pub fn of(code: u8) -> Option<Self> { [$(Self::$v),*].get(usize::from(code)).copied() }
            }
        };
    }
    codes!(IntegrityAlgorithm: NIA0 NIA1 NIA2 NIA3 NIA4 NIA5 NIA6 NIA7);
    codes!(CipheringAlgorithm: NEA0 NEA1 NEA2 NEA3 NEA4 NEA5 NEA6 NEA7);
    pub enum AccessTypeValue {
        ThreeGppAccess,
        Non3GppAccess,
    }
}

pub mod types {
    use super::ie::*;
    pub use crate::common::NasError;
    pub(crate) use crate::common::Result;
    pub const EXTENDED_PROTOCOL_DISCRIMINATOR_5GSM: u8 = 0x2e;
    pub const EXTENDED_PROTOCOL_DISCRIMINATOR_5GMM: u8 = 0x7e;
    macro_rules! value {
        ($n:ident $t:ty $(, $c:ident)?) => {
            #[derive(Debug, Clone, PartialEq $(, $c)?)]
            pub struct $n { pub value: $t }
            impl $n { pub fn new(value: $t) -> Self { Self { value } } }
        };
    }
    value!(NasMessageContainer Vec<u8>);
    value!(NasKeySetIdentifier u8, Copy);
    value!(NasSecurityAlgorithms u8);
    value!(NasN1ModeToS1ModeNasTransparentContainer u8);
    value!(NasS1ModeToN1ModeNasTransparentContainer Vec<u8>);
    impl NasSecurityAlgorithms {
        pub fn from_algorithms(nea: CipheringAlgorithm, nia: IntegrityAlgorithm) -> Self {
            Self::new((nea as u8) << 4 | nia as u8)
        }
        pub fn ciphering_raw(&self) -> u8 {
            self.value >> 4
        }
        pub fn integrity_raw(&self) -> u8 {
            self.value & 15
        }
    }
    impl NasN1ModeToS1ModeNasTransparentContainer {
        pub fn from_sequence_number(n: u8) -> Self {
            Self::new(n)
        }
        pub fn sequence_number(&self) -> u8 {
            self.value
        }
    }
    impl NasS1ModeToN1ModeNasTransparentContainer {
        pub fn from_fields(code: u32, a: NasSecurityAlgorithms, ncc: u8, ngksi: NasKeySetIdentifier) -> Result<Self> {
            if ncc > 7 {
                return Err(NasError::EncodingError("ncc above 7".into()));
            }
            let c = code.to_be_bytes();
            Ok(Self::new(vec![c[0], c[1], c[2], c[3], a.value, ncc << 4 | ngksi.value & 15, 0, 0]))
        }
        pub fn set_message_authentication_code(&mut self, code: u32) {
            self.value[..4].copy_from_slice(&code.to_be_bytes());
        }
    }
}

pub mod messages {
    //! The look of document 01, keeping the octets. SERVICE REQUEST and DEREGISTRATION REQUEST from the UE have parts. The
    //! other two initial messages have none: their containers are never found, and `initial` answers None of them.
    use super::message_types::{Nas5gmmMessageType, Nas5gsSecurityHeaderType};
    use super::types::*;
    macro_rules! message {
        ($n:ident, $v:ident, ($($f:ident),*), ($($o:ident: $t:ty),*)) => {
            #[derive(Debug, Clone, PartialEq, Default)]
            pub struct $n { $(pub $f: u8,)* $(pub $o: Option<$t>,)* pub octets: Vec<u8> }
            impl $n {
                pub fn new($($f: u8),*) -> Self { Self { $($f,)* ..Self::default() } }
                fn decoded(octets: &[u8]) -> Self { Self { octets: octets.to_vec(), ..Self::default() } }
                fn encoded(&self) -> Result<Vec<u8>> { Ok(self.octets.clone()) }
            }
            impl From<$n> for Nas5gmmMessage { fn from(m: $n) -> Self { Self::$v(Box::new(m)) } }
        };
    }
    message!(NasRegistrationRequest, RegistrationRequest, (fgs_registration_type, ngksi, fgs_mobile_identity),
        (ue_security_capability: u8, additional_guti: u8, ue_status: u8, eps_nas_message_container: u8, nid: u8,
         ue_determined_plmn_with_disaster_condition: u8, nas_message_container: NasMessageContainer));
    message!(NasControlPlaneServiceRequest, ControlPlaneServiceRequest, (control_plane_service_type, ngksi),
        (ciot_small_data_container: NasMessageContainer, nas_message_container: NasMessageContainer));

    /// A message with its mandatory part, its container, and the optional octets before and after that. A message that is too
    /// short for its mandatory part has no parts, and its octets are kept (`whole`).
    macro_rules! with_parts {
        ($n:ident, $v:ident, $kind:literal, ($low:ident, $high:ident, $identity:ident), $later:expr) => {
            #[derive(Debug, Clone, PartialEq, Default)]
            pub struct $n {
                pub $low: u8,
                pub $high: u8,
                pub $identity: Vec<u8>,
                pub nas_message_container: Option<NasMessageContainer>,
                before: Vec<u8>,
                after: Vec<u8>,
                whole: Option<Vec<u8>>,
            }
            impl $n {
                pub fn new($low: u8, $high: u8, $identity: Vec<u8>) -> Self {
                    Self { $low, $high, $identity, ..Self::default() }
                }
                fn decoded(octets: &[u8]) -> Self {
                    let whole = Self { whole: Some(octets.to_vec()), ..Self::default() };
                    let [_, _, _, fourth, a, b, rest @ ..] = octets else { return whole };
                    let Some((identity, parts)) = rest.split_at_checked(length(*a, *b)) else { return whole };
                    let (before, value, after) = contained(parts, &$later);
                    let nas_message_container = value.map(NasMessageContainer::new);
                    Self { nas_message_container, before, after, ..Self::new(fourth & 15, fourth >> 4, identity.to_vec()) }
                }
                fn encoded(&self) -> Result<Vec<u8>> {
                    if let Some(octets) = &self.whole {
                        return Ok(octets.clone());
                    }
                    let container = match &self.nas_message_container {
                        Some(container) => [vec![0x71], with_length(&container.value)?].concat(),
                        None => vec![],
                    };
                    let first = vec![0x7e, 0, $kind, self.$high << 4 | self.$low];
                    Ok([first, with_length(&self.$identity)?, self.before.clone(), container, self.after.clone()].concat())
                }
            }
            impl From<$n> for Nas5gmmMessage { fn from(m: $n) -> Self { Self::$v(Box::new(m)) } }
        };
    }
    with_parts!(NasServiceRequest, ServiceRequest, 0x4c, (ngksi, service_type, fg_s_tmsi), [0x29, 0x28]);
    with_parts!(NasDeregistrationRequestUeOriginating, DeregistrationRequestUeOriginating, 0x45,
        (de_registration_type, ngksi, fgs_mobile_identity), [0x3c]);

    fn length(a: u8, b: u8) -> usize {
        usize::from(a) << 8 | usize::from(b)
    }
    fn with_length(value: &[u8]) -> Result<Vec<u8>> {
        let n = u16::try_from(value.len()).map_err(|_| NasError::EncodingError("a length of more than two octets".into()))?;
        Ok([&n.to_be_bytes(), value].concat())
    }
    /// The optional octets before the container, its value, and those behind it (TS 24.007 11.2.4). As the text's decoder
    /// says of itself, an IE of a wrong length is absent, and so is one out of the table's order: a container behind an IE
    /// that the table has after it (`later`). Absent octets are kept.
    fn contained(parts: &[u8], later: &[u8]) -> (Vec<u8>, Option<Vec<u8>>, Vec<u8>) {
        let mut at = 0;
        while let [identifier, rest @ ..] = &parts[at..] {
            let (head, n) = match (identifier, rest) {
                (0x80.., _) => (1, 0),
                (0x70..=0x7f, [a, b, ..]) => (3, length(*a, *b)),
                (..=0x6f, [a, ..]) => (2, usize::from(*a)),
                _ => break,
            };
            let end = at + head + n;
            match parts.get(at + head..end) {
                Some(value) if *identifier == 0x71 => return (parts[..at].to_vec(), Some(value.to_vec()), parts[end..].to_vec()),
                Some(_) if !later.contains(identifier) => at = end,
                _ => break,
            }
        }
        (parts.to_vec(), None, vec![])
    }

    macro_rules! gmm {
        ($($p:ident $t:ident)*; $($v:ident)*) => {
            #[derive(Debug, Clone, PartialEq)]
            pub enum Nas5gmmMessage { $($p(Box<$t>),)* $($v(Vec<u8>),)* }
            impl Nas5gmmMessage {
                fn of(t: Nas5gmmMessageType, octets: &[u8]) -> Option<Self> {
                    match t {
                        $(Nas5gmmMessageType::$p => Some($t::decoded(octets).into()),)*
                        $(Nas5gmmMessageType::$v => Some(Self::$v(octets.to_vec())),)*
                        Nas5gmmMessageType::Unknown(_) => None,
                    }
                }
                pub fn message_type(&self) -> Nas5gmmMessageType {
                    match self { $(Self::$p(_) => Nas5gmmMessageType::$p,)* $(Self::$v(_) => Nas5gmmMessageType::$v,)* }
                }
                fn octets(&self) -> Result<Vec<u8>> {
                    match self { $(Self::$p(m) => m.encoded(),)* $(Self::$v(m) => Ok(m.clone()),)* }
                }
            }
        };
    }
    gmm!(RegistrationRequest NasRegistrationRequest
         DeregistrationRequestUeOriginating NasDeregistrationRequestUeOriginating
         ServiceRequest NasServiceRequest
         ControlPlaneServiceRequest NasControlPlaneServiceRequest;
         RegistrationAccept RegistrationComplete RegistrationReject DeregistrationAcceptUeOriginating
         DeregistrationRequestUeTerminated DeregistrationAcceptUeTerminated ServiceReject ServiceAccept
         NetworkSliceSpecificAuthenticationCommand NetworkSliceSpecificAuthenticationComplete
         NetworkSliceSpecificAuthenticationResult ConfigurationUpdateCommand ConfigurationUpdateComplete
         AuthenticationRequest AuthenticationResponse AuthenticationReject AuthenticationFailure
         AuthenticationResult IdentityRequest IdentityResponse SecurityModeCommand SecurityModeComplete
         SecurityModeReject FiveGmmStatus Notification NotificationResponse UlNasTransport DlNasTransport
         RelayKeyRequest RelayKeyAccept RelayKeyReject RelayAuthenticationRequest RelayAuthenticationResponse);

    /// A 5GMM message with its second octet, and a 5GSM one.
    #[derive(Debug, Clone, PartialEq)]
    pub enum Nas5gsMessage {
        Gmm(u8, Nas5gmmMessage),
        Gsm((), Vec<u8>),
    }
    impl Nas5gsMessage {
        pub fn decode(octets: &[u8]) -> Result<Self> {
            let unknown = || NasError::DecodingError("look: not a known message".into());
            match octets {
                [0x7e, second, kind, ..] if second & 15 == 0 => {
                    let m = Nas5gmmMessage::of(Nas5gmmMessageType::try_from(*kind)?, octets);
                    Ok(Self::Gmm(*second, m.ok_or_else(unknown)?))
                }
                [0x2e, _, _, _, ..] => Ok(Self::Gsm((), octets.to_vec())),
                _ => Err(unknown()),
            }
        }
        pub fn encode(&self) -> Result<Vec<u8>> {
            Ok(match self {
                Self::Gmm(second, m) => {
                    let mut octets = m.octets()?;
                    octets[1] = *second;
                    octets
                }
                Self::Gsm((), o) => o.clone(),
            })
        }
    }
    /// TS 24.501 Table 9.3.1 as document 01 reads it.
    pub fn validate_security_protected_inner_message(m: &Nas5gsMessage, sht: Nas5gsSecurityHeaderType) -> Result<()> {
        let kind = match m {
            Nas5gsMessage::Gmm(_, m) => m.message_type().as_u8(),
            Nas5gsMessage::Gsm(..) => 0,
        };
        match (sht as u8, kind) {
            (3, 0x5d) | (4, 0x5e) => Ok(()),
            (3 | 4, _) | (_, 0x5d | 0x5e) => Err(NasError::EncodingError("pairing".into())),
            _ => Ok(()),
        }
    }
}
