//! The hex lines over the given text. Where the text has no notion of something, this driver adds it; each such
//! place is marked GLUE.
use crate::common::NasError;
use crate::nas_5gs::*;

type Answer = core::result::Result<String, NasError>;

/// A slot: the context, and what the text lets nobody read back from it (the keys). `None` is the context that a
/// refused creation hands back.
#[derive(Default)]
struct Slot(Option<(NasSecurityContext, [u8; 32])>);

#[derive(Default)]
pub struct Session([Slot; 8]);

pub fn hex(octets: &[u8]) -> String {
    if octets.is_empty() { "-".into() } else { octets.iter().map(|b| format!("{b:02x}")).collect() }
}

fn number(word: &str, digits: usize) -> Option<u64> {
    let lower_hex = |b: u8| b.is_ascii_digit() || (b'a'..=b'f').contains(&b);
    (word.len() == digits && word.bytes().all(lower_hex)).then(|| u64::from_str_radix(word, 16).ok())?
}
fn octet(word: &str) -> Option<u8> {
    Some(number(word, 2)? as u8)
}
fn octets(word: &str) -> Option<Vec<u8>> {
    match word {
        "-" => Some(vec![]),
        _ if word.is_empty() || word.len() % 2 != 0 || !word.is_ascii() => None,
        _ => (0..word.len() / 2).map(|i| octet(&word[2 * i..2 * i + 2])).collect(),
    }
}
fn direction(word: &str) -> Option<Direction> {
    match word { "0" => Some(Direction::Uplink), "1" => Some(Direction::Downlink), _ => None }
}
fn connection(word: &str) -> Option<NasConnection> {
    match word { "1" => Some(NasConnection::ThreeGpp), "2" => Some(NasConnection::Non3Gpp), _ => None }
}
/// Both codes, and both keys in a row.
fn selection(w: &[&str]) -> Option<(u8, u8, [u8; 32])> {
    let [i, c, ik, ck] = w else { return None };
    let (ik, ck): ([u8; 16], [u8; 16]) = (octets(ik)?.try_into().ok()?, octets(ck)?.try_into().ok()?);
    Some((octet(i)?, octet(c)?, [ik, ck].concat().try_into().ok()?))
}

/// The number that a refusal of the content carries.
fn carried(e: &NasError) -> u8 {
    match e {
        NasError::DecodingError(m) | NasError::EncodingError(m) if m.starts_with("look") => 9,
        NasError::DecodingError(m) | NasError::EncodingError(m) if m == "pairing" => 10,
        NasError::DecodingError(m) | NasError::EncodingError(m) if m.contains(" requires ") => 11,
        NasError::DecodingError(m) | NasError::EncodingError(m) if m.starts_with("only a plain EPS") => 12,
        NasError::EncodingError(m) if m.starts_with("an initial NAS message") || m.contains("is no initial NAS message") => 9,
        NasError::DecodingError(m) | NasError::EncodingError(m) if m.starts_with("the NAS message container") => 18,
        _ => 0,
    }
}
/// Document 01's number of a refusal.
fn refusal(e: &NasError) -> u8 {
    match e {
        NasError::BufferTooShort | NasError::MessageTooShort => 1,
        NasError::DecodingError(m) if m.contains("discriminator") || m.contains("SHT 0001") => 2,
        NasError::ReservedSecurityHeaderType(_) => 3,
        NasError::DecodingError(m) if m.contains("not a security-protected") => 3,
        NasError::SecurityRefused(m) if m.contains("header type") => 3,
        NasError::NasCountExhausted => 6,
        NasError::IntegrityCheckFailed => 7,
        NasError::SecurityRefused(m) if m.contains("replay window") => 14,
        NasError::SecurityRefused(m) if m.contains("container selects") => 15,
        NasError::SecurityRefused(_) => 13,
        NasError::EncodingError(m) if m.starts_with("ncc") => 16,
        e => carried(e),
    }
}

fn next(c: &NasSecurityContext, d: Direction, n: NasConnection) -> u32 {
    c.nas_count(d, n).map_or(1 << 24, |c| c.get())
}

/// GLUE: the error that stands for refusal 8 has no COUNT. If next moved it is the one before it, else the late one. The
/// error of a container has the container's octets, deciphered; told are the outer ones, as for every other.
fn refused_content(error: NasError, before: u32, after: u32, last: u8, opened: Option<(u8, &[u8])>) -> Answer {
    let NasError::AuthenticMessageRefused { error, plain } = error else { return Err(error) };
    let count = if before != after {
        after.wrapping_sub(1) & 0xff_ffff
    } else {
        let highest = before - 1;
        highest - u32::from((highest as u8).wrapping_sub(last))
    };
    let (number, plain, header, second) = match opened {
        Some((1, outer)) if plain != outer => (18, outer.to_vec(), "01 ".into(), " 0000 -"),
        Some((header, _)) => (carried(&error), plain, format!("{header:02x} "), " 0000 -"),
        None => (carried(&error), plain, String::new(), ""),
    };
    Ok(format!("no 8 {count:08x} {:04x} {header}{number} {}{second}", plain.len(), hex(&plain)))
}
fn used(count: u32, wrote: &[u8]) -> String {
    format!("ok {count:08x} {:04x} {}", wrote.len(), hex(wrote))
}

impl Slot {
    /// GLUE: codes above 7 are no value of the text's enums, and a next COUNT above 2^24 is none of its type.
    fn made(&mut self, (i, c, keys): (u8, u8, [u8; 32]), counts: [u32; 4]) -> Answer {
        *self = Slot(None);
        let (Some(nia), Some(nea)) = (IntegrityAlgorithm::of(i), CipheringAlgorithm::of(c)) else { return Ok("no 13".into()) };
        let kamf = KAmf::new(&keys);
        let fresh = NasSecurityContext::from_fresh_kamf(&kamf, nia, nea)?;
        if counts.iter().any(|n| *n > 1 << 24) {
            return Ok("no 16".into());
        }
        let [a, b, d, e] = counts.map(|n| NasCount::new(n).ok());
        let context = match counts {
            [0, 0, 0, 0] => fresh,
            _ => NasSecurityContext::restore_from_kamf(&kamf, nia, nea, (a, b), (d, e))?,
        };
        *self = Slot(Some((context, keys)));
        Ok("ok".into())
    }

    fn reselected(&mut self, (i, c, keys): (u8, u8, [u8; 32])) -> Answer {
        let Some((context, held)) = &mut self.0 else { return Ok("no 13".into()) };
        let (Some(nia), Some(nea)) = (IntegrityAlgorithm::of(i), CipheringAlgorithm::of(c)) else { return Ok("no 13".into()) };
        context.reselect_algorithms(&KAmf::new(&keys), nia, nea)?;
        *held = keys;
        Ok("ok".into())
    }

    /// GLUE: the text puts no window bits in by hand. Sizes with every bit used, and size 0 with none, are what
    /// restore and the window's setting give; every other context by hand is answered `cannot`.
    fn raw(&mut self, selected: (u8, u8, [u8; 32]), size: u8, records: [(u32, u64); 4]) -> Answer {
        let all = if size >= 64 { u64::MAX } else { (1 << size) - 1 };
        let known = size <= 64 && records.iter().all(|(n, b)| *n <= 1 << 24 && *b == all);
        *self = Slot(None);
        if !known || self.made(selected, records.map(|r| r.0)).is_ok_and(|a| a != "ok") || self.0.is_none() {
            return Ok("cannot".into());
        }
        self.0.as_mut().unwrap().0.set_replay_window(size)?;
        Ok("ok".into())
    }

    /// GLUE: the text shows no window bits: they are printed as dots.
    fn shown(&self) -> String {
        let zeros = "0".repeat(32);
        let Some((c, keys)) = &self.0 else {
            return format!("ff ff {zeros} {zeros} 00{}", " 00000000 0000000000000000".repeat(4));
        };
        let places = [NasConnection::ThreeGpp, NasConnection::Non3Gpp]
            .map(|n| [Direction::Uplink, Direction::Downlink].map(|d| format!(" {:08x} {}", next(c, d, n), ".".repeat(16))));
        let (i, e) = (c.integrity_algorithm() as u8, c.ciphering_algorithm() as u8);
        let size = c.replay_window();
        format!("{i:02x} {e:02x} {} {} {size:02x}{}", hex(&keys[..16]), hex(&keys[16..]), places.concat().concat())
    }

    fn sealed(&mut self, opaque: bool, t: u8, d: Direction, n: NasConnection, inner: Vec<u8>) -> Answer {
        let Some((c, _)) = &mut self.0 else { return Ok("no 13".into()) };
        let before = next(c, d, n);
        let sealed = match (Nas5gsSecurityHeaderType::try_from(t), opaque) {
            (Ok(t), false) => c.protect_bytes_for_access(inner, t, d, n)?,
            (Ok(t), true) => c.protect_opaque_payload_for_access(inner, t, d, n)?,
            // GLUE: a reserved type is no value of the enum; the look comes first, as in the text
            (Err(e), false) => return Nas5gsMessage::decode(&inner).and(Err(e)),
            (Err(e), true) => return Err(e),
        };
        Ok(used(before, &sealed))
    }

    /// GLUE: the codec of the other two initial messages is not given: they are answered `other`.
    fn initial(&mut self, n: NasConnection, whole: Vec<u8>) -> Answer {
        let Some((c, _)) = &mut self.0 else { return Ok("no 13".into()) };
        let before = next(c, Direction::Uplink, n);
        let message = Nas5gsMessage::decode(&whole)?;
        if matches!(message, Nas5gsMessage::Gmm(_, Nas5gmmMessage::RegistrationRequest(_) | Nas5gmmMessage::ControlPlaneServiceRequest(_))) {
            return Ok("other".into());
        }
        Ok(used(before, &c.protect_initial_for_access(&message, n)?))
    }

    fn opened(&mut self, d: Direction, n: NasConnection, message: Vec<u8>) -> Answer {
        let Some((c, _)) = &mut self.0 else { return Ok("no 13".into()) };
        let before = next(c, d, n);
        match c.unprotect_raw_for_access(&message, d, n) {
            Ok(v) => {
                let (count, t) = (v.count.get(), v.security_header_type as u8);
                let (first, second) = match v.sent {
                    Some(sent) => (sent, v.message),
                    None => (v.message, vec![]),
                };
                Ok(format!("ok {count:08x} {:04x} {t:02x} {} {:04x} {}", first.len(), hex(&first), second.len(), hex(&second)))
            }
            Err(e) => {
                let opened = message.get(1).map(|b| (b & 15, message.get(7..).unwrap_or(&[])));
                refused_content(e, before, next(c, d, n), message.get(6).copied().unwrap_or(0), opened)
            }
        }
    }

    fn eps_sealed(&mut self, inner: Vec<u8>) -> Answer {
        let Some((c, _)) = &mut self.0 else { return Ok("no 13".into()) };
        let (sealed, count) = c.protect_eps_message(&inner)?;
        Ok(used(count.get(), &sealed))
    }

    fn eps_opened(&mut self, message: Vec<u8>) -> Answer {
        let Some((c, _)) = &mut self.0 else { return Ok("no 13".into()) };
        let (d, n) = (Direction::Uplink, NasConnection::ThreeGpp);
        let before = next(c, d, n);
        match c.unprotect_eps_message(&message) {
            Ok((plain, count)) => Ok(used(count.get(), &plain)),
            Err(e) => refused_content(e, before, next(c, d, n), message.get(5).copied().unwrap_or(0), None),
        }
    }

    fn container(&mut self, call: &str, words: &[&str]) -> Option<Answer> {
        // the words first: a line that has not the form is bad whatever the slot holds
        let (mut a, mut b, mut value) = (0, 0, vec![]);
        match (call, words) {
            ("n1s1", []) => {}
            ("n1s1v", [n]) => a = octet(n)?,
            ("s1n1", [p, k, l]) => (a, b, _) = (octet(p)?, octet(k)?, number(l, 4)?),
            ("s1n1v", [o]) => value = octets(o)?,
            _ => return None,
        }
        let Some((c, _)) = &mut self.0 else { return Some(Ok("no 13".into())) };
        let before = next(c, Direction::Downlink, NasConnection::ThreeGpp);
        Some(match call {
            "n1s1" => c.n1_to_s1_container().map(|(v, n)| format!("ok {:08x} 0000 {:02x} -", n.get(), v.sequence_number())),
            "n1s1v" => {
                let v = NasN1ModeToS1ModeNasTransparentContainer::from_sequence_number(a);
                c.verify_n1_to_s1_container(&v).map(|n| used(n.get(), &[]))
            }
            // GLUE: the text's ngKSI has four bits
            "s1n1" if b > 15 => Ok("no 16".into()),
            "s1n1" => c.s1_to_n1_container(a, NasKeySetIdentifier::new(b)).map(|v| used(before, &v.value)),
            _ => {
                let v = NasS1ModeToN1ModeNasTransparentContainer::new(value);
                c.verify_s1_to_n1_container(&v).map(|()| used(before, &[]))
            }
        })
    }
}

impl Session {
    /// GLUE: the text lends no output and has no limit, so LLLL and MMMM are read and not used, and refusals 4 and 5 are never given.
    fn answer(&mut self, line: &str) -> Option<Answer> {
        let words: Vec<&str> = line.split(' ').collect();
        let [call, slot, rest @ ..] = &words[..] else { return None };
        let slot = &mut self.0[usize::try_from(number(slot, 1)?).ok().filter(|s| *s < 8)?];
        let count = |w: &str| number(w, 8).map(|n| n as u32);
        Some(match (*call, rest) {
            ("new", rest) => slot.made(selection(rest)?, [0; 4]),
            ("reselect", rest) => slot.reselected(selection(rest)?),
            ("restore", [s @ .., a, b, c, d]) => {
                let counts = [count(a)?, count(b)?, count(c)?, count(d)?];
                slot.made(selection(s)?, counts)
            }
            ("raw", [s @ .., size, a, b, c, d, e, f, g, h]) => {
                let pair = |n, b| Some((count(n)?, number(b, 16)?));
                let records = [pair(a, b)?, pair(c, d)?, pair(e, f)?, pair(g, h)?];
                slot.raw(selection(s)?, octet(size)?, records)
            }
            ("window", [size]) => {
                let size = octet(size)?;
                match &mut slot.0 {
                    Some((c, _)) => c.set_replay_window(size).map(|()| "ok".into()),
                    None => Ok("no 13".into()),
                }
            }
            (call @ ("seal" | "opaque"), [t, d, n, lent, inner]) => {
                number(lent, 4)?;
                slot.sealed(call == "opaque", octet(t)?, direction(d)?, connection(n)?, octets(inner)?)
            }
            ("initial", [n, lent, whole]) => {
                number(lent, 4)?;
                slot.initial(connection(n)?, octets(whole)?)
            }
            ("open", [d, n, lent, message]) => {
                number(lent, 4)?;
                slot.opened(direction(d)?, connection(n)?, octets(message)?)
            }
            ("open2", [d, n, lent, second, message]) => {
                number(lent, 4)?;
                number(second, 4)?;
                slot.opened(direction(d)?, connection(n)?, octets(message)?)
            }
            ("epsseal", [lent, inner]) => {
                number(lent, 4)?;
                slot.eps_sealed(octets(inner)?)
            }
            ("epsopen", [lent, message]) => {
                number(lent, 4)?;
                slot.eps_opened(octets(message)?)
            }
            ("show", []) => Ok(slot.shown()),
            (call, rest) => slot.container(call, rest)?,
        })
    }

    pub fn line(&mut self, line: &[u8]) -> String {
        match std::str::from_utf8(line).ok().and_then(|line| self.answer(line)) {
            None => "bad".into(),
            Some(Ok(answer)) => answer,
            Some(Err(error)) => format!("no {}", refusal(&error)),
        }
    }
}
