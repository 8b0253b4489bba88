//! Hex lines (docs/HEX-LINES.md, and `enew` to `eopen` for the EPS context) performed through this crate.
#![allow(dead_code)] // each test that includes this file uses its own part of it

use saihdelu::{nas_5gs, nas_eps, Direction, KNasEnc, KNasInt, NasCount, NasError};

pub fn hex(octets: &[u8]) -> String {
    if octets.is_empty() {
        return "-".to_string();
    }
    octets.iter().map(|o| format!("{:02x}", o)).collect()
}

pub fn unhex(word: &str) -> Vec<u8> {
    if word == "-" {
        return Vec::new();
    }
    (0..word.len() / 2).map(|i| u8::from_str_radix(&word[2 * i..2 * i + 2], 16).unwrap()).collect()
}

fn number(word: &str) -> u32 {
    u32::from_str_radix(word, 16).unwrap()
}

fn key(word: &str) -> [u8; 16] {
    let mut key = [0; 16];
    key.copy_from_slice(&unhex(word));
    key
}

fn direction(word: &str) -> Direction {
    if word == "0" {
        Direction::Uplink
    } else {
        Direction::Downlink
    }
}

fn connection(word: &str) -> nas_5gs::NasConnection {
    if word == "1" {
        nas_5gs::NasConnection::ThreeGpp
    } else {
        nas_5gs::NasConnection::Non3Gpp
    }
}

// A stored next COUNT; 16,777,216 is `None`, and what is above cannot be given to this crate.
fn stored(word: &str) -> Option<Option<NasCount>> {
    match number(word) {
        n if n > 1 << 24 => None,
        n => Some(NasCount::new(n)),
    }
}

fn change(result: Result<(), NasError>) -> String {
    match result {
        Ok(()) => "ok".to_string(),
        Err(error) => format!("no {}", error.number()),
    }
}

// A call that sends, whose COUNT was the next one before it.
fn sent(before: Option<NasCount>, result: Result<Vec<u8>, NasError>) -> String {
    match result {
        Ok(octets) => format!("ok {:08x} {:04x} {}", before.expect("there was a COUNT to send with").get(), octets.len(), hex(&octets)),
        Err(error) => format!("no {}", error.number()),
    }
}

// The connection that a message was taken on, in front of the COUNT; an open of one connection does not answer it.
fn on(connection: Option<nas_5gs::NasConnection>) -> String {
    connection.map_or(String::new(), |connection| format!("{} ", connection as u8))
}

// A refusal of an open; `tells` is whether it answers a header type and a second output.
fn not_opened(error: NasError, tells: bool) -> String {
    match &error {
        NasError::AuthenticMessageRefused { error, plain, security_header_type, count, distance, connection } => {
            let header = if tells { format!(" {:02x}", security_header_type) } else { String::new() };
            let second = if tells { " 0000 -" } else { "" };
            let (on, carried) = (on(*connection), error.number());
            format!("no 8 {}{:08x} {:08x} {:04x}{} {} {}{}", on, count.get(), distance, plain.len(), header, carried, hex(plain), second)
        }
        _ => format!("no {}", error.number()),
    }
}

fn opened(result: Result<(nas_5gs::Verified, Option<nas_5gs::NasConnection>), NasError>) -> String {
    match result {
        Ok((verified, connection)) => {
            // The library's first output is the message as it was sent, its second the one inside.
            let (out, second) = match verified.sent {
                Some(sent) => (sent, verified.message),
                None => (verified.message, Vec::new()),
            };
            let (count, distance, header) = (verified.count.get(), verified.distance, verified.security_header_type as u8);
            format!(
                "ok {}{:08x} {:08x} {:04x} {:02x} {} {:04x} {}",
                on(connection),
                count,
                distance,
                out.len(),
                header,
                hex(&out),
                second.len(),
                hex(&second)
            )
        }
        Err(error) => not_opened(error, true),
    }
}

const CALLS: [&str; 20] = [
    "reselect", "window", "windowin", "seal", "sealin", "opaque", "initial", "open", "open2", "openin", "open2in", "across", "across2",
    "epsseal", "epsopen", "n1s1", "n1s1v", "s1n1", "s1n1v", "show",
];
const EPS_CALLS: [&str; 6] = ["ereselect", "ewindow", "eseal", "esr", "eopen", "eshow"];

/// The eight slots of each system. A slot is empty until this crate has made a context for it.
#[derive(Default)]
pub struct Slots {
    five: [Option<nas_5gs::NasSecurityContext>; 8],
    eps: [Option<nas_eps::NasSecurityContext>; 8],
}

impl Slots {
    /// The answer to a line. `None` where it cannot be asked of this crate: it lends every call the room that it needs, so `no 5`
    /// is not met; it makes no context by hand; and its types hold no code above 7, no header type above 4, no wrong COUNT.
    pub fn answer(&mut self, line: &str, expected: &str) -> Option<String> {
        let words: Vec<&str> = line.split(' ').collect();
        if expected == "bad" || expected == "no 5" {
            return None;
        }
        if line.len() > 2 * 65536 && expected == "no 4" && unhex(words[words.len() - 1]).len() > 65536 {
            return None; // refused by the program, before the library
        }
        let slot = number(words[1]) as usize;
        match words[0] {
            "new" | "restore" => self.make(&words, slot),
            "enew" | "erestore" => self.make_eps(&words, slot),
            name if CALLS.contains(&name) => perform(self.five[slot].as_mut()?, &words, expected),
            name if EPS_CALLS.contains(&name) => perform_eps(self.eps[slot].as_mut()?, &words, expected),
            // `raw`, `eraw`, and calls that this crate does not have: from here on the slot's context is another.
            _ => {
                self.five[slot] = None;
                self.eps[slot] = None;
                None
            }
        }
    }

    fn make(&mut self, words: &[&str], slot: usize) -> Option<String> {
        self.five[slot] = None;
        let nia = nas_5gs::IntegrityAlgorithm::from_code(number(words[2]) as u8)?;
        let nea = nas_5gs::CipheringAlgorithm::from_code(number(words[3]) as u8)?;
        let (int, enc) = (KNasInt::new(&key(words[4])), KNasEnc::new(&key(words[5])));
        let made = if words[0] == "new" {
            nas_5gs::NasSecurityContext::from_fresh_keys(&int, &enc, nia, nea)
        } else {
            let three_gpp = (stored(words[6])?, stored(words[7])?);
            let non_3gpp = (stored(words[8])?, stored(words[9])?);
            nas_5gs::NasSecurityContext::restore(&int, &enc, nia, nea, three_gpp, non_3gpp)
        };
        Some(change(made.map(|context| self.five[slot] = Some(context))))
    }

    fn make_eps(&mut self, words: &[&str], slot: usize) -> Option<String> {
        self.eps[slot] = None;
        let eia = nas_eps::IntegrityAlgorithm::from_code(number(words[2]) as u8)?;
        let eea = nas_eps::CipheringAlgorithm::from_code(number(words[3]) as u8)?;
        let (int, enc) = (KNasInt::new(&key(words[4])), KNasEnc::new(&key(words[5])));
        let made = if words[0] == "enew" {
            nas_eps::NasSecurityContext::from_fresh_keys(&int, &enc, eia, eea)
        } else {
            nas_eps::NasSecurityContext::restore(&int, &enc, eia, eea, (stored(words[6])?, stored(words[7])?))
        };
        Some(change(made.map(|context| self.eps[slot] = Some(context))))
    }
}

fn perform(context: &mut nas_5gs::NasSecurityContext, words: &[&str], expected: &str) -> Option<String> {
    use nas_5gs::{CipheringAlgorithm, IntegrityAlgorithm, Nas5gsSecurityHeaderType, NasConnection};
    let (up, down, three_gpp) = (Direction::Uplink, Direction::Downlink, NasConnection::ThreeGpp);
    Some(match words[0] {
        "reselect" => {
            let nia = IntegrityAlgorithm::from_code(number(words[2]) as u8)?;
            let nea = CipheringAlgorithm::from_code(number(words[3]) as u8)?;
            let (int, enc) = (KNasInt::new(&key(words[4])), KNasEnc::new(&key(words[5])));
            change(context.reselect_algorithms(&int, &enc, nia, nea))
        }
        "window" | "windowin" => change(context.set_replay_window(number(words[2]) as u8)),
        "seal" | "sealin" | "opaque" => {
            let header = Nas5gsSecurityHeaderType::from_number(number(words[2]) as u8)?;
            let (direction, connection, inner) = (direction(words[3]), connection(words[4]), unhex(words[6]));
            let before = context.nas_count(direction, connection);
            sent(
                before,
                match words[0] {
                    "opaque" => context.protect_opaque_payload_for_access(inner, header, direction, connection),
                    _ => context.protect_bytes_for_access(inner, header, direction, connection),
                },
            )
        }
        "initial" => {
            let connection = connection(words[2]);
            let before = context.nas_count(up, connection);
            sent(before, context.protect_initial_for_access(unhex(words[4]), connection))
        }
        "open" | "open2" | "openin" | "open2in" => {
            let message = unhex(words[words.len() - 1]);
            opened(context.unprotect_raw_for_access(&message, direction(words[2]), connection(words[3])).map(|verified| (verified, None)))
        }
        "across" | "across2" => {
            let message = unhex(words[words.len() - 1]);
            let taken = context.unprotect_raw_across_access(&message, direction(words[2]), connection(words[3]));
            opened(taken.map(|(verified, connection)| (verified, Some(connection))))
        }
        "epsseal" => {
            let before = context.nas_count(up, three_gpp);
            let made = context.protect_eps_message(&unhex(words[3]));
            if let Ok((_, count)) = &made {
                assert_eq!(Some(*count), before);
            }
            sent(before, made.map(|(octets, _)| octets))
        }
        "epsopen" => match context.unprotect_eps_message(&unhex(words[3])) {
            Ok((plain, count, distance)) => format!("ok {:08x} {:08x} {:04x} {}", count.get(), distance, plain.len(), hex(&plain)),
            Err(error) => not_opened(error, false),
        },
        "n1s1" => match context.n1_to_s1_container() {
            Ok((octet, count)) => format!("ok {:08x} 0000 {:02x} -", count.get(), octet),
            Err(error) => format!("no {}", error.number()),
        },
        "n1s1v" => match context.verify_n1_to_s1_container(number(words[2]) as u8) {
            Ok((count, distance)) => format!("ok {:08x} {:08x} 0000 -", count.get(), distance),
            Err(error) => format!("no {}", error.number()),
        },
        "s1n1" => {
            let before = context.nas_count(down, three_gpp);
            let made = context.s1_to_n1_container(number(words[2]) as u8, number(words[3]) as u8);
            sent(before, made.map(|(value, _)| value.to_vec()))
        }
        "s1n1v" => match context.verify_s1_to_n1_container(&unhex(words[2])) {
            Ok(count) => format!("ok {:08x} 0000 -", count.get()),
            Err(error) => format!("no {}", error.number()),
        },
        "show" => {
            // Keys and window bits cannot be read through this crate: those words are taken over.
            let mut shown: Vec<String> = expected.split(' ').map(str::to_string).collect();
            shown[0] = format!("{:02x}", context.integrity_algorithm() as u8);
            shown[1] = format!("{:02x}", context.ciphering_algorithm() as u8);
            shown[4] = format!("{:02x}", context.replay_window());
            for (i, connection) in [NasConnection::ThreeGpp, NasConnection::Non3Gpp].into_iter().enumerate() {
                for (j, direction) in [up, down].into_iter().enumerate() {
                    let next = context.nas_count(direction, connection).map_or(1 << 24, NasCount::get);
                    shown[5 + 4 * i + 2 * j] = format!("{:08x}", next);
                }
            }
            shown.join(" ")
        }
        name => unreachable!("{}", name),
    })
}

fn perform_eps(context: &mut nas_eps::NasSecurityContext, words: &[&str], expected: &str) -> Option<String> {
    use nas_eps::{CipheringAlgorithm, IntegrityAlgorithm, NasEpsSecurityHeaderType, Verified};
    Some(match words[0] {
        "ereselect" => {
            let eia = IntegrityAlgorithm::from_code(number(words[2]) as u8)?;
            let eea = CipheringAlgorithm::from_code(number(words[3]) as u8)?;
            let (int, enc) = (KNasInt::new(&key(words[4])), KNasEnc::new(&key(words[5])));
            change(context.reselect_algorithms(&int, &enc, eia, eea))
        }
        "ewindow" => change(context.set_replay_window(number(words[2]) as u8)),
        "eseal" => {
            let header = NasEpsSecurityHeaderType::from_number(number(words[2]) as u8)?;
            let direction = direction(words[3]);
            let before = context.nas_count(direction);
            sent(before, context.protect_bytes(unhex(words[5]), header, direction))
        }
        "esr" => {
            let before = context.nas_count(Direction::Uplink);
            let made = context.protect_service_request(number(words[2]) as u8);
            sent(before, made.map(|octets| octets.to_vec()))
        }
        "eopen" => match context.unprotect_raw(&unhex(words[4]), direction(words[2])) {
            Ok(Verified::Message { message, security_header_type, count, distance }) => {
                let header = security_header_type as u8;
                format!("ok {:08x} {:08x} {:04x} {:02x} {}", count.get(), distance, message.len(), header, hex(&message))
            }
            Ok(Verified::ServiceRequest { identifier, count, distance }) => {
                format!("ok {:08x} {:08x} 0000 0c {:02x} -", count.get(), distance, identifier)
            }
            Ok(other) => panic!("{:?}", other),
            Err(error) => format!("no {}", error.number()),
        },
        "eshow" => {
            let mut shown: Vec<String> = expected.split(' ').map(str::to_string).collect();
            shown[0] = format!("{:02x}", context.integrity_algorithm() as u8);
            shown[1] = format!("{:02x}", context.ciphering_algorithm() as u8);
            shown[4] = format!("{:02x}", context.replay_window());
            for (i, direction) in [Direction::Uplink, Direction::Downlink].into_iter().enumerate() {
                shown[5 + 2 * i] = format!("{:08x}", context.nas_count(direction).map_or(1 << 24, NasCount::get));
            }
            shown.join(" ")
        }
        name => unreachable!("{}", name),
    })
}

/// Performs lines and compares their answers; answers how many were compared and how many could not be asked.
pub fn compare<'a>(pairs: impl Iterator<Item = (&'a str, &'a str)>) -> (usize, usize) {
    let mut slots = Slots::default();
    let (mut compared, mut not_asked) = (0, 0);
    for (line, expected) in pairs {
        match slots.answer(line, expected) {
            Some(answer) => {
                assert!(answer == expected, "\n  line      {:.300}\n  expected  {:.300}\n  answered  {:.300}", line, expected, answer);
                compared += 1;
            }
            None => not_asked += 1,
        }
    }
    (compared, not_asked)
}
