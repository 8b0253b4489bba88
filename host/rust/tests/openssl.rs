//! Random calls through this crate against both contexts written once more in plain Rust over OpenSSL (reference/mod.rs): two ends that
//! seal, and a radio that loses, repeats, reorders and damages. Compared are answers, octets, refusals and next COUNTs.

mod chance;
mod reference;

use chance::Chance;
use reference::{place, Outcome, Reference};
use saihdelu::{nas_5gs, nas_eps, Direction, KNasEnc, KNasInt, NasCount, NasError};
use std::collections::{BTreeMap, BTreeSet};

const BOTH: [Direction; 2] = [Direction::Uplink, Direction::Downlink];
const CONNECTIONS: [nas_5gs::NasConnection; 2] = [nas_5gs::NasConnection::ThreeGpp, nas_5gs::NasConnection::Non3Gpp];

// Where a row of COUNTs begins: fresh, around a last octet of 255, at the end.
const STARTS: [u32; 9] = [0, 0, 0, 5, 250, 300, (1 << 24) - 300, (1 << 24) - 20, 1 << 24];

/// How often each answer was seen, by call.
#[derive(Default)]
struct Seen(BTreeMap<(&'static str, u8, u8), usize>);

impl Seen {
    fn count(&mut self, call: &'static str, outcome: &Outcome) {
        *self.0.entry((call, outcome.number, outcome.carried)).or_insert(0) += 1;
    }

    fn of(&self, test: impl Fn(&'static str, u8) -> bool) -> usize {
        self.0.iter().filter(|((call, number, _), _)| test(call, *number)).map(|(_, n)| n).sum()
    }

    fn say(&self) {
        for ((call, number, carried), n) in &self.0 {
            match (number, carried) {
                (0, _) => println!("  {:18} {:7} accepted", call, n),
                (8, _) => println!("  {:18} {:7} refused with 8 carrying {}", call, n, carried),
                _ => println!("  {:18} {:7} refused with {}", call, n, number),
            }
        }
    }
}

fn refused(error: NasError) -> Outcome {
    match error {
        NasError::AuthenticMessageRefused { error, plain, security_header_type, count, distance, connection } => Outcome {
            number: 8,
            carried: error.number(),
            header_type: security_header_type,
            connection: connection.map_or(0, |c| c as u8),
            count: count.get(),
            distance,
            out: plain,
            ..Outcome::default()
        },
        other => Outcome { number: other.number(), ..Outcome::default() },
    }
}

fn sent(before: Option<NasCount>, result: Result<Vec<u8>, NasError>) -> Outcome {
    match result {
        Ok(out) => Outcome { count: before.expect("there was a COUNT to send with").get(), out, ..Outcome::default() },
        Err(error) => refused(error),
    }
}

fn opened(result: Result<nas_5gs::Verified, NasError>) -> Outcome {
    match result {
        Ok(verified) => {
            let (out, second) = match verified.sent {
                Some(sent) => (sent, verified.message),
                None => (verified.message, Vec::new()),
            };
            let header_type = verified.security_header_type as u8;
            Outcome { header_type, count: verified.count.get(), distance: verified.distance, out, second, ..Outcome::default() }
        }
        Err(error) => refused(error),
    }
}

fn opened_across(result: Result<(nas_5gs::Verified, nas_5gs::NasConnection), NasError>) -> Outcome {
    match result {
        Ok((verified, connection)) => Outcome { connection: connection as u8, ..opened(Ok(verified)) },
        Err(error) => refused(error),
    }
}

fn opened_eps(result: Result<nas_eps::Verified, NasError>) -> Outcome {
    match result {
        Ok(nas_eps::Verified::Message { message, security_header_type, count, distance }) => {
            Outcome { header_type: security_header_type as u8, count: count.get(), distance, out: message, ..Outcome::default() }
        }
        Ok(nas_eps::Verified::ServiceRequest { identifier, count, distance }) => {
            Outcome { header_type: 12, octet: identifier, count: count.get(), distance, ..Outcome::default() }
        }
        Ok(other) => panic!("{:?}", other),
        Err(error) => refused(error),
    }
}

fn length(chance: &mut Chance) -> usize {
    match chance.below(400) {
        0 => chance.pick(&[8192, 65534, 65535, 65536]),
        1..=20 => chance.below(600),
        _ => chance.below(40),
    }
}

// A plain message: one that goes, one of any type, one of session management, or any octets.
fn plain(chance: &mut Chance) -> Vec<u8> {
    let n = length(chance);
    let mut octets = chance.octets(n);
    let front: &[u8] = match chance.below(8) {
        0..=3 => &[0x7e, 0x00, 0x64],
        4 | 5 => &[0x7e, 0x00],
        6 => &[0x2e],
        _ => &[],
    };
    for (octet, front) in octets.iter_mut().zip(front) {
        *octet = *front;
    }
    if front.len() == 2 && octets.len() > 2 {
        octets[2] = 0x40 + octets[2] % 0x30;
        if chance.once_in(4) {
            octets[2] = chance.pick(&[0x5d, 0x5e]);
        }
    }
    octets
}

// SERVICE REQUEST or DEREGISTRATION REQUEST with optional parts, now and then one too long or cut.
fn initial(chance: &mut Chance) -> Vec<u8> {
    let mut message = vec![0x7e, chance.pick(&[0x00, 0x00, 0x10, 0x01]), chance.pick(&[0x4c, 0x4c, 0x45, 0x41]), chance.octet()];
    let n = chance.pick(&[7, 7, 0, 11, 300]);
    message.extend([(n / 256) as u8, (n % 256) as u8]);
    message.extend(chance.octets(n));
    for _ in 0..chance.below(4) {
        let identifier = chance.pick(&[0x40, 0x50, 0x25, 0x29, 0x80, 0xff, 0x72, 0x3c, 0x71]);
        let n = chance.pick(&[0, 1, 2, 2, 40]);
        message.push(identifier);
        match identifier {
            0x80..=0xff => (),
            0x70..=0x7f => {
                message.extend([0, n as u8]);
                message.extend(chance.octets(n));
            }
            _ => {
                message.push(n as u8);
                message.extend(chance.octets(n));
            }
        }
    }
    if chance.once_in(300) {
        message.extend([0x72, 0x7f, 0xf0]);
        message.extend(chance.octets(0x7ff0));
    }
    if chance.once_in(10) {
        message.truncate(chance.below(message.len()));
    }
    message
}

fn nia(code: u8) -> nas_5gs::IntegrityAlgorithm {
    nas_5gs::IntegrityAlgorithm::from_code(code).unwrap()
}

fn nea(code: u8) -> nas_5gs::CipheringAlgorithm {
    nas_5gs::CipheringAlgorithm::from_code(code).unwrap()
}

fn codes(chance: &mut Chance) -> (u8, u8) {
    (chance.pick(&[2, 2, 2, 0]), chance.pick(&[2, 2, 0]))
}

#[derive(Clone)]
struct Sealed {
    by: usize,
    octets: Vec<u8>,
    direction: Direction,
    connection: nas_5gs::NasConnection,
    taken: bool,
}

/// What the numbers of an answer do not tell: the end and the place whose COUNT a call would use, and of an arrived message whether it
/// was taken before, whether it was taken late, and whether on the connection that it did not arrive on.
#[derive(Default)]
struct How {
    end: usize,
    place: usize,
    again: bool,
    late: bool,
    elsewhere: bool,
}

/// One link: both ends by this crate and by the reference, and what is under way.
struct Link {
    ours: [nas_5gs::NasSecurityContext; 2],
    theirs: [Reference; 2],
    radio: Vec<Sealed>,
    eps_messages: Vec<Vec<u8>>,
    containers: Vec<Vec<u8>>,
}

impl Link {
    fn new(chance: &mut Chance) -> Link {
        let codes = codes(chance);
        let keys = (chance.key(), chance.key());
        let (int, enc) = (KNasInt::new(&keys.0), KNasEnc::new(&keys.1));
        let mut make = |fresh: bool| {
            let next: Vec<u32> = (0..4).map(|_| if fresh { 0 } else { chance.pick(&STARTS) }).collect();
            let at = |i: usize| NasCount::new(next[i]);
            let ours = if fresh {
                nas_5gs::NasSecurityContext::from_fresh_keys(&int, &enc, nia(codes.0), nea(codes.1))
            } else {
                nas_5gs::NasSecurityContext::restore(&int, &enc, nia(codes.0), nea(codes.1), (at(0), at(1)), (at(2), at(3)))
            };
            (ours.unwrap(), Reference::new(codes, keys, &next))
        };
        let (a, b) = (make(true), make(true));
        let (c, d) = (make(false), make(false));
        let ((ours0, theirs0), (ours1, theirs1)) = match chance.below(8) {
            0 => (a, c),
            1..=3 => {
                // Both begin at the same stored COUNTs: `d`'s are set aside.
                let next: Vec<u32> = c.1.records.iter().map(|r| r.next).collect();
                let at = |i: usize| NasCount::new(next[i]);
                let same = nas_5gs::NasSecurityContext::restore(&int, &enc, nia(codes.0), nea(codes.1), (at(0), at(1)), (at(2), at(3)));
                (c, (same.unwrap(), Reference::new(codes, keys, &next)))
            }
            4 => (d, b),
            _ => (a, b),
        };
        let mut link =
            Link { ours: [ours0, ours1], theirs: [theirs0, theirs1], radio: Vec::new(), eps_messages: Vec::new(), containers: Vec::new() };
        for (ours, theirs) in link.ours.iter_mut().zip(&mut link.theirs) {
            let size = chance.pick(&[0, 8, 64]);
            ours.set_replay_window(size).unwrap();
            assert_eq!(theirs.set_window(size), 0);
        }
        link
    }

    /// One call: its name, what it answered, and how. With `handover`, most messages arrive on either connection, whichever sealed them,
    /// and are opened across connections.
    fn step(&mut self, chance: &mut Chance, handover: bool) -> (&'static str, Outcome, How) {
        let mut end = chance.below(2);
        let mut how = How::default();
        let mut stays = None;
        // End 0 is mostly the handset. A row of COUNTs that both ends seal in is soon of no use to either.
        let direction = BOTH[if chance.once_in(16) { 1 - end } else { end }];
        let connection = if chance.once_in(if handover { 2 } else { 4 }) { CONNECTIONS[1] } else { CONNECTIONS[0] };
        let (d, c) = (direction as u8, connection as u8);
        let header = nas_5gs::Nas5gsSecurityHeaderType::from_number(chance.pick(&[2, 2, 2, 1, 1, 3, 4, 0])).unwrap();
        let far = usize::MAX; // this crate lends what is needed
        let what = chance.below(40);
        let mut arrives = None;
        if (17..=31).contains(&what) && !self.radio.is_empty() {
            // Mostly one of those sent last, so that rows of COUNTs go on, and at the other end. One in four may be repeated.
            let back = chance.pick(&[1, 2, 4, 8, 40]).min(self.radio.len());
            let i = self.radio.len() - 1 - chance.below(back);
            let sealed = if chance.once_in(4) {
                stays = Some(i);
                self.radio[i].clone()
            } else {
                self.radio.remove(i)
            };
            end = if chance.once_in(20) { sealed.by } else { 1 - sealed.by };
            how.again = sealed.taken && end != sealed.by;
            arrives = Some(sealed);
        }
        (how.end, how.place) = (end, place(d, c));
        let (ours, theirs) = (&mut self.ours[end], &mut self.theirs[end]);
        let (call, our, their) = match what {
            0..=9 => {
                let inner = plain(chance);
                let before = ours.nas_count(direction, connection);
                let our = sent(before, ours.protect_bytes_for_access(&inner, header, direction, connection));
                ("seal", our, theirs.seal(false, header as u8, d, c, &inner, far))
            }
            10..=13 => {
                let inner = if chance.once_in(2) { plain(chance) } else { initial(chance) };
                let before = ours.nas_count(direction, connection);
                let our = sent(before, ours.protect_opaque_payload_for_access(&inner, header, direction, connection));
                ("seal opaque", our, theirs.seal(true, header as u8, d, c, &inner, far))
            }
            14..=16 if end == 0 || chance.once_in(16) => {
                let whole = initial(chance);
                let before = ours.nas_count(Direction::Uplink, connection);
                let our = sent(before, ours.protect_initial_for_access(&whole, connection));
                how.place = place(0, c);
                ("initial", our, theirs.initial(c, &whole, far))
            }
            17..=31 if handover && arrives.is_some() && !chance.once_in(4) => {
                let sealed = arrives.unwrap();
                let direction = if chance.once_in(40) { direction } else { sealed.direction };
                let connection = chance.pick(&CONNECTIONS);
                let mut octets = chance.damaged(sealed.octets);
                if chance.once_in(1000) {
                    octets.resize(65536 + 7, 0);
                }
                let before = theirs.records.clone();
                let our = opened_across(ours.unprotect_raw_across_access(&octets, direction, connection));
                if our.connection != 0 {
                    how.place = place(direction as u8, our.connection);
                    how.late = theirs.integrity != 0 && our.count < before[how.place].next;
                    how.elsewhere = our.connection != connection as u8;
                }
                ("open across", our, theirs.open_across(direction as u8, connection as u8, &octets, far, far))
            }
            17..=31 if arrives.is_some() => {
                let sealed = arrives.unwrap();
                let wrong_way = chance.once_in(40);
                let (direction, connection) = if wrong_way { (direction, connection) } else { (sealed.direction, sealed.connection) };
                let octets = chance.damaged(sealed.octets.clone());
                how.place = place(direction as u8, connection as u8);
                let before = theirs.records[how.place].next;
                let our = opened(ours.unprotect_raw_for_access(&octets, direction, connection));
                how.late = (our.number == 0 || our.number == 8) && theirs.integrity != 0 && our.count < before;
                ("open", our, theirs.open(direction as u8, connection as u8, &octets, far, far))
            }
            32 => {
                how.place = 0;
                let inner =
                    if chance.once_in(4) { plain(chance) } else { [&[0x07, chance.pick(&[0x41, 0x48])], &plain(chance)[..]].concat() };
                let our = match ours.protect_eps_message(&inner) {
                    Ok((out, count)) => Outcome { count: count.get(), out, ..Outcome::default() },
                    Err(error) => refused(error),
                };
                ("seal EPS message", our, theirs.seal_eps_message(&inner, far))
            }
            33 if !self.eps_messages.is_empty() => {
                how.place = 0;
                let octets = chance.pick(&self.eps_messages);
                let octets = chance.damaged(octets);
                let our = match ours.unprotect_eps_message(&octets) {
                    Ok((out, count, distance)) => Outcome { count: count.get(), distance, out, ..Outcome::default() },
                    Err(error) => refused(error),
                };
                ("open EPS message", our, theirs.open_eps_message(&octets, far))
            }
            34 => {
                how.place = 1;
                let our = match ours.n1_to_s1_container() {
                    Ok((octet, count)) => Outcome { octet, count: count.get(), ..Outcome::default() },
                    Err(error) => refused(error),
                };
                ("N1 to S1", our, theirs.n1_to_s1())
            }
            35 => {
                how.place = 1;
                let octet = chance.octet();
                let our = match ours.verify_n1_to_s1_container(octet) {
                    Ok((count, distance)) => Outcome { count: count.get(), distance, ..Outcome::default() },
                    Err(error) => refused(error),
                };
                ("verify N1 to S1", our, theirs.verify_n1_to_s1(octet))
            }
            36 => {
                how.place = 1;
                let (ncc, ngksi) = (chance.below(9) as u8, chance.below(17) as u8);
                let our = match ours.s1_to_n1_container(ncc, ngksi) {
                    Ok((value, count)) => Outcome { count: count.get(), out: value.to_vec(), ..Outcome::default() },
                    Err(error) => refused(error),
                };
                ("S1 to N1", our, theirs.s1_to_n1(ncc, ngksi, far))
            }
            37 if !self.containers.is_empty() => {
                how.place = 1;
                let mut value = chance.pick(&self.containers);
                value = chance.damaged(value);
                if chance.once_in(100) {
                    value.resize(65536, 0);
                }
                let our = match ours.verify_s1_to_n1_container(&value) {
                    Ok(count) => Outcome { count: count.get(), ..Outcome::default() },
                    Err(error) => refused(error),
                };
                ("verify S1 to N1", our, theirs.verify_s1_to_n1(&value))
            }
            38 => {
                let size = chance.pick(&[0, 1, 8, 8, 32, 63, 64, 64, 65, 255]);
                let number = ours.set_replay_window(size).map_or_else(|e| e.number(), |_| 0);
                let our = Outcome { number, ..Outcome::default() };
                ("window", our, Outcome { number: theirs.set_window(size), ..Outcome::default() })
            }
            39 if chance.once_in(4) => {
                // Both ends take new codes and keys.
                let (codes, keys) = (codes(chance), (chance.key(), chance.key()));
                let (int, enc) = (KNasInt::new(&keys.0), KNasEnc::new(&keys.1));
                for (ours, theirs) in self.ours.iter_mut().zip(&mut self.theirs) {
                    ours.reselect_algorithms(&int, &enc, nia(codes.0), nea(codes.1)).unwrap();
                    theirs.reselect(codes, keys);
                }
                ("reselect", Outcome::default(), Outcome::default())
            }
            _ => {
                let inner = [0x7e, 0x00, 0x64, chance.octet()];
                let before = ours.nas_count(direction, connection);
                let our = sent(
                    before,
                    ours.protect_bytes_for_access(inner, nas_5gs::Nas5gsSecurityHeaderType::IntegrityProtected, direction, connection),
                );
                ("seal", our, theirs.seal(false, 1, d, c, &inner, far))
            }
        };
        assert_eq!(our, their, "{}", call);
        if our.number == 0 {
            match call {
                "seal" | "seal opaque" => {
                    self.radio.push(Sealed { by: end, octets: our.out.clone(), direction, connection, taken: false });
                }
                "initial" => {
                    self.radio.push(Sealed { by: end, octets: our.out.clone(), direction: Direction::Uplink, connection, taken: false });
                }
                "seal EPS message" => self.eps_messages.push(our.out.clone()),
                "S1 to N1" => self.containers.push(our.out.clone()),
                _ => (),
            }
        }
        if let Some(i) = stays {
            self.radio[i].taken |= (our.number == 0 || our.number == 8) && end != self.radio[i].by;
        }
        (call, our, how)
    }

    fn compare_states(&self) {
        for (ours, theirs) in self.ours.iter().zip(&self.theirs) {
            assert_eq!(ours.replay_window(), theirs.size);
            assert_eq!((ours.integrity_algorithm() as u8, ours.ciphering_algorithm() as u8), (theirs.integrity, theirs.ciphering));
            for direction in BOTH {
                for connection in CONNECTIONS {
                    let next = theirs.records[place(direction as u8, connection as u8)].next;
                    assert_eq!(ours.nas_count(direction, connection), NasCount::new(next));
                }
            }
        }
    }
}

#[test]
fn five_gs() {
    let mut chance = Chance::new(501);
    let mut seen = Seen::default();
    let mut late = 0;
    for _ in 0..1500 {
        let mut link = Link::new(&mut chance);
        for _ in 0..120 {
            let (call, outcome, how) = link.step(&mut chance, false);
            seen.count(call, &outcome);
            late += usize::from(how.late);
            link.compare_states();
        }
    }
    seen.say();
    let seals = seen.of(|call, number| (call.starts_with("seal") || call == "initial") && number == 0);
    let opens = seen.of(|call, number| call.starts_with("open") && (number == 0 || number == 8));
    println!(
        "5GS against OpenSSL: {} seals, {} opens taken ({} of them late), {} calls compared",
        seals,
        opens,
        late,
        seen.of(|_, _| true)
    );
    assert!(seals >= 20_000 && opens >= 20_000 && late >= 1_000);
    for number in [1, 2, 3, 4, 6, 7, 8, 9, 10, 11, 12, 14, 15, 16, 18] {
        assert!(seen.of(|_, n| n == number) > 0, "refusal {} was not met", number);
    }
}

/// A handover between accesses: what was sealed on one arrives on either. Beside the reference, no COUNT of a record is used twice.
#[test]
fn five_gs_across_accesses() {
    let mut chance = Chance::new(504);
    let mut seen = Seen::default();
    let (mut here, mut elsewhere, mut elsewhere_late, mut again, mut under_null) = (0, 0, 0, 0, 0);
    for _ in 0..1500 {
        let mut link = Link::new(&mut chance);
        let mut used = BTreeSet::new();
        for _ in 0..120 {
            let (call, outcome, how) = link.step(&mut chance, true);
            seen.count(call, &outcome);
            link.compare_states();
            let null = link.theirs[how.end].integrity == 0;
            let uses = (outcome.number == 0 || outcome.number == 8) && call != "window" && call != "reselect";
            if null {
                used.clear(); // under null integrity COUNTs come round again
            } else if uses {
                assert!(used.insert((how.end, how.place, outcome.count)), "{}: COUNT {} again", call, outcome.count);
            }
            if call == "open across" {
                here += usize::from(uses && !null && !how.elsewhere);
                elsewhere += usize::from(how.elsewhere);
                elsewhere_late += usize::from(how.elsewhere && how.late);
                again += usize::from(how.again && !null && outcome.number == 7);
                under_null += usize::from(null);
                assert!(!(null && how.elsewhere));
            }
        }
    }
    seen.say();
    let calls = seen.of(|call, _| call == "open across");
    println!(
        "5GS against OpenSSL, opened across accesses: {} calls, {} taken where they arrived, {} on the other access ({} of them late), \
         {} repeated ones refused, {} calls under null integrity; {} calls compared in all",
        calls,
        here,
        elsewhere,
        elsewhere_late,
        again,
        under_null,
        seen.of(|_, _| true)
    );
    assert!(calls >= 20_000 && here >= 5_000 && elsewhere >= 5_000 && elsewhere_late >= 500 && again >= 500 && under_null >= 1_000);
    for number in [0, 1, 2, 3, 4, 6, 7, 8] {
        assert!(seen.of(|call, n| call == "open across" && n == number) > 0, "answer {} was not met", number);
    }
}

#[test]
fn eps() {
    let mut chance = Chance::new(601);
    let mut seen = Seen::default();
    for _ in 0..1000 {
        let codes = codes(&mut chance);
        let keys = (chance.key(), chance.key());
        let (int, enc) = (KNasInt::new(&keys.0), KNasEnc::new(&keys.1));
        let eia = |code| nas_eps::IntegrityAlgorithm::from_code(code).unwrap();
        let eea = |code| nas_eps::CipheringAlgorithm::from_code(code).unwrap();
        let next = if chance.once_in(2) { [0, 0] } else { [chance.pick(&STARTS), chance.pick(&STARTS)] };
        let at = (NasCount::new(next[0]), NasCount::new(next[1]));
        let mut ours: Vec<_> =
            (0..2).map(|_| nas_eps::NasSecurityContext::restore(&int, &enc, eia(codes.0), eea(codes.1), at).unwrap()).collect();
        let mut theirs = vec![Reference::new(codes, keys, &next); 2];
        let mut radio: Vec<(usize, Vec<u8>, Direction)> = Vec::new();
        for _ in 0..120 {
            let (what, mut end) = (chance.below(20), chance.below(2));
            let mut arrives = None;
            if (9..=18).contains(&what) && !radio.is_empty() {
                let back = chance.pick(&[1, 2, 4, 8, 40]).min(radio.len());
                let i = radio.len() - 1 - chance.below(back);
                let sealed = if chance.once_in(4) { radio[i].clone() } else { radio.remove(i) };
                end = if chance.once_in(20) { sealed.0 } else { 1 - sealed.0 };
                arrives = Some(sealed);
            }
            let (our_end, their_end) = (&mut ours[end], &mut theirs[end]);
            let direction = BOTH[if chance.once_in(16) { 1 - end } else { end }];
            let (call, our, their) = match what {
                0..=5 => {
                    let header = nas_eps::NasEpsSecurityHeaderType::from_number(chance.pick(&[1, 2, 2, 3, 4, 4, 0])).unwrap();
                    let n = length(&mut chance);
                    let inner = chance.octets(n);
                    let before = our_end.nas_count(direction);
                    let our = sent(before, our_end.protect_bytes(&inner, header, direction));
                    if our.number == 0 {
                        radio.push((end, our.out.clone(), direction));
                    }
                    ("seal", our, their_end.eps_seal(header as u8, direction as u8, &inner, usize::MAX))
                }
                6..=8 if end == 0 || chance.once_in(16) => {
                    let identifier = chance.below(9) as u8;
                    let before = our_end.nas_count(Direction::Uplink);
                    let our = sent(before, our_end.protect_service_request(identifier).map(|o| o.to_vec()));
                    if our.number == 0 {
                        radio.push((end, our.out.clone(), Direction::Uplink));
                    }
                    ("service request", our, their_end.eps_service_request(identifier, usize::MAX))
                }
                9..=18 if arrives.is_some() => {
                    let (_, octets, way) = arrives.unwrap();
                    let direction = if chance.once_in(20) { direction } else { way };
                    let octets = chance.damaged(octets);
                    let our = opened_eps(our_end.unprotect_raw(&octets, direction));
                    ("open", our, their_end.eps_open(direction as u8, &octets, usize::MAX))
                }
                19 if chance.once_in(8) => {
                    let (codes, keys) = (self::codes(&mut chance), (chance.key(), chance.key()));
                    let (int, enc) = (KNasInt::new(&keys.0), KNasEnc::new(&keys.1));
                    for (ours, theirs) in ours.iter_mut().zip(&mut theirs) {
                        ours.reselect_algorithms(&int, &enc, eia(codes.0), eea(codes.1)).unwrap();
                        theirs.reselect(codes, keys);
                    }
                    ("reselect", Outcome::default(), Outcome::default())
                }
                _ => {
                    let size = chance.pick(&[0, 1, 8, 32, 64, 65]);
                    let number = our_end.set_replay_window(size).map_or_else(|e| e.number(), |_| 0);
                    let our = Outcome { number, ..Outcome::default() };
                    ("window", our, Outcome { number: their_end.set_window(size), ..Outcome::default() })
                }
            };
            assert_eq!(our, their, "{}", call);
            seen.count(call, &our);
            for (ours, theirs) in ours.iter().zip(&theirs) {
                for direction in BOTH {
                    assert_eq!(ours.nas_count(direction), NasCount::new(theirs.records[direction as usize].next));
                }
                assert_eq!(ours.replay_window(), theirs.size);
            }
        }
    }
    seen.say();
    let seals = seen.of(|call, number| (call == "seal" || call == "service request") && number == 0);
    let opens = seen.of(|call, number| call == "open" && number == 0);
    println!("EPS against OpenSSL: {} seals, {} opens taken, {} calls compared", seals, opens, seen.of(|_, _| true));
    assert!(seals >= 20_000 && opens >= 20_000);
    for number in [1, 2, 3, 4, 6, 7, 11, 14, 16] {
        assert!(seen.of(|_, n| n == number) > 0, "refusal {} was not met", number);
    }
}
