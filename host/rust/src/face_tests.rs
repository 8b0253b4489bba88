//! The functions of the library themselves, with any numbers: wrong directions, codes and header types, outputs of any length, by value
//! and in place. The safe types of this crate leave no room for most of it. Compared with tests/reference are all values of the answer,
//! both outputs whole, and next COUNTs and window of the context that is left.

#[path = "../tests/chance/mod.rs"]
mod chance;
#[path = "../tests/reference/mod.rs"]
mod reference;

use crate::sys;
use chance::Chance;
use reference::{place, Outcome, Reference};

const FILL: u8 = 0xa5;

fn refusal(number: u8) -> Outcome {
    Outcome { number, ..Outcome::default() }
}

fn lent(n: usize) -> Vec<u8> {
    vec![FILL; n]
}

fn compare(what: &str, answer: &sys::Answer, outputs: [&[u8]; 2], expected: &Outcome) {
    let shown = (answer.number, answer.carried, answer.header_type, answer.octet, answer.connection, answer.count, answer.distance);
    let e = expected;
    assert_eq!(shown, (e.number, e.carried, e.header_type, e.octet, e.connection, e.count, e.distance), "{}", what);
    assert_eq!((answer.wrote, answer.second), (e.out.len(), e.second.len()), "{}", what);
    for (output, front) in outputs.iter().zip([&e.out, &e.second]) {
        assert!(output.starts_with(front) && output[front.len()..].iter().all(|o| *o == FILL), "{}: an output", what);
    }
}

// A length around the one that is needed.
fn room(chance: &mut Chance, need: usize) -> usize {
    match chance.below(8) {
        0 => need.saturating_sub(1),
        1 => chance.below(need + 1),
        2 => need + chance.below(30),
        _ => need,
    }
}

fn direction(chance: &mut Chance) -> u8 {
    if chance.once_in(20) {
        chance.octet()
    } else {
        chance.below(2) as u8
    }
}

fn connection(chance: &mut Chance) -> u8 {
    if chance.once_in(20) {
        chance.octet()
    } else {
        1 + chance.below(2) as u8
    }
}

fn code(chance: &mut Chance) -> u8 {
    if chance.once_in(24) {
        4 + chance.below(252) as u8
    } else {
        chance.pick(&[2, 2, 0])
    }
}

fn next(chance: &mut Chance) -> u32 {
    if chance.once_in(24) {
        chance.pick(&[(1 << 24) + 1, u32::MAX])
    } else {
        chance.pick(&[0, 0, 0, 0, 7, 250, (1 << 24) - 3, 1 << 24])
    }
}

fn inner(chance: &mut Chance) -> Vec<u8> {
    let n = chance.below(30);
    let mut octets = chance.octets(n);
    let front: &[u8] = match chance.below(6) {
        0 | 1 => &[0x7e, 0x00, 0x64],
        2 => &[0x2e],
        3 => &[0x7e, 0x00, 0x4c, 0x10, 0x00, 0x02],
        4 => &[0x07, 0x48],
        _ => &[],
    };
    for (octet, front) in octets.iter_mut().zip(front) {
        *octet = *front;
    }
    octets
}

fn no_way(direction: u8, connection: u8) -> bool {
    direction > 1 || !(1..=2).contains(&connection)
}

/// What the reference answers: 13 where there is no context, because its creation or restore was refused.
fn on(theirs: &mut Option<Reference>, call: impl FnOnce(&mut Reference) -> Outcome) -> Outcome {
    theirs.as_mut().map_or_else(|| refusal(13), call)
}

fn made(codes: (u8, u8), keys: ([u8; 16], [u8; 16]), next: &[u32]) -> Result<Reference, u8> {
    match codes {
        (i, c) if i > 3 || c > 3 => Err(13),
        _ if next.iter().any(|n| *n > 1 << 24) => Err(16),
        _ => Ok(Reference::new(codes, keys, next)),
    }
}

// A message of another end with the same keys, on either connection, whose next COUNT lies around that of this end. A context that opens
// what it sealed itself finds the COUNT used.
fn of_another_end(chance: &mut Chance, this: &Reference, direction: u8, inner: &[u8]) -> Vec<u8> {
    let mut other = this.clone();
    let connection = 1 + chance.below(2) as u8;
    let record = &mut other.records[place(direction, connection)];
    record.open.clear();
    record.next = (record.next + chance.below(8) as u32).saturating_sub(chance.below(12) as u32);
    record.next = record.next.min((1 << 24) - 1);
    other.seal(true, chance.pick(&[1, 2]), direction, connection, inner, usize::MAX).out
}

#[test]
fn five_gs() {
    let mut chance = Chance::new(502);
    let mut sealed: Vec<Vec<u8>> = vec![Vec::new()];
    let zeros = [0; 16];
    let mut ours = unsafe { sys::saihdelu_new(255, 255, &zeros, &zeros) }.context;
    let mut theirs: Option<Reference> = None;
    let (mut calls, mut numbers) = (0, [0; 20]);
    // Of the calls across accesses: all, and those that were taken on the connection that the message did not arrive on.
    let (mut across, mut elsewhere) = (0, 0);
    for _ in 0..80_000 {
        let (d, c, header) = (direction(&mut chance), connection(&mut chance), chance.pick(&[0, 1, 2, 2, 2, 1, 3, 4, 5, 18, 255]));
        let octets = inner(&mut chance);
        let from = sealed.len().saturating_sub(6);
        let message = match &theirs {
            Some(this) if chance.once_in(2) => of_another_end(&mut chance, this, d & 1, &octets),
            _ => chance.pick(&sealed[from..]),
        };
        let message = chance.damaged(message);
        let (o, m) = (octets.as_ptr(), octets.len());
        let what = chance.below(32);
        let (mut out, mut out2) = match what {
            0..=5 => (lent(room(&mut chance, octets.len() + 7)), lent(0)),
            6 | 7 => (lent(room(&mut chance, 2 * octets.len() + 9)), lent(0)),
            8..=14 | 24..=31 => {
                (lent(room(&mut chance, message.len().saturating_sub(7))), lent(room(&mut chance, message.len().saturating_sub(7))))
            }
            15 => (lent(room(&mut chance, octets.len() + 6)), lent(0)),
            16 => (lent(room(&mut chance, message.len().saturating_sub(6))), lent(0)),
            _ => (lent(room(&mut chance, 8)), lent(0)),
        };
        let (p, n, p2, n2) = (out.as_mut_ptr(), out.len(), out2.as_mut_ptr(), out2.len());
        let keep = |left: sys::Left, ours: &mut sys::Context| {
            *ours = left.context;
            left.answer
        };
        let in_place = chance.once_in(2);
        let (name, answer, expected) = unsafe {
            match what {
                0..=3 => {
                    let answer = if in_place {
                        sys::saihdelu_seal_in_place(&mut ours, header, d, c, o, m, p, n)
                    } else {
                        keep(sys::saihdelu_seal(ours, header, d, c, o, m, p, n), &mut ours)
                    };
                    let expected = if no_way(d, c) { refusal(19) } else { on(&mut theirs, |r| r.seal(false, header, d, c, &octets, n)) };
                    ("seal", answer, expected)
                }
                4 | 5 => {
                    let answer = keep(sys::saihdelu_seal_opaque(ours, header, d, c, o, m, p, n), &mut ours);
                    let expected = if no_way(d, c) { refusal(19) } else { on(&mut theirs, |r| r.seal(true, header, d, c, &octets, n)) };
                    ("seal opaque", answer, expected)
                }
                6 | 7 => {
                    let answer = keep(sys::saihdelu_initial(ours, c, o, m, p, n), &mut ours);
                    let expected = if no_way(0, c) { refusal(19) } else { on(&mut theirs, |r| r.initial(c, &octets, n)) };
                    ("initial", answer, expected)
                }
                8..=14 => {
                    let (message_octets, length) = (message.as_ptr(), message.len());
                    let answer = if in_place {
                        sys::saihdelu_open_in_place(&mut ours, d, c, message_octets, length, p, n, p2, n2)
                    } else {
                        keep(sys::saihdelu_open(ours, d, c, message_octets, length, p, n, p2, n2), &mut ours)
                    };
                    let expected = if no_way(d, c) { refusal(19) } else { on(&mut theirs, |r| r.open(d, c, &message, n, n2)) };
                    ("open", answer, expected)
                }
                24..=31 => {
                    let (message_octets, length) = (message.as_ptr(), message.len());
                    let answer = if in_place {
                        sys::saihdelu_open_across_in_place(&mut ours, d, c, message_octets, length, p, n, p2, n2)
                    } else {
                        keep(sys::saihdelu_open_across(ours, d, c, message_octets, length, p, n, p2, n2), &mut ours)
                    };
                    let expected = if no_way(d, c) { refusal(19) } else { on(&mut theirs, |r| r.open_across(d, c, &message, n, n2)) };
                    across += 1;
                    elsewhere += usize::from(expected.connection != 0 && expected.connection != c);
                    ("open across", answer, expected)
                }
                15 => {
                    let answer = keep(sys::saihdelu_seal_eps_message(ours, o, m, p, n), &mut ours);
                    ("seal EPS message", answer, on(&mut theirs, |r| r.seal_eps_message(&octets, n)))
                }
                16 => {
                    let answer = keep(sys::saihdelu_open_eps_message(ours, message.as_ptr(), message.len(), p, n), &mut ours);
                    ("open EPS message", answer, on(&mut theirs, |r| r.open_eps_message(&message, n)))
                }
                17 => ("N1 to S1", keep(sys::saihdelu_n1_to_s1(ours), &mut ours), on(&mut theirs, |r| r.n1_to_s1())),
                18 => {
                    let answer = keep(sys::saihdelu_verify_n1_to_s1(ours, header), &mut ours);
                    ("verify N1 to S1", answer, on(&mut theirs, |r| r.verify_n1_to_s1(header)))
                }
                19 => {
                    let (ncc, ngksi) = (chance.below(9) as u8, chance.below(18) as u8);
                    let answer = keep(sys::saihdelu_s1_to_n1(ours, ncc, ngksi, p, n), &mut ours);
                    ("S1 to N1", answer, on(&mut theirs, |r| r.s1_to_n1(ncc, ngksi, n)))
                }
                20 => {
                    let answer = keep(sys::saihdelu_verify_s1_to_n1(ours, message.as_ptr(), message.len()), &mut ours);
                    ("verify S1 to N1", answer, on(&mut theirs, |r| r.verify_s1_to_n1(&message)))
                }
                21 => {
                    let size = chance.pick(&[0, 1, 8, 64, 64, 65, 255]);
                    let answer = if in_place {
                        sys::saihdelu_set_window_in_place(&mut ours, size)
                    } else {
                        keep(sys::saihdelu_set_window(ours, size), &mut ours)
                    };
                    ("window", answer, on(&mut theirs, |r| refusal(r.set_window(size))))
                }
                22 => {
                    let (i, e, keys) = (code(&mut chance), code(&mut chance), (chance.key(), chance.key()));
                    let answer = keep(sys::saihdelu_reselect(ours, i, e, &keys.0, &keys.1), &mut ours);
                    let expected = on(&mut theirs, |r| {
                        if i > 3 || e > 3 {
                            return refusal(13);
                        }
                        r.reselect((i, e), keys);
                        refusal(0)
                    });
                    ("reselect", answer, expected)
                }
                _ => {
                    let (i, e, keys) = (code(&mut chance), code(&mut chance), (chance.key(), chance.key()));
                    let fresh = chance.once_in(2);
                    let at = if fresh { [0; 4] } else { [next(&mut chance), next(&mut chance), next(&mut chance), next(&mut chance)] };
                    let left = if fresh {
                        sys::saihdelu_new(i, e, &keys.0, &keys.1)
                    } else {
                        sys::saihdelu_restore(i, e, &keys.0, &keys.1, at[0], at[1], at[2], at[3])
                    };
                    let made = made((i, e), keys, &at);
                    let number = made.as_ref().err().copied().unwrap_or(0);
                    theirs = made.ok();
                    ("make", keep(left, &mut ours), refusal(number))
                }
            }
        };
        compare(name, &answer, [&out, &out2], &expected);
        if expected.number == 0 && !expected.out.is_empty() {
            sealed.push(expected.out);
        }
        calls += 1;
        numbers[usize::from(answer.number)] += 1;
        // What is left: a refused creation's context has codes 255 and all else 0.
        let (size, codes) = theirs.as_ref().map_or((0, (255, 255)), |r| (r.size, (r.integrity, r.ciphering)));
        unsafe {
            assert_eq!(
                (sys::saihdelu_integrity(ours), sys::saihdelu_ciphering(ours), sys::saihdelu_window(ours)),
                (codes.0, codes.1, size)
            );
            for d in 0..3 {
                for c in 0..4 {
                    let next = theirs.as_ref().map_or(0, |r| if no_way(d, c) { 0 } else { r.records[place(d, c)].next });
                    assert_eq!(sys::saihdelu_next_count(ours, d, c), if no_way(d, c) { u32::MAX } else { next });
                }
            }
        }
    }
    println!("the 5GS functions with any numbers: {} calls compared; by answer {:?}", calls, numbers);
    println!("{} of these calls across accesses, {} messages taken on the other one", across, elsewhere);
    assert!(across >= 15_000 && elsewhere >= 200);
    for number in [0, 1, 2, 3, 5, 6, 7, 8, 9, 10, 11, 12, 13, 14, 15, 16, 18, 19] {
        assert!(numbers[number] > 0, "answer {} was not met", number);
    }
}

#[test]
fn eps() {
    let mut chance = Chance::new(602);
    let mut sealed: Vec<Vec<u8>> = vec![Vec::new()];
    let zeros = [0; 16];
    let mut ours = unsafe { sys::saihdelu_eps_new(255, 255, &zeros, &zeros) }.context;
    let mut theirs: Option<Reference> = None;
    let (mut calls, mut numbers) = (0, [0; 20]);
    for _ in 0..40_000 {
        let (d, header) = (direction(&mut chance), chance.pick(&[0, 1, 2, 2, 2, 3, 4, 5, 12, 18, 255]));
        let octets = inner(&mut chance);
        let from = sealed.len().saturating_sub(6);
        let message = chance.pick(&sealed[from..]);
        let message = chance.damaged(message);
        let what = chance.below(20);
        let mut out = match what {
            0..=4 => lent(room(&mut chance, octets.len() + 6)),
            5..=7 => lent(room(&mut chance, 4)),
            _ => lent(room(&mut chance, message.len().saturating_sub(6))),
        };
        let (p, n) = (out.as_mut_ptr(), out.len());
        let (name, left, expected) = unsafe {
            match what {
                0..=4 => {
                    let left = sys::saihdelu_eps_seal(ours, header, d, octets.as_ptr(), octets.len(), p, n);
                    ("seal", left, if d > 1 { refusal(19) } else { on(&mut theirs, |r| r.eps_seal(header, d, &octets, n)) })
                }
                5..=7 => {
                    let identifier = chance.below(9) as u8;
                    let left = sys::saihdelu_eps_service_request(ours, identifier, p, n);
                    ("service request", left, on(&mut theirs, |r| r.eps_service_request(identifier, n)))
                }
                8..=15 => {
                    let left = sys::saihdelu_eps_open(ours, d, message.as_ptr(), message.len(), p, n);
                    ("open", left, if d > 1 { refusal(19) } else { on(&mut theirs, |r| r.eps_open(d, &message, n)) })
                }
                16 | 17 => {
                    let size = chance.pick(&[0, 1, 8, 64, 64, 65, 255]);
                    ("window", sys::saihdelu_eps_set_window(ours, size), on(&mut theirs, |r| refusal(r.set_window(size))))
                }
                18 => {
                    let (i, e, keys) = (code(&mut chance), code(&mut chance), (chance.key(), chance.key()));
                    let left = sys::saihdelu_eps_reselect(ours, i, e, &keys.0, &keys.1);
                    let expected = on(&mut theirs, |r| {
                        if i > 3 || e > 3 {
                            return refusal(13);
                        }
                        r.reselect((i, e), keys);
                        refusal(0)
                    });
                    ("reselect", left, expected)
                }
                _ => {
                    let (i, e, keys) = (code(&mut chance), code(&mut chance), (chance.key(), chance.key()));
                    let fresh = chance.once_in(2);
                    let at = if fresh { [0; 2] } else { [next(&mut chance), next(&mut chance)] };
                    let left = if fresh {
                        sys::saihdelu_eps_new(i, e, &keys.0, &keys.1)
                    } else {
                        sys::saihdelu_eps_restore(i, e, &keys.0, &keys.1, at[0], at[1])
                    };
                    let made = made((i, e), keys, &at);
                    let number = made.as_ref().err().copied().unwrap_or(0);
                    theirs = made.ok();
                    ("make", left, refusal(number))
                }
            }
        };
        ours = left.context;
        compare(name, &left.answer, [&out, &[]], &expected);
        if expected.number == 0 && !expected.out.is_empty() {
            sealed.push(expected.out);
        }
        calls += 1;
        numbers[usize::from(left.answer.number)] += 1;
        let (size, codes) = theirs.as_ref().map_or((0, (255, 255)), |r| (r.size, (r.integrity, r.ciphering)));
        unsafe {
            let read = (sys::saihdelu_eps_integrity(ours), sys::saihdelu_eps_ciphering(ours), sys::saihdelu_eps_window(ours));
            assert_eq!(read, (codes.0, codes.1, size));
            for d in 0..2 {
                let next = theirs.as_ref().map_or(0, |r| r.records[usize::from(d)].next);
                assert_eq!(sys::saihdelu_eps_next_count(ours, d), next);
            }
            assert_eq!(sys::saihdelu_eps_next_count(ours, 2), u32::MAX);
        }
    }
    println!("the EPS functions with any numbers: {} calls compared; by answer {:?}", calls, numbers);
    for number in [0, 1, 2, 3, 5, 6, 7, 11, 13, 14, 16, 19] {
        assert!(numbers[number] > 0, "answer {} was not met", number);
    }
}

/// Every kind at every length around its least, and around the most that a record may have.
#[test]
fn journal() {
    let least = [34, 50, 34, 1, 4, 4, 5, 2, 2, 0, 1, 4, 0, 3];
    let longer = [5, 6, 7, 8, 9, 13, 14];
    let bytes: Vec<u8> = (0..60_002).map(|i| i as u8).collect();
    for kind in 0..=255u8 {
        for n in (0..60).chain(59_999..60_002) {
            for room in [0, (n + 4).min(70_000), n + 5, n + 9] {
                let allowed = match usize::from(kind).checked_sub(1).and_then(|i| least.get(i)) {
                    Some(least) => n == *least || n > *least && longer.contains(&kind),
                    None => false,
                };
                let number = if !allowed {
                    1
                } else if n > 60_000 {
                    4
                } else if room < n + 5 {
                    5
                } else {
                    0
                };
                if number == 1 && (kind > 20 && kind < 250 || room > 0) {
                    continue; // enough of them are tried
                }
                let mut out = lent(room);
                let answer = unsafe { sys::saihdelu_journal(kind, bytes.as_ptr(), n, out.as_mut_ptr(), out.len()) };
                let mut expected = refusal(number);
                if number == 0 {
                    expected.out = vec![0x4e, 0x53, kind, (n / 256) as u8, (n % 256) as u8];
                    expected.out.extend(&bytes[..n]);
                }
                compare("journal", &answer, [&out, &[]], &expected);
            }
        }
    }
}
