//! A message whose code is right on both accesses. Random messages do not meet one, at 2^-32 each; but 128-NIA1 and 128-NIA3 are affine in
//! the bits of a message of one length, so one is found by solving 32 equations. It is taken on the access that it arrives on, which is
//! tried first; and once more, on the other one, where its COUNT is still unused.

use saihdelu::nas_5gs::*;

const DOWN: Direction = Direction::Downlink;
const COUNT: u32 = 5;
const STATUS: [u8; 3] = [0x7e, 0x00, 0x64];

/// A context whose next COUNT is `next` on both accesses.
fn at(next: u32, nia: IntegrityAlgorithm) -> NasSecurityContext {
    let (int, enc) = (KNasInt::new(&[0x5a; 16]), KNasEnc::new(&[0xc3; 16]));
    let next = (NasCount::new(next), NasCount::new(next));
    NasSecurityContext::restore(&int, &enc, nia, CipheringAlgorithm::NEA2, next, next).unwrap()
}

/// 5GMM STATUS with eight octets behind it, integrity protected alone.
fn sealed(count: u32, nia: IntegrityAlgorithm, tail: u64, connection: NasConnection) -> Vec<u8> {
    let inner = [&STATUS[..], &tail.to_be_bytes()].concat();
    at(count, nia).protect_bytes_for_access(inner, Nas5gsSecurityHeaderType::IntegrityProtected, DOWN, connection).unwrap()
}

/// Where the codes of the two accesses differ.
fn difference(nia: IntegrityAlgorithm, tail: u64) -> u32 {
    let code = |connection| u32::from_be_bytes(sealed(COUNT, nia, tail, connection)[2..6].try_into().unwrap());
    code(NasConnection::ThreeGpp) ^ code(NasConnection::Non3Gpp)
}

/// A tail for which they do not differ, by elimination.
fn fits_both(nia: IntegrityAlgorithm) -> u64 {
    let start = difference(nia, 0);
    // Sums of tails, by the highest bit of the difference that they add; no two have the same.
    let mut rows: Vec<(u32, u64)> = Vec::new();
    let reduced = |rows: &[(u32, u64)], mut row: (u32, u64)| {
        for (adds, tail) in rows {
            if row.0 & (1 << (31 - adds.leading_zeros())) != 0 {
                row = (row.0 ^ adds, row.1 ^ tail);
            }
        }
        row
    };
    for i in 0..64 {
        let row = reduced(&rows, (difference(nia, 1 << i) ^ start, 1 << i));
        if row.0 != 0 {
            rows.push(row);
            rows.sort_unstable_by(|a, b| b.cmp(a)); // highest first, so that one pass clears all
        }
    }
    let (left, tail) = reduced(&rows, (start, 0));
    assert_eq!(left, 0, "the equations have no solution");
    tail
}

#[test]
fn taken_where_it_arrives() {
    for nia in [IntegrityAlgorithm::NIA1, IntegrityAlgorithm::NIA3] {
        let tail = fits_both(nia);
        let message = sealed(COUNT, nia, tail, NasConnection::ThreeGpp);
        assert_eq!(message, sealed(COUNT, nia, tail, NasConnection::Non3Gpp), "its code is right on both");
        for (arrived_on, other) in [(NasConnection::ThreeGpp, NasConnection::Non3Gpp), (NasConnection::Non3Gpp, NasConnection::ThreeGpp)] {
            for late in [false, true] {
                let mut handset = at(3, nia);
                handset.set_replay_window(8).unwrap();
                if late {
                    for connection in [arrived_on, other] {
                        handset.unprotect_raw_for_access(&sealed(COUNT + 2, nia, 0, connection), DOWN, connection).unwrap();
                    }
                }
                for taken_on in [arrived_on, other] {
                    let (opened, connection) = handset.unprotect_raw_across_access(&message, DOWN, arrived_on).unwrap();
                    assert_eq!((connection, opened.count.get(), opened.distance), (taken_on, COUNT, 2));
                    assert_eq!(opened.message, message[7..]);
                }
                assert_eq!(handset.unprotect_raw_across_access(&message, DOWN, arrived_on), Err(NasError::IntegrityCheckFailed));
                assert_eq!(handset.unprotect_raw_across_access(&message, DOWN, other), Err(NasError::IntegrityCheckFailed));
            }
        }
    }
}
