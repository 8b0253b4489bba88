//! Before anything is timed: all candidates make the same octets, open them, and refuse a changed code.
use crate::candidates;
use crate::jobs::{Candidate, End};

/// xorshift, so that every run has the same input
struct Octets(u64);
impl Octets {
    fn next(&mut self) -> u8 {
        self.0 ^= self.0 << 13;
        self.0 ^= self.0 >> 7;
        self.0 ^= self.0 << 17;
        self.0 as u8
    }
    fn fill<const N: usize>(&mut self) -> [u8; N] {
        core::array::from_fn(|_| self.next())
    }
    fn message(&mut self, length: usize) -> Vec<u8> {
        let mut octets: Vec<_> = (0..length).map(|_| self.next()).collect();
        if length >= 3 {
            octets[..3].copy_from_slice(&[0x7e, 0, 0x68]);
        }
        octets
    }
}

fn lengths(code: u8) -> impl Iterator<Item = usize> {
    let longest = if code == 3 { 8184 } else { 65535 };
    (3..300).step_by(3).chain([500, 511, 1024, 4095, 4096, 4097, 8184, 8192, 20000, 65535]).filter(move |n| *n <= longest)
}

fn one(name: &str, [sender, receiver]: &mut [Box<dyn End>; 2], inner: &[u8]) -> Vec<u8> {
    let (mut out, mut plain) = (vec![0; inner.len() + 7], vec![0; inner.len()]);
    let n = sender.seal(2, inner, &mut out);
    let mut sealed = out[..n].to_vec();
    sealed[2] ^= 1;
    assert_eq!(receiver.open(&sealed, &mut plain), None, "{name} takes a changed code, {} octets", inner.len());
    sealed[2] ^= 1;
    assert_eq!(receiver.open(&sealed, &mut plain), Some(inner.len()), "{name} refuses what it sealed, {} octets", inner.len());
    assert_eq!(plain[..inner.len()], *inner, "{name}");
    sealed
}

fn same(code: u8, octets: &mut Octets) {
    let them: Vec<_> = candidates(code).into_iter().filter(|c| *c != Candidate::Copying).collect();
    for length in lengths(code) {
        let keys = [octets.fill(), octets.fill()];
        let mut ends: Vec<_> = them.iter().map(|c| [c.end(code, &keys, length), c.end(code, &keys, length)]).collect();
        for _ in 0..3 {
            let inner = octets.message(length);
            let all: Vec<_> = them.iter().zip(&mut ends).map(|(c, e)| one(c.name(), e, &inner)).collect();
            let differs = all.iter().position(|sealed| *sealed != all[0]);
            assert_eq!(differs.map(|i| them[i].name()), None, "differs from {}, code {code}, {length} octets", them[0].name());
        }
    }
}

pub fn check() {
    let mut octets = Octets(88172645463325252);
    [1, 2, 3].into_iter().for_each(|code| same(code, &mut octets));
}
