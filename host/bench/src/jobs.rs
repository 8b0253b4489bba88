//! What is timed: a call of a length under a code, by a candidate.
use crate::clock;
use crate::original::{Copying, Original};
use crate::ours::{ByValue, InPlace};
use core::fmt;
use oxirush_security::BackEnd;

/// One end of a link. After a call `out` begins with the octets made, as many as are answered.
pub trait End {
    fn seal(&mut self, header_type: u8, inner: &[u8], out: &mut Vec<u8>) -> usize;
    /// None: the message is refused and nothing is handed over.
    fn open(&mut self, message: &[u8], out: &mut Vec<u8>) -> Option<usize>;
}

#[derive(Debug, Clone, Copy, PartialEq, Eq)]
pub enum Candidate {
    Original(BackEnd),
    IpsecMb,
    ByValue,
    InPlace,
    Copying,
}
impl Candidate {
    pub const ALL: [Self; 8] = [
        Self::Original(BackEnd::Chained),
        Self::Original(BackEnd::Crates),
        Self::Original(BackEnd::Soft),
        Self::Original(BackEnd::OpenSsl),
        Self::IpsecMb,
        Self::ByValue,
        Self::InPlace,
        Self::Copying,
    ];
    pub fn name(self) -> &'static str {
        match self {
            Self::Original(BackEnd::Chained) => "a",
            Self::Original(BackEnd::Crates) => "a2",
            Self::Original(BackEnd::Soft) => "b",
            Self::Original(BackEnd::OpenSsl) => "c",
            Self::IpsecMb => "ipsec-mb",
            Self::ByValue => "by value",
            Self::InPlace => "in place",
            Self::Copying => "copy",
        }
    }
    pub fn has(self, code: u8) -> bool {
        match self {
            Self::Original(_) | Self::Copying => code == 2,
            Self::IpsecMb => code != 2,
            Self::ByValue | Self::InPlace => true,
        }
    }
    /// In place there is no opaque seal, which octets that are no message need.
    pub fn takes(self, job: &Job) -> bool {
        self != Self::InPlace || job.inner.len() >= 3
    }
    pub fn end(self, code: u8, keys: &[[u8; 16]; 2], length: usize) -> Box<dyn End> {
        match self {
            Self::Original(back_end) => Box::new(Original::new(back_end, code, keys)),
            Self::IpsecMb => Box::new(Original::new(BackEnd::OpenSsl, code, keys)),
            Self::ByValue => Box::new(ByValue::new(code, keys, length)),
            Self::InPlace => Box::new(InPlace::new(code, keys, length)),
            Self::Copying => Box::new(Copying),
        }
    }
}

#[derive(Debug, Clone, Copy, PartialEq, Eq)]
pub enum Call {
    /// header type 2: ciphered, with a code
    Seal,
    /// header type 1: a code alone
    SealPlain,
    /// of what `Seal` makes
    Open,
}

/// A DL NAS TRANSPORT, or what can be of it.
fn message(length: usize) -> Vec<u8> {
    let mut octets = vec![0x5a; length];
    octets.iter_mut().zip([0x7e, 0, 0x68]).for_each(|(o, v)| *o = v);
    octets
}

const KEYS: [[u8; 16]; 2] = [*b"integrity key 01", *b"ciphering key 02"];

pub struct Job {
    pub code: u8,
    call: Call,
    inner: Vec<u8>,
    /// sealed messages with the COUNTs from 0 on: every candidate opens the same
    sealed: Vec<Vec<u8>>,
}
impl fmt::Display for Job {
    fn fmt(&self, f: &mut fmt::Formatter) -> fmt::Result {
        let call = match self.call {
            Call::Seal => "seal",
            Call::SealPlain => "seal plain",
            Call::Open => "open",
        };
        write!(f, "{}\t{call}\t{}", self.code, self.inner.len())
    }
}
impl Job {
    pub fn new(code: u8, call: Call, length: usize) -> Self {
        // as many as stay in a first-level cache of 48 KiB together with what is written
        let calls = (32768 / (length + 7)).clamp(1, 250);
        let inner = message(length);
        let (mut end, mut out) = (Candidate::ByValue.end(code, &KEYS, length), vec![0; length + 7]);
        let mut seal = || {
            let n = end.seal(2, &inner, &mut out);
            out[..n].to_vec()
        };
        let sealed = (0..calls).map(|_| seal()).collect();
        Self { code, call, inner, sealed }
    }
    pub fn each_call(code: u8, length: usize) -> impl Iterator<Item = Self> {
        [Call::Seal, Call::SealPlain, Call::Open].into_iter().map(move |call| Self::new(code, call, length))
    }
    pub fn calls(&self) -> usize {
        self.sealed.len()
    }
    pub fn batch(&self, candidate: Candidate) -> Batch<'_> {
        let length = self.inner.len();
        Batch { job: self, end: candidate.end(self.code, &KEYS, length), out: vec![0; length + 7] }
    }
    /// ns of one call. A batch that is not timed goes before, so that code and buffers are warm.
    pub fn time(&self, candidate: Candidate) -> f64 {
        let (mut warm, mut timed) = (self.batch(candidate), self.batch(candidate));
        warm.run();
        clock::time(|| timed.run()) / self.calls() as f64
    }
}

/// One after another on a context of its own.
pub struct Batch<'a> {
    job: &'a Job,
    end: Box<dyn End>,
    out: Vec<u8>,
}
impl Batch<'_> {
    pub fn run(&mut self) {
        match self.job.call {
            Call::Seal => self.seals(2),
            Call::SealPlain => self.seals(1),
            Call::Open => self.opens(),
        }
    }
    fn seals(&mut self, header_type: u8) {
        for _ in 0..self.job.calls() {
            core::hint::black_box(self.end.seal(header_type, &self.job.inner, &mut self.out));
        }
    }
    fn opens(&mut self) {
        for message in &self.job.sealed {
            assert!(self.end.open(message, &mut self.out).is_some());
        }
    }
}
