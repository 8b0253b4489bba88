//! Both contexts once more, in plain Rust over OpenSSL: envelopes, COUNT rule, look, initial messages and containers, written from
//! document 01 and the request pages. Algorithm codes 0 and 2.
//!
//! The window is not kept as bits: a record holds the set of COUNTs that were passed over, never used, and have lain inside the
//! window ever since. These are the words of promise 3, and another form than the library's.
#![allow(dead_code)] // each test that includes this file uses its own part of it

use std::collections::BTreeSet;

const COUNTS: u32 = 1 << 24;
const LIMIT: usize = 65535;

mod libcrypto {
    use std::os::raw::{c_int, c_void};

    #[link(name = "crypto")]
    extern "C" {
        pub fn EVP_CIPHER_CTX_new() -> *mut c_void;
        pub fn EVP_CIPHER_CTX_free(ctx: *mut c_void);
        pub fn EVP_aes_128_ctr() -> *const c_void;
        pub fn EVP_aes_128_cbc() -> *const c_void;
        pub fn EVP_EncryptInit_ex(ctx: *mut c_void, cipher: *const c_void, engine: *const c_void, key: *const u8, iv: *const u8) -> c_int;
        pub fn EVP_EncryptUpdate(ctx: *mut c_void, out: *mut u8, out_len: *mut c_int, data: *const u8, len: c_int) -> c_int;
        pub fn CMAC_CTX_new() -> *mut c_void;
        pub fn CMAC_CTX_free(ctx: *mut c_void);
        pub fn CMAC_Init(ctx: *mut c_void, key: *const u8, len: usize, cipher: *const c_void, engine: *const c_void) -> c_int;
        pub fn CMAC_Update(ctx: *mut c_void, data: *const u8, len: usize) -> c_int;
        pub fn CMAC_Final(ctx: *mut c_void, out: *mut u8, len: *mut usize) -> c_int;
    }
}

/// AES-128 in counter mode, the whole block counting (SP 800-38A).
pub fn aes_ctr(key: &[u8; 16], first_block: &[u8; 16], octets: &[u8]) -> Vec<u8> {
    let mut out = vec![0; octets.len()];
    let mut wrote = 0;
    unsafe {
        let ctx = libcrypto::EVP_CIPHER_CTX_new();
        let started =
            libcrypto::EVP_EncryptInit_ex(ctx, libcrypto::EVP_aes_128_ctr(), std::ptr::null(), key.as_ptr(), first_block.as_ptr());
        assert_eq!(started, 1);
        let done = libcrypto::EVP_EncryptUpdate(ctx, out.as_mut_ptr(), &mut wrote, octets.as_ptr(), octets.len() as i32);
        assert_eq!((done, wrote as usize), (1, octets.len()));
        libcrypto::EVP_CIPHER_CTX_free(ctx);
    }
    out
}

/// AES-128 CMAC (SP 800-38B).
pub fn aes_cmac(key: &[u8; 16], octets: &[u8]) -> [u8; 16] {
    let mut out = [0; 16];
    let mut len = 16;
    unsafe {
        let ctx = libcrypto::CMAC_CTX_new();
        assert_eq!(libcrypto::CMAC_Init(ctx, key.as_ptr(), 16, libcrypto::EVP_aes_128_cbc(), std::ptr::null()), 1);
        assert_eq!(libcrypto::CMAC_Update(ctx, octets.as_ptr(), octets.len()), 1);
        assert_eq!(libcrypto::CMAC_Final(ctx, out.as_mut_ptr(), &mut len), 1);
        libcrypto::CMAC_CTX_free(ctx);
    }
    assert_eq!(len, 16);
    out
}

/// What a call answers; values that it does not answer are 0 or empty.
#[derive(Clone, Debug, Default, PartialEq, Eq)]
pub struct Outcome {
    pub number: u8,
    pub carried: u8,
    pub header_type: u8,
    pub octet: u8,
    pub connection: u8,
    pub count: u32,
    pub distance: u32,
    pub out: Vec<u8>,
    pub second: Vec<u8>,
}

type Checked<T> = Result<T, u8>;

fn refuse_if(number: u8, test: bool) -> Checked<()> {
    if test {
        Err(number)
    } else {
        Ok(())
    }
}

fn answered(result: Checked<Outcome>) -> Outcome {
    result.unwrap_or_else(|number| Outcome { number, ..Outcome::default() })
}

fn sealed(count: u32, out: Vec<u8>) -> Outcome {
    Outcome { count, out, ..Outcome::default() }
}

/// How many COUNTs, and which of those below next still open late.
#[derive(Clone, Debug, Default)]
pub struct Record {
    pub next: u32,
    pub open: BTreeSet<u32>,
}

/// A context of either system: four records in 5GS (place: direction + 2 for non-3GPP access), two in EPS (place: direction).
#[derive(Clone, Debug)]
pub struct Reference {
    pub integrity: u8,
    pub ciphering: u8,
    pub integrity_key: [u8; 16],
    pub ciphering_key: [u8; 16],
    pub size: u8,
    pub records: Vec<Record>,
}

pub fn place(direction: u8, connection: u8) -> usize {
    usize::from(direction) + 2 * (usize::from(connection) - 1)
}

fn head(count: u32, bearer: u8, direction: u8) -> Vec<u8> {
    let mut head = count.to_be_bytes().to_vec();
    head.extend([bearer * 8 + direction * 4, 0, 0, 0]);
    head
}

fn ciphers(header_type: u8) -> bool {
    header_type == 2 || header_type == 4
}

// The message types of TS 24.501 Table 9.7.1 by the side that sends them; 64 goes both ways.
const UPLINK: [u8; 17] = [0x41, 0x43, 0x45, 0x48, 0x4c, 0x4f, 0x51, 0x55, 0x57, 0x59, 0x5c, 0x5e, 0x5f, 0x66, 0x67, 0x69, 0x6d];
const DOWNLINK: [u8; 19] =
    [0x42, 0x44, 0x46, 0x47, 0x4d, 0x4e, 0x50, 0x52, 0x54, 0x56, 0x58, 0x5a, 0x5b, 0x5d, 0x65, 0x68, 0x6a, 0x6b, 0x6c];

/// The message's type; `None` for one of session management, which goes both ways under header types 1 and 2.
fn look(inner: &[u8]) -> Checked<Option<u8>> {
    match inner {
        [0x7e, second, kind, ..] if second & 15 == 0 && (*kind == 0x64 || UPLINK.contains(kind) || DOWNLINK.contains(kind)) => {
            Ok(Some(*kind))
        }
        [0x2e, _, _, _, ..] => Ok(None),
        _ => Err(9),
    }
}

fn together(header_type: u8, kind: Option<u8>) -> Checked<()> {
    refuse_if(10, (header_type == 3) != (kind == Some(0x5d)) || (header_type == 4) != (kind == Some(0x5e)))
}

fn right_way(kind: Option<u8>, direction: u8) -> Checked<()> {
    let wrong = kind.map_or(false, |kind| if direction == 0 { DOWNLINK.contains(&kind) } else { UPLINK.contains(&kind) });
    refuse_if(11, wrong)
}

fn is_initial(message: &[u8]) -> bool {
    matches!(message, [0x7e, second, 0x4c | 0x45, ..] if second & 15 == 0)
}

/// The octets of the mandatory part, whether optional ones follow, and the value of the first container; 18 where a length runs
/// past the end.
fn walk(message: &[u8]) -> Checked<(usize, bool, Option<&[u8]>)> {
    let mandatory = match message {
        [_, _, _, _, high, low, rest @ ..] => {
            let n = usize::from(*high) * 256 + usize::from(*low);
            refuse_if(18, rest.len() < n)?;
            6 + n
        }
        _ => return Err(18),
    };
    let (mut container, mut rest) = (None, &message[mandatory..]);
    while let [identifier, behind @ ..] = rest {
        let (n, value) = match (identifier, behind) {
            (0x80..=0xff, _) => (0, behind),
            (0x70..=0x7f, [high, low, value @ ..]) => (usize::from(*high) * 256 + usize::from(*low), value),
            (0x00..=0x6f, [n, value @ ..]) => (usize::from(*n), value),
            _ => return Err(18),
        };
        refuse_if(18, value.len() < n)?;
        if *identifier == 0x71 && container.is_none() {
            container = Some(&value[..n]);
        }
        rest = &value[n..];
    }
    Ok((mandatory, message.len() > mandatory, container))
}

impl Reference {
    pub fn new(codes: (u8, u8), keys: ([u8; 16], [u8; 16]), next: &[u32]) -> Reference {
        let records = next.iter().map(|n| Record { next: *n, open: BTreeSet::new() }).collect();
        Reference { integrity: codes.0, ciphering: codes.1, integrity_key: keys.0, ciphering_key: keys.1, size: 0, records }
    }

    pub fn reselect(&mut self, codes: (u8, u8), keys: ([u8; 16], [u8; 16])) {
        // Away from null every late COUNT closes, and under null none opens: they may as well be dropped on the way to null.
        if self.integrity == 0 || codes.0 == 0 {
            self.records.iter_mut().for_each(|r| r.open.clear());
        }
        self.integrity = codes.0;
        self.ciphering = codes.1;
        self.integrity_key = keys.0;
        self.ciphering_key = keys.1;
    }

    pub fn set_window(&mut self, size: u8) -> u8 {
        if size > 64 {
            return 14;
        }
        for record in &mut self.records {
            let next = record.next;
            record.open.retain(|c| next - 1 - c <= u32::from(size));
        }
        self.size = size;
        0
    }

    fn code(&self, count: u32, bearer: u8, direction: u8, octets: &[u8]) -> [u8; 4] {
        if self.integrity == 0 {
            return [0; 4];
        }
        let mut covered = head(count, bearer, direction);
        covered.extend(octets);
        let mac = aes_cmac(&self.integrity_key, &covered);
        [mac[0], mac[1], mac[2], mac[3]]
    }

    fn cipher(&self, count: u32, bearer: u8, direction: u8, octets: &[u8]) -> Vec<u8> {
        if self.ciphering == 0 {
            return octets.to_vec();
        }
        let mut block = [0; 16];
        block[..8].copy_from_slice(&head(count, bearer, direction));
        aes_ctr(&self.ciphering_key, &block, octets)
    }

    /// The COUNT to send with.
    fn to_send(&self, place: usize) -> Checked<u32> {
        let next = self.records[place].next;
        refuse_if(6, next == COUNTS)?;
        Ok(next)
    }

    /// Uses `count` forward.
    fn pass(&mut self, place: usize, count: u32) {
        let (null, size) = (self.integrity == 0, u32::from(self.size));
        let record = &mut self.records[place];
        if null {
            record.next = (count + 1) % COUNTS;
            return;
        }
        // Only the last 64 can be inside a window, whatever was passed over.
        record.open.extend(record.next.max(count.saturating_sub(64))..count);
        record.open.retain(|c| count - c <= size);
        record.next = count + 1;
    }

    /// The least COUNT at or above next whose `modulus` low numbers are `low`, with its distance.
    fn forward(&self, place: usize, low: u8, modulus: u32) -> Checked<(u32, u32)> {
        let next = self.to_send(place)?;
        let distance = (u32::from(low) + COUNTS - next) % modulus;
        let count = next + distance;
        refuse_if(6, self.integrity != 0 && count >= COUNTS)?;
        Ok((count % COUNTS, distance))
    }

    /// The COUNT of a received message, used, and its distance; `covered` is the last octet of COUNT and the payload.
    fn verify(&mut self, place: usize, bearer: u8, direction: u8, code: &[u8], covered: &[u8]) -> Checked<(u32, u32)> {
        let record = &self.records[place];
        let late = record.open.iter().copied().find(|c| c % 256 == u32::from(covered[0]));
        if let Some(count) = late {
            if self.code(count, bearer, direction, covered) == code {
                let distance = record.next - 1 - count;
                self.records[place].open.remove(&count);
                return Ok((count, distance));
            }
        }
        let (count, distance) = self.forward(place, covered[0], 256)?;
        refuse_if(7, self.integrity != 0 && self.code(count, bearer, direction, covered) != code)?;
        self.pass(place, count);
        Ok((count, distance))
    }

    /// `front`, code, last octet of COUNT, payload.
    fn envelope(&mut self, front: &[u8], place: usize, bearer: u8, direction: u8, payload: Vec<u8>) -> Outcome {
        let count = self.records[place].next;
        let mut covered = vec![(count % 256) as u8];
        covered.extend(payload);
        let mut out = front.to_vec();
        out.extend(self.code(count, bearer, direction, &covered));
        out.extend(covered);
        self.pass(place, count);
        sealed(count, out)
    }

    pub fn seal(&mut self, opaque: bool, header_type: u8, direction: u8, connection: u8, inner: &[u8], room: usize) -> Outcome {
        let place = place(direction, connection);
        let check = || -> Checked<u32> {
            let kind = if opaque { None } else { look(inner)? };
            refuse_if(3, !(1..=4).contains(&header_type))?;
            if !opaque {
                together(header_type, kind)?;
                right_way(kind, direction)?;
            }
            refuse_if(4, inner.len() > LIMIT)?;
            refuse_if(5, room < inner.len() + 7)?;
            self.to_send(place)
        };
        let count = match check() {
            Ok(count) => count,
            Err(number) => return answered(Err(number)),
        };
        let payload = if ciphers(header_type) { self.cipher(count, connection, direction, inner) } else { inner.to_vec() };
        self.envelope(&[0x7e, header_type], place, connection, direction, payload)
    }

    pub fn initial(&mut self, connection: u8, whole: &[u8], room: usize) -> Outcome {
        let place = place(0, connection);
        let check = || -> Checked<(usize, bool, u32)> {
            refuse_if(9, !is_initial(whole))?;
            let (mandatory, hides, container) = walk(whole)?;
            refuse_if(18, container.is_some())?;
            let goes_out = if hides { mandatory + 3 + whole.len() } else { whole.len() };
            refuse_if(4, goes_out > LIMIT)?;
            refuse_if(5, room < goes_out + 7)?;
            Ok((mandatory, hides, self.to_send(place)?))
        };
        let (mandatory, hides, count) = match check() {
            Ok(found) => found,
            Err(number) => return answered(Err(number)),
        };
        let mut payload = whole.to_vec();
        if hides {
            payload.truncate(mandatory);
            payload.extend([0x71, (whole.len() / 256) as u8, (whole.len() % 256) as u8]);
            payload.extend(self.cipher(count, connection, 0, whole));
        }
        self.envelope(&[0x7e, 1], place, connection, 0, payload)
    }

    pub fn open(&mut self, direction: u8, connection: u8, message: &[u8], room: usize, second: usize) -> Outcome {
        answered(self.opened(direction, connection, message, room, second))
    }

    fn opened(&mut self, direction: u8, connection: u8, message: &[u8], room: usize, second: usize) -> Checked<Outcome> {
        refuse_if(1, message.len() < 7)?;
        refuse_if(2, message[0] != 0x7e)?;
        let header_type = message[1] & 15;
        refuse_if(3, !(1..=4).contains(&header_type))?;
        refuse_if(1, message.len() == 7)?;
        let need = message.len() - 7;
        refuse_if(4, need > LIMIT)?;
        let walked = header_type == 1 && direction == 0;
        refuse_if(5, room < need || walked && second < need)?;
        let (count, distance) = self.verify(place(direction, connection), connection, direction, &message[2..6], &message[6..])?;
        let plain = if ciphers(header_type) { self.cipher(count, connection, direction, &message[7..]) } else { message[7..].to_vec() };
        let content = || -> Checked<Vec<u8>> {
            let kind = look(&plain)?;
            together(header_type, kind)?;
            right_way(kind, direction)?;
            if !walked || !is_initial(&plain) {
                return Ok(Vec::new());
            }
            match walk(&plain)?.2 {
                None => Ok(Vec::new()),
                Some(value) => {
                    let inside = self.cipher(count, connection, direction, value);
                    refuse_if(18, !is_initial(&inside) || inside[2] != plain[2])?;
                    Ok(inside)
                }
            }
        };
        let (number, carried, second) = match content() {
            Ok(inside) => (0, 0, inside),
            Err(carried) => (8, carried, Vec::new()),
        };
        Ok(Outcome { number, carried, header_type, count, distance, out: plain, second, ..Outcome::default() })
    }

    /// As `open` on the connection that the message arrived on; where that would refuse with 6 or 7, and integrity is not null, as
    /// `open` on the other one. Where both would refuse, 6 if both would with 6, else 7.
    pub fn open_across(&mut self, direction: u8, arrived: u8, message: &[u8], room: usize, second: usize) -> Outcome {
        let mut numbers = Vec::new();
        for connection in [arrived, 3 - arrived] {
            let outcome = self.open(direction, connection, message, room, second);
            match outcome.number {
                0 | 8 => return Outcome { connection, ..outcome },
                6 | 7 if self.integrity != 0 => numbers.push(outcome.number),
                _ => return outcome,
            }
        }
        Outcome { number: if numbers == [6, 6] { 6 } else { 7 }, ..Outcome::default() }
    }

    pub fn seal_eps_message(&mut self, inner: &[u8], room: usize) -> Outcome {
        let refusal = match inner {
            [0x07, 0x41 | 0x48, ..] if inner.len() > LIMIT => Some(4),
            [0x07, 0x41 | 0x48, ..] if room < inner.len() + 6 => Some(5),
            [0x07, 0x41 | 0x48, ..] => self.to_send(0).err(),
            _ => Some(12),
        };
        match refusal {
            Some(number) => answered(Err(number)),
            None => self.envelope(&[0x17], 0, 1, 0, inner.to_vec()),
        }
    }

    pub fn open_eps_message(&mut self, message: &[u8], room: usize) -> Outcome {
        answered(self.opened_eps_message(message, room))
    }

    fn opened_eps_message(&mut self, message: &[u8], room: usize) -> Checked<Outcome> {
        refuse_if(1, message.len() < 6)?;
        refuse_if(2, message[0] != 0x17)?;
        refuse_if(4, message.len() - 6 > LIMIT)?;
        refuse_if(5, room < message.len() - 6)?;
        let (count, distance) = self.verify(0, 1, 0, &message[1..5], &message[5..])?;
        let out = message[6..].to_vec();
        let request = matches!(out[..], [0x07, 0x41 | 0x48, ..]);
        let (number, carried) = if request { (0, 0) } else { (8, 12) };
        Ok(Outcome { number, carried, count, distance, out, ..Outcome::default() })
    }

    pub fn n1_to_s1(&mut self) -> Outcome {
        match self.to_send(1) {
            Ok(count) => {
                self.pass(1, count);
                Outcome { count, octet: (count % 256) as u8, ..Outcome::default() }
            }
            Err(number) => answered(Err(number)),
        }
    }

    pub fn verify_n1_to_s1(&mut self, octet: u8) -> Outcome {
        match self.forward(1, octet, 256) {
            Ok((count, distance)) => {
                self.pass(1, count);
                Outcome { count, distance, ..Outcome::default() }
            }
            Err(number) => answered(Err(number)),
        }
    }

    pub fn s1_to_n1(&mut self, ncc: u8, ngksi: u8, room: usize) -> Outcome {
        let check = || -> Checked<u32> {
            refuse_if(16, ncc > 7 || ngksi > 15)?;
            refuse_if(5, room < 8)?;
            self.to_send(1)
        };
        match check() {
            Ok(count) => {
                let value = [self.ciphering * 16 + self.integrity, ncc * 16 + ngksi, 0, 0];
                let mut out = self.code(u32::MAX, 1, 1, &value).to_vec();
                out.extend(value);
                self.pass(1, count);
                sealed(count, out)
            }
            Err(number) => answered(Err(number)),
        }
    }

    pub fn verify_s1_to_n1(&mut self, value: &[u8]) -> Outcome {
        let check = || -> Checked<u32> {
            refuse_if(1, value.len() < 8)?;
            refuse_if(4, value.len() > LIMIT)?;
            refuse_if(15, value[4] != self.ciphering * 16 + self.integrity)?;
            let count = self.to_send(1)?;
            refuse_if(7, self.integrity != 0 && self.code(u32::MAX, 1, 1, &value[4..]) != value[..4])?;
            Ok(count)
        };
        match check() {
            Ok(count) => {
                self.pass(1, count);
                sealed(count, Vec::new())
            }
            Err(number) => answered(Err(number)),
        }
    }

    pub fn eps_seal(&mut self, header_type: u8, direction: u8, inner: &[u8], room: usize) -> Outcome {
        let check = || -> Checked<u32> {
            refuse_if(3, !(1..=4).contains(&header_type))?;
            refuse_if(4, inner.len() > LIMIT)?;
            refuse_if(5, room < inner.len() + 6)?;
            self.to_send(direction.into())
        };
        let count = match check() {
            Ok(count) => count,
            Err(number) => return answered(Err(number)),
        };
        let payload = if ciphers(header_type) { self.cipher(count, 0, direction, inner) } else { inner.to_vec() };
        self.envelope(&[header_type * 16 + 7], direction.into(), 0, direction, payload)
    }

    pub fn eps_service_request(&mut self, identifier: u8, room: usize) -> Outcome {
        let check = || -> Checked<u32> {
            refuse_if(16, identifier > 7)?;
            refuse_if(5, room < 4)?;
            self.to_send(0)
        };
        match check() {
            Ok(count) => {
                let front = [0xc7, identifier * 32 + (count % 32) as u8];
                let mut out = front.to_vec();
                out.extend(&self.code(count, 0, 0, &front)[2..]);
                self.pass(0, count);
                sealed(count, out)
            }
            Err(number) => answered(Err(number)),
        }
    }

    pub fn eps_open(&mut self, direction: u8, message: &[u8], room: usize) -> Outcome {
        answered(self.eps_opened(direction, message, room))
    }

    fn eps_opened(&mut self, direction: u8, message: &[u8], room: usize) -> Checked<Outcome> {
        let first = *message.first().ok_or(1)?;
        refuse_if(2, first & 15 != 7)?;
        let header_type = first >> 4;
        refuse_if(3, !matches!(header_type, 1..=4 | 12))?;
        if header_type == 12 {
            refuse_if(1, message.len() != 4)?;
            refuse_if(11, direction == 1)?;
            let (count, distance) = self.forward(0, message[1] & 31, 32)?;
            refuse_if(7, self.integrity != 0 && self.code(count, 0, 0, &message[..2])[2..] != message[2..])?;
            self.pass(0, count);
            return Ok(Outcome { header_type, octet: message[1] >> 5, count, distance, ..Outcome::default() });
        }
        refuse_if(1, message.len() < 7)?;
        refuse_if(4, message.len() - 6 > LIMIT)?;
        refuse_if(5, room < message.len() - 6)?;
        let (count, distance) = self.verify(direction.into(), 0, direction, &message[1..5], &message[5..])?;
        let out = if ciphers(header_type) { self.cipher(count, 0, direction, &message[6..]) } else { message[6..].to_vec() };
        Ok(Outcome { header_type, count, distance, out, ..Outcome::default() })
    }
}
