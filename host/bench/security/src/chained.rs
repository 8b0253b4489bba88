//! CMAC (NIST SP 800-38B) chained over a block cipher's `encrypt_block`, its two subkeys kept; counter mode by the crate ctr.
use cipher::consts::U16;
use cipher::{BlockCipher, BlockEncrypt, BlockSizeUser, InnerIvInit, StreamCipher, StreamCipherCoreWrapper};
use ctr::{CtrCore, flavors::Ctr64BE};

pub trait Block: BlockCipher + BlockEncrypt + BlockSizeUser<BlockSize = U16> {}
impl<C: BlockCipher + BlockEncrypt + BlockSizeUser<BlockSize = U16>> Block for C {}

/// The subkeys of a last block that is whole and of one that is padded.
#[derive(Clone)]
pub struct Subkeys([u8; 16], [u8; 16]);
impl Subkeys {
    /// From what the cipher makes of the zero block.
    pub fn of(zero: [u8; 16]) -> Self {
        let whole = doubled(zero);
        Self(whole, doubled(whole))
    }
    pub fn last(&self, whole: bool) -> &[u8; 16] {
        if whole { &self.0 } else { &self.1 }
    }
}

fn doubled(block: [u8; 16]) -> [u8; 16] {
    let v = u128::from_be_bytes(block);
    ((v << 1) ^ if v >> 127 == 1 { 0x87 } else { 0 }).to_be_bytes()
}

/// Whole blocks as one number: the loop over octets costs more than a round.
pub fn xor(block: &mut [u8], part: &[u8]) {
    if let (Ok(b), Ok(p)) = (<&mut [u8; 16]>::try_from(&mut *block), <&[u8; 16]>::try_from(part)) {
        *b = (u128::from_ne_bytes(*b) ^ u128::from_ne_bytes(*p)).to_ne_bytes();
        return;
    }
    for (b, p) in block.iter_mut().zip(part) {
        *b ^= p;
    }
}

#[derive(Clone)]
pub struct Chained<C> {
    cipher: C,
    subkeys: Subkeys,
}
impl<C: Block> Chained<C> {
    pub fn new(cipher: C) -> Self {
        let mut zero = [0; 16];
        cipher.encrypt_block((&mut zero).into());
        Self { cipher, subkeys: Subkeys::of(zero) }
    }
    pub fn code(&self, head: [u8; 8], m: &[u8]) -> u32 {
        let (start, rest) = m.split_at(m.len().min(8));
        let mut filled = 8 + start.len();
        let mut block = [0; 16];
        block[..8].copy_from_slice(&head);
        block[8..filled].copy_from_slice(start);
        for part in rest.chunks(16) {
            self.cipher.encrypt_block((&mut block).into());
            xor(&mut block, part);
            filled = part.len();
        }
        if filled < 16 {
            block[filled] ^= 0x80;
        }
        xor(&mut block, self.subkeys.last(filled == 16));
        self.cipher.encrypt_block((&mut block).into());
        u32::from_be_bytes([block[0], block[1], block[2], block[3]])
    }
}

pub fn counter_mode<C: Block>(cipher: &C, start: &[u8; 16], m: &mut [u8]) {
    let core = CtrCore::<&C, Ctr64BE>::inner_iv_init(cipher, start.into());
    StreamCipherCoreWrapper::from_core(core).apply_keystream(m);
}
