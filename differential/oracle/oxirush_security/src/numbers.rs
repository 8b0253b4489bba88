//! COUNTs, bearers and directions. host/bench has this file too.

#[derive(Debug, Clone, PartialEq, Eq)]
pub struct SecurityError(pub &'static str);

#[derive(Debug, Clone, Copy, PartialEq, Eq)]
pub struct NasCount(u32);
impl NasCount {
    pub const ZERO: Self = Self(0);
    pub const MAX: Self = Self(0x00ff_ffff);
    pub fn new(v: u32) -> Result<Self, SecurityError> {
        if v <= Self::MAX.0 { Ok(Self(v)) } else { Err(SecurityError("no NAS COUNT")) }
    }
    pub fn get(self) -> u32 {
        self.0
    }
    pub fn sequence_number(self) -> u8 {
        self.0 as u8
    }
    pub fn next(self) -> Result<Self, SecurityError> {
        Self::new(self.0 + 1)
    }
    pub fn wrapping_next(self) -> Self {
        Self((self.0 + 1) & Self::MAX.0)
    }
    /// The least number from this one on that ends with the `bits` low bits `low`.
    fn estimate(self, low: u8, bits: u32) -> Result<u32, SecurityError> {
        if bits == 0 || bits > 8 || u32::from(low) >> bits != 0 {
            return Err(SecurityError("low bits"));
        }
        Ok(self.0 + (u32::from(low).wrapping_sub(self.0) & ((1 << bits) - 1)))
    }
    pub fn estimate_from_low_bits(self, low: u8, bits: u32) -> Result<Self, SecurityError> {
        Self::new(self.estimate(low, bits)?)
    }
    pub fn wrapping_estimate_from_low_bits(self, low: u8, bits: u32) -> Result<Self, SecurityError> {
        Ok(Self(self.estimate(low, bits)? & Self::MAX.0))
    }
}
impl From<NasCount> for u32 {
    fn from(c: NasCount) -> u32 {
        c.0
    }
}

#[derive(Debug, Clone, Copy, PartialEq, Eq)]
pub struct Bearer(pub u8);

#[derive(Debug, Clone, Copy, PartialEq, Eq)]
pub enum Direction {
    Uplink = 0,
    Downlink = 1,
}
