//! Slices that are lent to the library, with bytes around them that must stay.

const GUARD: usize = 16;
const GUARD_BYTE: u8 = 0xc5;

/// A slice between guards.
pub struct Lent(Vec<u8>);

impl Lent {
    pub fn new(content: &[u8]) -> Self {
        let guard = [GUARD_BYTE; GUARD];
        Self([&guard[..], content, &guard[..]].concat())
    }
    pub fn zeros(length: usize) -> Self {
        let mut bytes = vec![0; length + 2 * GUARD];
        bytes[..GUARD].fill(GUARD_BYTE);
        bytes[GUARD + length..].fill(GUARD_BYTE);
        Self(bytes)
    }
    /// An output slice filled beforehand; another pattern for another start.
    pub fn pattern(length: usize, start: usize) -> Self {
        let content: Vec<_> = (0..length).map(|i| (start * 31 + i * 7 + 0x5a) as u8).collect();
        Self::new(&content)
    }
    pub fn slice(&mut self) -> &mut [u8] {
        let end = self.0.len() - GUARD;
        &mut self.0[GUARD..end]
    }
    pub fn content(&self) -> &[u8] {
        &self.0[GUARD..self.0.len() - GUARD]
    }
    /// Whether the bytes around the slice are as they were.
    pub fn guarded(&self) -> bool {
        let end = self.0.len() - GUARD;
        self.0[..GUARD].iter().chain(&self.0[end..]).all(|b| *b == GUARD_BYTE)
    }
    /// Whether the slice has these bytes and its surroundings stayed.
    pub fn same(&self, what: &str, want: &[u8]) -> Result<(), String> {
        let have = self.content();
        if have != want {
            let i = have.iter().zip(want).take_while(|(x, y)| x == y).count();
            return Err(format!("{what}: byte {i} of {} is {}, expected {}", want.len(), have[i], want[i]));
        }
        if !self.guarded() {
            return Err(format!("{what}: a byte before or behind the slice was written"));
        }
        Ok(())
    }
}
