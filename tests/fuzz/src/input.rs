//! An input's bytes as choices. Where they end, all further choices are 0.

/// What is left of an input.
pub struct Input<'a> {
    bytes: &'a [u8],
}

/// Numbers next to a rule's border.
const BORDERS: [u64; 16] = [
    254,
    255,
    256,
    2_047,
    2_048,
    2_049,
    4_095,
    4_096,
    4_097,
    (1 << 20) - 1,
    1 << 20,
    (1 << 20) + 1,
    u32::MAX as u64,
    1 << 32,
    1 << 63,
    u64::MAX,
];

impl<'a> Input<'a> {
    pub fn new(bytes: &'a [u8]) -> Input<'a> {
        Input { bytes }
    }

    pub fn byte(&mut self) -> u8 {
        match self.bytes.split_first() {
            Some((&first, rest)) => {
                self.bytes = rest;
                first
            }
            None => 0,
        }
    }

    fn array<const N: usize>(&mut self) -> [u8; N] {
        [(); N].map(|()| self.byte())
    }

    /// A number below `bound`, which is at most 65,536.
    pub fn below(&mut self, bound: usize) -> usize {
        match bound {
            0..=256 => usize::from(self.byte()) % bound.max(1),
            _ => usize::from(u16::from_le_bytes(self.array())) % bound,
        }
    }

    /// The next bytes, at most as many as there are.
    pub fn bytes(&mut self, len: usize) -> &'a [u8] {
        let (taken, rest) = self.bytes.split_at(len.min(self.bytes.len()));
        self.bytes = rest;
        taken
    }

    /// A number: small, next to one that matters here, at a border, or any.
    pub fn number(&mut self, telling: &[u64]) -> u64 {
        let code = self.byte();
        match code {
            0..=127 => u64::from(code),
            128..=223 if !telling.is_empty() => {
                let code = usize::from(code - 128);
                let near = telling[code / 8 % telling.len()];
                near.wrapping_add(code as u64 % 8).wrapping_sub(3)
            }
            240..=255 => BORDERS[usize::from(code - 240)],
            _ => u64::from_le_bytes(self.array()),
        }
    }

    /// A distance: mostly in one byte, some at a border, some any.
    pub fn distance(&mut self) -> u32 {
        match self.byte() {
            250 => 254,
            251 => 255,
            252 => 256,
            253 => u32::MAX,
            254 => u32::from(u16::from_le_bytes(self.array())),
            255 => u32::from_le_bytes(self.array()),
            inline => u32::from(inline),
        }
    }

    /// How many elements a buffer has for a result of `needed`: as many, more, fewer, or any number.
    pub fn capacity(&mut self, needed: usize) -> usize {
        let code = usize::from(self.byte());
        match code {
            0..=99 => needed,
            100..=159 => needed + (code - 99),
            160..=219 => needed.saturating_sub(code - 159),
            _ => self.below(512),
        }
    }
}

#[cfg(test)]
mod tests {
    use super::*;

    #[test]
    fn choices_end_in_zeros() {
        let mut input = Input::new(&[7]);
        assert_eq!((input.byte(), input.byte()), (7, 0));
        assert_eq!(
            (input.number(&[9]), input.distance(), input.below(300)),
            (0, 0, 0)
        );
    }

    #[test]
    fn numbers_near_telling_ones() {
        let near = |code| Input::new(&[code]).number(&[1_000]);
        assert_eq!([128, 131, 132, 135].map(near), [997, 1_000, 1_001, 1_004]);
        assert_eq!(near(255), u64::MAX);
    }
}
