//! A double kept as its 64 bits: NaN patterns and minus zero survive, and
//! records can be compared bit for bit.

#[derive(Clone, Copy, Debug, PartialEq, Eq)]
pub struct Double {
    pub bits: u64,
}

impl Double {
    pub fn from_value(value: f64) -> Double {
        Double {
            bits: value.to_bits(),
        }
    }

    pub fn value(self) -> f64 {
        f64::from_bits(self.bits)
    }
}
