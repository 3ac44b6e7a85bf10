//! Generated inputs, and digests of outputs.

/// xorshift64*, started from a seed that is not zero.
pub struct Generator {
    x: u64,
}

impl Generator {
    pub fn new(seed: u64) -> Generator {
        assert!(seed != 0);
        Generator { x: seed }
    }

    /// One step; the whole 64-bit output.
    pub fn number(&mut self) -> u64 {
        self.x ^= self.x >> 12;
        self.x ^= self.x << 25;
        self.x ^= self.x >> 27;
        self.x.wrapping_mul(0x2545F4914F6CDD1D)
    }

    /// One step for each byte: the top eight bits of the output.
    pub fn byte(&mut self) -> u8 {
        (self.number() >> 56) as u8
    }

    pub fn bytes(&mut self, length: usize) -> Vec<u8> {
        let mut result = Vec::new();
        for _ in 0..length {
            result.push(self.byte());
        }
        result
    }

    /// A number below m, from the upper half of one output.
    pub fn below(&mut self, m: u64) -> u64 {
        (self.number() >> 32) % m
    }
}

/// Bytes from a generator of their own.
pub fn bytes_from_seed(seed: u64, length: usize) -> Vec<u8> {
    Generator::new(seed).bytes(length)
}

/// FNV-1a, 64 bits, as 16 lower-case hexadecimal digits.
pub fn digest(bytes: &[u8]) -> String {
    let mut hash = 0xcbf29ce484222325u64;
    for byte in bytes {
        hash ^= u64::from(*byte);
        hash = hash.wrapping_mul(0x100000001b3);
    }
    hex(hash)
}

/// A list of numbers is digested as eight bytes each, high byte first.
pub fn digest_of_numbers(numbers: &[u64]) -> String {
    let mut bytes = Vec::new();
    for number in numbers {
        bytes.extend(number.to_be_bytes());
    }
    digest(&bytes)
}

/// Sixteen lower-case hexadecimal digits.
pub fn hex(number: u64) -> String {
    format!("{:016x}", number)
}
