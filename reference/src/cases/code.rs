//! The compact code of the lists of cases, little endian. A byte from 0 to 250 is that number
//! less 125; 251 is followed by a signed 16-bit number of 256ths; 252 by how often the last float
//! comes again; 253 is −0; 254 NaN; 255 is followed by the eight bytes of the pattern. A slice is
//! a 16-bit count and its floats, and no repeat reaches over its end.

/// A record's body as it is written.
#[derive(Debug, Default)]
pub struct Encoder {
    pub bytes: Vec<u8>,
}

/// Whether two floats are the same: by their bits, and any two NaNs.
pub fn same(a: f64, b: f64) -> bool {
    a.to_bits() == b.to_bits() || (a.is_nan() && b.is_nan())
}

impl Encoder {
    pub fn byte(&mut self, value: usize) {
        self.bytes
            .push(value.try_into().expect("a number of one byte"));
    }

    pub fn u16(&mut self, value: usize) {
        let value: u16 = value.try_into().expect("a number of two bytes");
        self.bytes.extend(value.to_le_bytes());
    }

    pub fn u32(&mut self, value: u64) {
        let value: u32 = value.try_into().expect("a number of four bytes");
        self.bytes.extend(value.to_le_bytes());
    }

    pub fn float(&mut self, v: f64) {
        if v.is_nan() {
            self.bytes.push(254);
        } else if same(v, -0.0) {
            self.bytes.push(253);
        } else if v.abs() <= 125.0 && v.fract() == 0.0 {
            self.bytes.push((v + 125.0) as u8);
        } else if v.abs() <= 127.0 && (v * 256.0).fract() == 0.0 {
            self.bytes.push(251);
            self.bytes.extend(((v * 256.0) as i16).to_le_bytes());
        } else {
            self.bytes.push(255);
            self.bytes.extend(v.to_bits().to_le_bytes());
        }
    }

    pub fn slice(&mut self, floats: &[f64]) {
        self.u16(floats.len());
        for run in floats.chunk_by(|&a, &b| same(a, b)) {
            self.float(run[0]);
            let mut left = run.len() - 1;
            while left > 1 {
                let times = left.min(255);
                self.byte(252);
                self.byte(times);
                left -= times;
            }
            if left == 1 {
                self.float(run[0]);
            }
        }
    }
}

/// A list being read.
pub struct Decoder<'a> {
    left: &'a [u8],
}

impl<'a> Decoder<'a> {
    pub fn new(bytes: &'a [u8]) -> Self {
        Decoder { left: bytes }
    }

    pub fn at_end(&self) -> bool {
        self.left.is_empty()
    }

    /// The next record's body.
    pub fn record(&mut self) -> Decoder<'a> {
        let length = self.u16();
        Decoder::new(self.take(length))
    }

    fn take(&mut self, count: usize) -> &'a [u8] {
        let (taken, left) = self.left.split_at(count);
        self.left = left;
        taken
    }

    fn array<const N: usize>(&mut self) -> [u8; N] {
        self.take(N).try_into().expect("as many bytes as taken")
    }

    pub fn byte(&mut self) -> usize {
        usize::from(u8::from_le_bytes(self.array()))
    }

    pub fn u16(&mut self) -> usize {
        usize::from(u16::from_le_bytes(self.array()))
    }

    pub fn u32(&mut self) -> u64 {
        u64::from(u32::from_le_bytes(self.array()))
    }

    pub fn float(&mut self) -> f64 {
        match self.byte() {
            251 => f64::from(i16::from_le_bytes(self.array())) / 256.0,
            252 => panic!("a repeat with nothing before it"),
            253 => -0.0,
            254 => f64::NAN,
            255 => f64::from_bits(u64::from_le_bytes(self.array())),
            small => small as f64 - 125.0,
        }
    }

    pub fn slice(&mut self) -> Vec<f64> {
        let count = self.u16();
        let mut floats = Vec::with_capacity(count);
        while floats.len() < count {
            match (self.left[0], floats.last()) {
                (252, Some(&last)) => {
                    let [_, times] = self.array();
                    floats.extend(std::iter::repeat_n(last, usize::from(times)));
                }
                _ => floats.push(self.float()),
            }
        }
        assert_eq!(floats.len(), count, "a repeat reaches over the slice's end");
        floats
    }
}
