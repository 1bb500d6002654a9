//! Pictures as PNG files, which any viewer shows: a byte a pixel, which chooses one of 256
//! colours.

pub type Palette = [[u8; 3]; 256];

/// A picture row by row.
pub fn png(width: usize, pixels: &[u8], palette: &Palette) -> Vec<u8> {
    let height = pixels.len() / width;
    let side = |side: usize| u32::try_from(side).expect("a small picture").to_be_bytes();
    const BITS_AND_KIND: [u8; 5] = [8, 3, 0, 0, 0]; // a palette's, deflated, rows in order
    let mut file = b"\x89PNG\r\n\x1a\n".to_vec();
    let head = [&side(width)[..], &side(height), &BITS_AND_KIND].concat();
    put_chunk(&mut file, b"IHDR", &head);
    put_chunk(&mut file, b"PLTE", palette.as_flattened());
    put_chunk(&mut file, b"IDAT", &deflated(&filtered(width, pixels)));
    put_chunk(&mut file, b"IEND", &[]);
    file
}

fn put_chunk(file: &mut Vec<u8>, name: &[u8; 4], data: &[u8]) {
    let length = u32::try_from(data.len()).expect("a small picture");
    file.extend(length.to_be_bytes());
    let named = [&name[..], data].concat();
    file.extend(&named);
    file.extend(crc(&named).to_be_bytes());
}

/// Each row less the one above, so that equal rows are zeros. The number 2 says so.
fn filtered(width: usize, pixels: &[u8]) -> Vec<u8> {
    let mut filtered = Vec::with_capacity(pixels.len() + pixels.len() / width);
    let mut above = vec![0; width];
    for row in pixels.chunks(width) {
        filtered.push(2);
        let less = row.iter().zip(&above);
        filtered.extend(less.map(|(pixel, above)| pixel.wrapping_sub(*above)));
        above.copy_from_slice(row);
    }
    filtered
}

/// As zlib has it, in one block of fixed codes. A run of equal bytes is the first of them
/// and copies of what stands directly before.
fn deflated(bytes: &[u8]) -> Vec<u8> {
    let mut bits = Bits {
        bytes: vec![0x78, 0x01],
        used: 8,
    };
    bits.put(0b011, 3); // the last block, fixed codes
    for run in bytes.chunk_by(|one, other| one == other) {
        bits.literal(run[0]);
        for copies in vec![(); run.len() - 1].chunks(258) {
            match copies.len() {
                1 | 2 => copies.iter().for_each(|()| bits.literal(run[0])),
                length => bits.copy(length),
            }
        }
    }
    bits.put(0, 7); // the end of the block
    bits.bytes.extend(adler(bytes).to_be_bytes());
    bits.bytes
}

/// Bits from the lowest of each byte up.
struct Bits {
    bytes: Vec<u8>,
    used: u32,
}

impl Bits {
    fn put(&mut self, bits: u32, count: u32) {
        for at in 0..count {
            if self.used == 8 {
                self.bytes.push(0);
                self.used = 0;
            }
            let last = self.bytes.last_mut().expect("the head stands there");
            *last |= ((bits >> at & 1) as u8) << self.used;
            self.used += 1;
        }
    }

    /// A code, whose highest bit comes first.
    fn put_code(&mut self, code: u32, count: u32) {
        self.put(code.reverse_bits() >> (32 - count), count);
    }

    fn literal(&mut self, byte: u8) {
        match u32::from(byte) {
            low @ ..144 => self.put_code(0b0011_0000 + low, 8),
            high => self.put_code(0b1_1001_0000 + high - 144, 9),
        }
    }

    /// A copy of 3 to 258 bytes from one byte before, which has distance code 0. A length's
    /// code has its first three bits and how many follow, but for 258, which has its own.
    fn copy(&mut self, length: usize) {
        let over = length as u32 - 3;
        let more = (over | 4).ilog2() - 2;
        let (code, more) = match (length, over) {
            (258, _) => (29, 0),
            (_, ..8) => (over + 1, 0),
            _ => (4 * more + 5 + (over >> more & 3), more),
        };
        match code {
            ..24 => self.put_code(code, 7),
            _ => self.put_code(0b1100_0000 + code - 24, 8),
        }
        self.put(over & ((1 << more) - 1), more);
        self.put_code(0, 5);
    }
}

fn crc(bytes: &[u8]) -> u32 {
    let rest = bytes.iter().fold(u32::MAX, |rest, &byte| {
        (0..8).fold(rest ^ u32::from(byte), |rest, _| {
            (rest >> 1) ^ ((rest & 1) * 0xEDB8_8320)
        })
    });
    !rest
}

fn adler(bytes: &[u8]) -> u32 {
    let (low, high) = bytes.iter().fold((1, 0), |(low, high), &byte| {
        let low = (low + u32::from(byte)) % 65_521;
        (low, (high + low) % 65_521)
    });
    high << 16 | low
}

#[cfg(test)]
mod tests {
    use super::*;

    /// The check values that the two sums are published with.
    #[test]
    fn sums_are_the_published_ones() {
        assert_eq!(crc(b"123456789"), 0xCBF4_3926);
        assert_eq!(crc(b"IEND"), 0xAE42_6082);
        assert_eq!(adler(b"Wikipedia"), 0x11E6_0398);
    }

    /// The shortest copy of each length code, and how many bits follow it.
    const LENGTHS: [(u32, u32); 29] = [
        (3, 0),
        (4, 0),
        (5, 0),
        (6, 0),
        (7, 0),
        (8, 0),
        (9, 0),
        (10, 0),
        (11, 1),
        (13, 1),
        (15, 1),
        (17, 1),
        (19, 2),
        (23, 2),
        (27, 2),
        (31, 2),
        (35, 3),
        (43, 3),
        (51, 3),
        (59, 3),
        (67, 4),
        (83, 4),
        (99, 4),
        (115, 4),
        (131, 5),
        (163, 5),
        (195, 5),
        (227, 5),
        (258, 0),
    ];

    /// Reads back what `deflated` writes, by the tables of RFC 1951.
    fn inflated(file: &[u8]) -> Vec<u8> {
        let mut at = 0;
        let mut bit = || {
            at += 1;
            u32::from(file[2 + (at - 1) / 8] >> ((at - 1) % 8) & 1)
        };
        assert_eq!([bit(), bit(), bit()], [1, 1, 0]);
        let mut bytes: Vec<u8> = Vec::new();
        loop {
            let mut code = (0..7).fold(0, |code, _| code << 1 | bit());
            if code >= 0b001_1000 {
                code = code << 1 | bit();
            }
            if code >= 0b1100_1000 {
                code = code << 1 | bit();
            }
            let symbol = match code {
                ..0b001_1000 => 256 + code,
                0b0011_0000..0b1100_0000 => code - 0b0011_0000,
                0b1100_0000..0b1100_1000 => 280 + code - 0b1100_0000,
                _ => 144 + code - 0b1_1001_0000,
            };
            if symbol < 256 {
                bytes.push(symbol as u8);
                continue;
            }
            if symbol == 256 {
                return bytes;
            }
            let (length, more) = LENGTHS[symbol as usize - 257];
            let length = length + (0..more).map(|place| bit() << place).sum::<u32>();
            assert_eq!((0..5).map(|_| bit()).sum::<u32>(), 0);
            let last = *bytes.last().expect("a byte to copy");
            bytes.extend(vec![last; length as usize]);
        }
    }

    #[test]
    fn runs_of_every_length_are_read_back() {
        let mut bytes = Vec::new();
        for length in 1..600 {
            bytes.extend(vec![(length % 256) as u8; length]);
        }
        assert_eq!(inflated(&deflated(&bytes)), bytes);
    }
}
