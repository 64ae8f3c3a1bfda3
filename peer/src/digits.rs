//! Decimal text by tables: up to seven bytes, and their number in the top one.

/// The words of a line after the ordinal and the answer.
pub const IN: u64 = word(b"in\n");
pub const LOST: u64 = word(b"lost\n");
pub const END: u64 = word(b"end\n");
pub const NONE: u64 = word(b"- -\n");

/// A word of at most seven bytes.
pub const fn word(bytes: &[u8]) -> u64 {
    let mut packed = (bytes.len() as u64) << 56;
    let mut i = 0;
    while i < bytes.len() {
        packed |= (bytes[i] as u64) << (8 * i);
        i += 1;
    }
    packed
}

/// A number below 10,000 and the byte after it.
const fn number(n: u64, after: u8) -> u64 {
    let mut digits = [0; 5];
    let mut length = 0;
    let mut power = 1000;
    while power > 0 {
        if n >= power || power == 1 {
            digits[length] = b'0' + (n / power % 10) as u8;
            length += 1;
        }
        power /= 10;
    }
    digits[length] = after;
    let mut packed = (length as u64 + 1) << 56;
    let mut i = 0;
    while i <= length {
        packed |= (digits[i] as u64) << (8 * i);
        i += 1;
    }
    packed
}

const fn numbers<const COUNT: usize>(after: u8) -> [u64; COUNT] {
    let mut table = [0; COUNT];
    let mut n = 0;
    while n < COUNT {
        table[n] = number(n as u64, after);
        n += 1;
    }
    table
}

/// By lane: its number and a newline.
pub static LANES: [u64; 512] = numbers(b'\n');

/// Numbers below 10,000 and a space.
pub static NUMBERS: [u64; 10_000] = numbers(b' ');

/// The place of the next byte of the text.
///
/// Every `put` stores eight bytes, so that there must be room for them: the
/// caller lends `ROOM` bytes, and no text is longer than that less 64.
pub struct Pen {
    at: *mut u8,
}

impl Pen {
    pub fn new(out: &mut [u8; crate::ROOM]) -> Pen {
        Pen {
            at: out.as_mut_ptr(),
        }
    }

    pub fn written(&self, out: &[u8; crate::ROOM]) -> usize {
        self.at as usize - out.as_ptr() as usize
    }

    /// The first so many of eight bytes.
    #[inline(always)]
    pub fn put(&mut self, bytes: u64, length: usize) {
        // The room is there: see above.
        unsafe {
            self.at.cast::<u64>().write_unaligned(bytes);
            self.at = self.at.add(length);
        }
    }

    #[inline(always)]
    pub fn word(&mut self, packed: u64) {
        self.put(packed, (packed >> 56) as usize);
    }

    /// A number below 10,000,000 and a space.
    #[inline(always)]
    pub fn number(&mut self, n: u32) {
        match NUMBERS.get(n as usize) {
            Some(&packed) => self.word(packed),
            None => self.large(n),
        }
    }

    fn large(&mut self, n: u32) {
        let high = NUMBERS[(n / 10_000) as usize];
        self.put(high, (high >> 56) as usize - 1);
        let low = n % 10_000;
        let digit = |power: u32, place: u32| u64::from(low / power % 10 + 48) << (8 * place);
        let four = digit(1000, 0) | digit(100, 1) | digit(10, 2) | digit(1, 3);
        self.put(four | u64::from(b' ') << 32, 5);
    }

    /// Goes back over bytes that were put before.
    #[inline(always)]
    pub fn back(&mut self, count: usize) {
        self.at = self.at.wrapping_sub(count);
    }

    /// Changes the byte put last.
    pub fn over(&mut self, byte: u8) {
        self.back(1);
        self.put(byte.into(), 1);
    }
}

/// An ordinal as text that counts itself: digits, and " 0 " after them.
pub struct Ordinal {
    text: u64,
    length: usize,
    one: u64,
    left: u32,
}

impl Ordinal {
    pub fn first() -> Ordinal {
        Ordinal {
            text: u64::from_le_bytes(*b"1 0 \0\0\0\0"),
            length: 4,
            one: 1,
            left: 8,
        }
    }

    /// Writes it with the answer 0, and counts.
    #[inline(always)]
    pub fn put(&mut self, pen: &mut Pen) {
        pen.put(self.text, self.length);
        self.text = self.text.wrapping_add(self.one);
        if self.left == 0 {
            self.carry();
        } else {
            self.left -= 1;
        }
    }

    /// The last digit has just passed 9. At most five digits: no file has
    /// more events than 32,766.
    #[cold]
    fn carry(&mut self) {
        let digits = self.length - 3;
        let mut bytes = self.text.to_le_bytes();
        let mut place = digits;
        self.left = 9;
        while place > 0 && bytes[place - 1] > b'9' {
            bytes[place - 1] = b'0';
            place -= 1;
            if place > 0 {
                bytes[place - 1] += 1;
            }
        }
        if bytes[0] == b'0' {
            bytes.copy_within(0..7, 1);
            bytes[0] = b'1';
            self.length += 1;
            self.one <<= 8;
        }
        self.text = u64::from_le_bytes(bytes);
    }
}
