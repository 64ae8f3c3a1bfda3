//! A Lehmer generator, so that another language can follow it draw by draw.

const MULTIPLIER: u64 = 48_271;
const MODULUS: u64 = 2_147_483_647;

pub struct Random {
    x: u64,
}

impl Random {
    /// Any number is mapped into 1 to 2,147,483,646.
    pub fn new(start: u64) -> Random {
        Random {
            x: start % (MODULUS - 1) + 1,
        }
    }

    /// A number below n; n is at least 1.
    pub fn draw(&mut self, n: u32) -> u32 {
        self.x = self.x * MULTIPLIER % MODULUS;
        (self.x % u64::from(n.max(1))) as u32
    }

    /// A number from low to high, both included.
    pub fn between(&mut self, low: u32, high: u32) -> u32 {
        low + self.draw(high - low + 1)
    }

    /// True once in n times.
    pub fn once_in(&mut self, n: u32) -> bool {
        self.draw(n) == 0
    }

    pub fn pick<T: Copy>(&mut self, from: &[T]) -> T {
        from[self.draw(from.len() as u32) as usize]
    }
}
