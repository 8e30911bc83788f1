// Compares watered_root and watered_hypot with the machine's correctly rounded square root, bit for bit.
// What document 01 gives outside the domain (numbers below zero, NaN, infinities) is +0, and the root of -0 is -0.

extern "C" {
    fn watered_root(x: f64) -> f64;
    fn watered_hypot(a: f64, b: f64) -> f64;
}

fn expected(x: f64) -> f64 {
    if x.is_finite() && x >= 0.0 { x.sqrt() } else { 0.0 }
}

// xorshift64*: the inputs are the same in every run.
struct Random(u64);

impl Random {
    fn next(&mut self) -> u64 {
        self.0 ^= self.0 >> 12;
        self.0 ^= self.0 << 25;
        self.0 ^= self.0 >> 27;
        self.0.wrapping_mul(0x2545_F491_4F6C_DD1D)
    }
}

struct Tally {
    category: &'static str,
    compared: u64,
    total: u64,
    differences: u64,
}

impl Tally {
    fn begin(&mut self, category: &'static str) {
        self.close();
        self.category = category;
    }

    fn close(&mut self) {
        if self.compared > 0 {
            println!("{:>10} {}", self.compared, self.category);
        }
        self.total += self.compared;
        self.compared = 0;
    }

    fn same(&mut self, got: f64, want: f64, what: impl Fn() -> String) {
        self.compared += 1;
        if got.to_bits() != want.to_bits() {
            self.differences += 1;
            if self.differences <= 20 {
                println!("{}: {}: got {:016X}, want {:016X}", self.category, what(), got.to_bits(), want.to_bits());
            }
        }
    }

    fn root(&mut self, x: f64) {
        self.same(unsafe { watered_root(x) }, expected(x), || format!("root of bits {:016X}", x.to_bits()));
    }

    fn hypot(&mut self, a: f64, b: f64) {
        self.same(unsafe { watered_hypot(a, b) }, expected(a * a + b * b), || {
            format!("hypot of bits {:016X} and {:016X}", a.to_bits(), b.to_bits())
        });
    }

    // x and its two neighbours
    fn around(&mut self, x: f64) {
        let bits = x.to_bits();
        for b in [bits.wrapping_sub(1), bits, bits + 1] {
            self.root(f64::from_bits(b));
        }
    }
}

fn main() {
    let count: u64 = std::env::args().nth(1).and_then(|a| a.parse().ok()).expect("how many inputs");
    let part = count / 8;
    let mut random = Random(0x9E37_79B9_7F4A_7C15);
    let mut t = Tally { category: "", compared: 0, total: 0, differences: 0 };

    t.begin("zeros, infinities, NaN, numbers below zero, ends of the range");
    for bits in [0u64, 1, 2, 3, (1 << 52) - 1, 1 << 52, (1 << 52) + 1, 0x7FEF_FFFF_FFFF_FFFF, 0x7FF0_0000_0000_0000,
        0x7FF0_0000_0000_0001, 0x7FF8_0000_0000_0000, 0x7FFF_FFFF_FFFF_FFFF, 0x3FF0_0000_0000_0000, 0x4000_0000_0000_0000] {
        t.root(f64::from_bits(bits));
        t.root(f64::from_bits(bits | 1 << 63));
    }
    for _ in 0..10_000 {
        t.root(f64::from_bits(random.next() | 1 << 63));
        t.root(f64::from_bits(0x7FF0_0000_0000_0000 | random.next() >> 12 | random.next() << 63));
    }

    t.begin("every exponent, random digits");
    for i in 0..2 * part {
        t.root(f64::from_bits((i % 2047) << 52 | random.next() >> 12));
    }

    t.begin("every exponent, few digits and long runs of ones");
    for i in 0..part / 3 {
        let run = random.next() % 53;
        t.around(f64::from_bits((i % 2046 + 1) << 52 | (((1u64 << 52) - 1) >> run << (random.next() % 53) & ((1 << 52) - 1))));
    }

    t.begin("subnormal numbers");
    for _ in 0..part {
        t.root(f64::from_bits((random.next() >> 12) >> (random.next() % 52)));
    }

    t.begin("whole squares, and one more or less");
    for i in 0..part / 3 {
        let s = if i < 100_000 { i } else { random.next() >> 38 };
        for n in [(s * s).saturating_sub(1), s * s, s * s + 1] {
            t.root(n as f64);
        }
    }

    t.begin("squares of floats, and their neighbours");
    for _ in 0..part / 3 {
        let f = f64::from_bits((random.next() % 1022 + 512) << 52 | random.next() >> 12);
        t.around(f * f);
    }

    t.begin("beside the square of the midpoint of two neighbours");
    for i in 0..part / 3 {
        // (2q + 1)² / 4 for a 53-digit q, cut to 53 digits
        let q = (1u64 << 52 | random.next() >> 12) as u128;
        let square = (2 * q + 1) * (2 * q + 1);
        let digits = (square >> (square.ilog2() - 52)) as u64;
        t.around((digits as f64) * 2f64.powi((i % 1000) as i32 - 500));
    }

    t.begin("hypot, whole centimetres");
    for _ in 0..part {
        let a = (random.next() % 80001) as f64 - 40000.0;
        let b = (random.next() % 80001) as f64 - 40000.0;
        t.hypot(a, b);
    }

    t.begin("hypot, any two floats");
    for _ in 0..part {
        t.hypot(f64::from_bits(random.next()), f64::from_bits(random.next()));
    }

    t.close();
    println!("{} inputs compared, {} differences", t.total, t.differences);
    if t.differences > 0 || t.total < count * 9 / 10 {
        std::process::exit(1);
    }
}
