// Pairs of circles by category and seed: random ones, and those on which rounding could change an answer.

#[derive(Clone, Copy, PartialEq)]
pub struct Head {
    pub x: f64,
    pub y: f64,
    pub r: f64,
}

// xorshift64*
pub struct Random(u64);

impl Random {
    // The numbers of a seed, another row of them for each category.
    pub fn of(seed: u64, category: usize) -> Self {
        let mut random = Random(seed.wrapping_mul(0x9E37_79B9_7F4A_7C15) ^ (category as u64 + 1) << 32 | 1);
        for _ in 0..16 {
            random.next();
        }
        random
    }

    pub fn next(&mut self) -> u64 {
        self.0 ^= self.0 >> 12;
        self.0 ^= self.0 << 25;
        self.0 ^= self.0 >> 27;
        self.0.wrapping_mul(0x2545_F491_4F6C_DD1D)
    }

    // low to high, both included
    pub fn whole(&mut self, low: i64, high: i64) -> i64 {
        low + (self.next() % (high - low + 1) as u64) as i64
    }

    pub fn sign(&mut self) -> i64 {
        if self.next() >> 63 == 0 { 1 } else { -1 }
    }
}

// Document 01: centres from -20000 to 20000, radii from 1 to 20000.
pub const FURTHEST: i64 = 20000;
pub const LARGEST: i64 = 20000;

fn head(x: i64, y: i64, r: i64) -> Head {
    Head { x: x as f64, y: y as f64, r: r as f64 }
}

// Two heads of the domain whose centres differ by (dx, dy), each side at most 40000.
fn apart_by(random: &mut Random, dx: i64, dy: i64, r1: i64, r2: i64) -> (Head, Head) {
    let mut place = |d: i64| random.whole(-FURTHEST - d.min(0), FURTHEST - d.max(0));
    let (x, y) = (place(dx), place(dy));
    (head(x, y, r1), head(x + dx, y + dy, r2))
}

fn spread(random: &mut Random) -> (Head, Head) {
    let mut any = || {
        head(random.whole(-FURTHEST, FURTHEST), random.whole(-FURTHEST, FURTHEST), random.whole(1, LARGEST))
    };
    (any(), any())
}

fn small(random: &mut Random) -> (Head, Head) {
    let mut any = || head(random.whole(-12, 12), random.whole(-12, 12), random.whole(1, 12));
    (any(), any())
}

// Whole legs dx, dy and a whole distance of at most `most`, from a Pythagorean triple, the axes among them.
pub fn triple(random: &mut Random, most: i64) -> (i64, i64, i64) {
    loop {
        let (m, n) = (random.whole(1, 200), random.whole(0, 199));
        let d = m * m + n * n;
        if d > most {
            continue;
        }
        let scale = random.whole(1, most / d);
        let (a, b) = ((m * m - n * n) * scale * random.sign(), 2 * m * n * scale * random.sign());
        return if random.sign() > 0 { (a, b, d * scale) } else { (b, a, d * scale) };
    }
}

fn touching_outside(random: &mut Random) -> (Head, Head) {
    loop {
        let (dx, dy, d) = triple(random, 2 * LARGEST);
        if d < 2 {
            continue;
        }
        let r1 = random.whole(1.max(d - LARGEST), LARGEST.min(d - 1));
        return apart_by(random, dx, dy, r1, d - r1);
    }
}

fn touching_inside(random: &mut Random) -> (Head, Head) {
    let (dx, dy, d) = triple(random, LARGEST - 1);
    let r = random.whole(1, LARGEST - d);
    apart_by(random, dx, dy, r + d, r)
}

// A touching pair with one of its six numbers moved to a neighbouring float.
fn one_float_from_touching(random: &mut Random) -> (Head, Head) {
    let (mut a, mut b) = if random.sign() > 0 { touching_outside(random) } else { touching_inside(random) };
    let moved = [&mut a.x, &mut a.y, &mut a.r, &mut b.x, &mut b.y, &mut b.r];
    let chosen = (random.next() % 6) as usize;
    for (i, number) in moved.into_iter().enumerate() {
        if i == chosen {
            *number = if random.sign() > 0 { number.next_up() } else { number.next_down() };
        }
    }
    (a, b)
}

// Centres whose squared distance comes as near to the square of r1 + r2 or of r1 - r2 as the best of twenty tries, and misses it.
fn nearly_touching(random: &mut Random, r1: i64, r2: i64) -> (Head, Head) {
    let sum = random.sign() > 0 || (r1 - r2).abs() < 2;
    let d = if sum { r1 + r2 } else { (r1 - r2).abs() };
    let mut best = (d, 1);
    for _ in 0..20 {
        let dx = random.whole(0, d);
        let dy = (d * d - dx * dx).isqrt() + random.whole(0, 1);
        let miss = |(a, b): (i64, i64)| (a * a + b * b - d * d).abs();
        if miss((dx, dy)) > 0 && miss((dx, dy)) < miss(best) {
            best = (dx, dy);
        }
    }
    let (dx, dy) = (best.0.min(2 * FURTHEST) * random.sign(), best.1 * random.sign());
    apart_by(random, dx, dy, r1, r2)
}

fn smallest(random: &mut Random) -> i64 {
    random.whole(1, 4)
}

fn largest(random: &mut Random) -> i64 {
    random.whole(LARGEST - 10, LARGEST)
}

fn nearly_touching_smallest(random: &mut Random) -> (Head, Head) {
    let (r1, r2) = (smallest(random), smallest(random));
    nearly_touching(random, r1, r2)
}

fn nearly_touching_largest(random: &mut Random) -> (Head, Head) {
    let (r1, r2) = (largest(random), largest(random));
    nearly_touching(random, r1, r2)
}

fn nearly_touching_both(random: &mut Random) -> (Head, Head) {
    let (r1, r2) = (smallest(random), largest(random));
    nearly_touching(random, r1, r2)
}

fn one_beside_20000(random: &mut Random) -> (Head, Head) {
    let dx = random.whole(-LARGEST - 1, LARGEST + 1);
    let dy = ((LARGEST * LARGEST - dx * dx).max(0).isqrt() + random.whole(-2, 2)) * random.sign();
    apart_by(random, dx, dy, LARGEST, 1)
}

fn concentric(random: &mut Random) -> (Head, Head) {
    let (a, mut b) = spread(random);
    (b.x, b.y) = (a.x, a.y);
    if b.r == a.r {
        b.r = if a.r > 1.0 { a.r - 1.0 } else { 2.0 };
    }
    (a, b)
}

fn identical(random: &mut Random) -> (Head, Head) {
    let (a, _) = spread(random);
    (a, a)
}

// Floats from 0 to 16 with all their digits, so that most pairs meet.
fn fractions(random: &mut Random) -> (Head, Head) {
    let mut any = || (random.next() >> 11) as f64 / (1u64 << 49) as f64;
    (Head { x: any(), y: any(), r: any() }, Head { x: any(), y: any(), r: any() })
}

// Zeros, infinities, NaN, the ends of the range and a few plain numbers; a radius is above zero, for the Rust takes no other.
fn special(random: &mut Random) -> (Head, Head) {
    const NUMBERS: [f64; 16] = [
        0.0, 1.0, 2.0, 3.0, 5.0, f64::MIN_POSITIVE, 5e-324, 1e-162, 1e-160, 1e150, 1.5e154, 1e155, f64::MAX, f64::INFINITY,
        f64::NAN, 0.1,
    ];
    let mut any = || NUMBERS[(random.next() % 16) as usize] * random.sign() as f64;
    let mut pair = [0.0; 6];
    for number in &mut pair {
        *number = any();
    }
    above_zero(pair)
}

fn any_bits(random: &mut Random) -> (Head, Head) {
    let mut pair = [0.0; 6];
    for number in &mut pair {
        *number = f64::from_bits(random.next());
    }
    above_zero(pair)
}

fn above_zero(n: [f64; 6]) -> (Head, Head) {
    let radius = |r: f64| if r.abs() > 0.0 { r.abs() } else { 1.0 };
    (Head { x: n[0], y: n[1], r: radius(n[2]) }, Head { x: n[3], y: n[4], r: radius(n[5]) })
}

pub struct Category {
    pub name: &'static str,
    // how many of every hundred pairs
    pub share: u64,
    pub pair: fn(&mut Random) -> (Head, Head),
}

pub const CATEGORIES: [Category; 15] = [
    Category { name: "random heads of the domain", share: 16, pair: spread },
    Category { name: "random heads, at most 12", share: 10, pair: small },
    Category { name: "touching from outside, Pythagorean", share: 8, pair: touching_outside },
    Category { name: "touching from inside, Pythagorean", share: 8, pair: touching_inside },
    Category { name: "one float from touching", share: 8, pair: one_float_from_touching },
    Category { name: "nearly touching, radii 1 to 4", share: 5, pair: nearly_touching_smallest },
    Category { name: "nearly touching, radii 19990 to 20000", share: 8, pair: nearly_touching_largest },
    Category { name: "nearly touching, 1 to 4 beside 19990 to 20000", share: 8, pair: nearly_touching_both },
    Category { name: "radius 1 beside 20000, near the edge", share: 7, pair: one_beside_20000 },
    Category { name: "concentric", share: 4, pair: concentric },
    Category { name: "identical", share: 2, pair: identical },
    Category { name: "fractions from 0 to 16", share: 8, pair: fractions },
    Category { name: "zeros, infinities, NaN, ends of the range", share: 4, pair: special },
    Category { name: "any f64", share: 3, pair: any_bits },
    Category { name: "any f64 beside itself", share: 1, pair: any_beside_itself },
];

fn any_beside_itself(random: &mut Random) -> (Head, Head) {
    let (a, _) = any_bits(random);
    (a, a)
}
