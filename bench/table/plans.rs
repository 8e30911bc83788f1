// Plans in whole centimetres of the kinds that are timed, from a fixed seed, in a box of 40 by 30 metres round the origin.

pub const SIDES: [i32; 4] = [0, 0, 4000, 3000];

#[derive(Clone)]
pub struct Plan {
    pub heads: Vec<[i32; 3]>,
}

pub struct Random(u64);

impl Random {
    pub fn of(seed: u64) -> Random {
        Random(seed.wrapping_mul(0x9E37_79B9_7F4A_7C15) | 1)
    }

    pub fn whole(&mut self, low: i32, high: i32) -> i32 {
        self.0 ^= self.0 << 13;
        self.0 ^= self.0 >> 7;
        self.0 ^= self.0 << 17;
        low + (self.0 % (high - low + 1) as u64) as i32
    }

    fn head(&mut self, x: i32, y: i32, radius: (i32, i32)) -> [i32; 3] {
        [self.whole(-x, x), self.whole(-y, y), self.whole(radius.0, radius.1)]
    }
}

fn heads(n: usize, mut head: impl FnMut(usize) -> [i32; 3]) -> Plan {
    Plan { heads: (0..n).map(&mut head).collect() }
}

// Large heads round the middle: most meet most.
pub fn dense(n: usize, random: &mut Random) -> Plan {
    heads(n, |_| random.head(600, 500, (500, 1000)))
}

// On a ring, each reaching past the middle.
fn venn(n: usize, random: &mut Random) -> Plan {
    heads(n, |k| {
        let turn = k as f64 / n as f64 * std::f64::consts::TAU;
        let at = |v: f64, random: &mut Random| (v * 700.0) as i32 + random.whole(-9, 9);
        [at(turn.cos(), random), at(turn.sin(), random), random.whole(880, 920)]
    })
}

// Half of them close together, the others anywhere and smaller.
pub fn mixed(n: usize, random: &mut Random) -> Plan {
    heads(n, |k| match k % 2 {
        0 => random.head(500, 400, (500, 900)),
        _ => random.head(1900, 1400, (150, 600)),
    })
}

// About one point, each within the next; the largest reach past the box.
fn concentric(n: usize, random: &mut Random) -> Plan {
    let (x, y) = (random.whole(-300, 300), random.whole(-300, 300));
    heads(n, |k| [x, y, 200 * (k as i32 + 1) + random.whole(0, 99)])
}

// As a planner might set them: a head meets a few others.
pub fn random(n: usize, random: &mut Random) -> Plan {
    heads(n, |_| random.head(1900, 1400, (200, 600)))
}

// Most of the 2^n rows: each within the next, but for neighbours that may cross.
fn full(n: usize, random: &mut Random) -> Plan {
    heads(n, |k| {
        let k = k as i32;
        [random.whole(-40, 40), random.whole(-40, 40), 300 + 150 * (k - k % 2) + random.whole(0, 60)]
    })
}

pub type Kind = (&'static str, fn(usize, &mut Random) -> Plan);

pub const KINDS: [Kind; 6] =
    [("dense", dense), ("venn", venn), ("mixed", mixed), ("concentric", concentric), ("random", random), ("full", full)];

// One head of a plan, moved from one place to another and back.
pub struct Move {
    pub plan: Plan,
    pub head: usize,
    pub there: [i32; 3],
}

fn meets(a: [i32; 3], b: [i32; 3]) -> bool {
    let [dx, dy, sum, less] = [a[0] - b[0], a[1] - b[1], a[2] + b[2], a[2] - b[2]].map(i64::from);
    let d = dx * dx + dy * dy;
    d <= sum * sum && d >= less * less
}

// How many others a head meets before or after.
pub fn met(edit: &Move) -> usize {
    let here = edit.plan.heads[edit.head];
    let others = edit.plan.heads.iter().enumerate().filter(|(i, _)| *i != edit.head);
    others.filter(|(_, h)| meets(here, **h) || meets(edit.there, **h)).count()
}

// A move of the last head of a plan of a kind, which meets between `least` and `most` others before or after.
pub fn a_move(kind: fn(usize, &mut Random) -> Plan, random: &mut Random, least: usize, most: usize) -> Move {
    loop {
        let mut plan = kind(10, random);
        let place = |random: &mut Random| match most {
            0 => [random.whole(8000, 9000), random.whole(8000, 9000), 400],
            1..=2 => [random.whole(900, 3000), random.whole(900, 2500), random.whole(200, 500)],
            _ => random.head(600, 500, (400, 900)),
        };
        plan.heads[9] = place(random);
        let edit = Move { plan, head: 9, there: place(random) };
        let count = met(&edit);
        if least <= count && count <= most {
            return edit;
        }
    }
}
