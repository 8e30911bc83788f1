// Plans of up to 10 heads and a box, by category and seed. The tolerances of arcs and of the box show only where heads, and an
// edge or a corner of the box, go through one point exactly: more than a third of the plans are of that kind. In a plan of
// CATEGORIES no two heads are identical (docs/DIFFERENCES.md); in one of TWINS some are.

use crate::inputs::{triple, Head, Random, FURTHEST, LARGEST};
use crate::ours::Ours;

// The box by its centre and sides.
#[derive(Clone, Copy)]
pub struct Sides {
    pub x: f64,
    pub y: f64,
    pub width: f64,
    pub height: f64,
}

pub struct Plan {
    pub heads: Vec<Head>,
    pub sides: Sides,
}

// The pairs of identical heads, the lower number first.
pub fn twins_of(heads: &[Head]) -> Vec<(usize, usize)> {
    let pairs = (0..heads.len()).flat_map(|j| (0..j).map(move |i| (i, j)));
    pairs.filter(|&(i, j)| heads[i] == heads[j]).collect()
}

impl Plan {
    pub fn twins(&self) -> Vec<(usize, usize)> {
        twins_of(&self.heads)
    }
}

const WIDEST: i64 = 40000;

// More plans of few heads than of many: half have 1 to 4, a quarter 5 to 7, a quarter 8 to 10.
fn number(random: &mut Random) -> usize {
    (match random.whole(0, 3) {
        0 | 1 => random.whole(1, 4),
        2 => random.whole(5, 7),
        _ => random.whole(8, 10),
    }) as usize
}

fn several(random: &mut Random) -> usize {
    number(random).max(2)
}

fn in_domain(x: i64, y: i64, r: i64) -> bool {
    x.abs() <= FURTHEST && y.abs() <= FURTHEST && (1..=LARGEST).contains(&r)
}

// Up to n heads, each made by `next` from its number; those outside the domain or there already are made again, a few times.
fn heads(n: usize, mut next: impl FnMut(usize) -> (i64, i64, i64)) -> Vec<Head> {
    let mut made: Vec<Head> = Vec::new();
    for i in 0..n {
        for _ in 0..40 {
            let (x, y, r) = next(i);
            let head = Head { x: x as f64, y: y as f64, r: r as f64 };
            if in_domain(x, y, r) && !made.contains(&head) {
                made.push(head);
                break;
            }
        }
    }
    if made.is_empty() {
        made.push(Head { x: 0.0, y: 0.0, r: 500.0 });
    }
    made
}

fn sides(x: i64, y: i64, width: i64, height: i64) -> Sides {
    Sides {
        x: x.clamp(-FURTHEST, FURTHEST) as f64,
        y: y.clamp(-FURTHEST, FURTHEST) as f64,
        width: width.clamp(1, WIDEST) as f64,
        height: height.clamp(1, WIDEST) as f64,
    }
}

fn any_sides(random: &mut Random) -> Sides {
    let mut place = || random.whole(-FURTHEST, FURTHEST);
    let (x, y) = (place(), place());
    sides(x, y, random.whole(1, WIDEST), random.whole(1, WIDEST))
}

fn small_sides(random: &mut Random) -> Sides {
    sides(random.whole(-12, 12), random.whole(-12, 12), random.whole(1, 24), random.whole(1, 24))
}

fn any(random: &mut Random) -> Plan {
    let n = number(random);
    let heads = heads(n, |_| (random.whole(-FURTHEST, FURTHEST), random.whole(-FURTHEST, FURTHEST), random.whole(1, LARGEST)));
    Plan { heads, sides: any_sides(random) }
}

fn small(random: &mut Random) -> Plan {
    let n = number(random);
    let heads = heads(n, |_| (random.whole(-12, 12), random.whole(-12, 12), random.whole(1, 12)));
    Plan { heads, sides: small_sides(random) }
}

// ---- through one point

const SMALL: i64 = 25;

// Whole legs and a whole distance of at most 25: an axis, or a triple of 3 4 5, 5 12 13, 8 15 17, 7 24 25 and their multiples.
fn small_triple(random: &mut Random) -> (i64, i64, i64) {
    const TRIPLES: [(i64, i64, i64); 5] = [(1, 0, 1), (3, 4, 5), (5, 12, 13), (8, 15, 17), (7, 24, 25)];
    let (a, b, d) = TRIPLES[(random.next() % 5) as usize];
    let scale = random.whole(1, SMALL / d);
    let (a, b) = (a * scale * random.sign(), b * scale * random.sign());
    if random.sign() > 0 { (a, b, d * scale) } else { (b, a, d * scale) }
}

// Such legs with a distance above 25.
fn large_triple(random: &mut Random) -> (i64, i64, i64) {
    loop {
        let legs = triple(random, LARGEST);
        if legs.2 > SMALL {
            return legs;
        }
    }
}

#[derive(Clone, Copy)]
enum Size {
    Small,
    Large,
    Mixed,
}

fn legs(random: &mut Random, size: Size) -> (i64, i64, i64) {
    match size {
        Size::Small => small_triple(random),
        Size::Large => large_triple(random),
        Size::Mixed => if random.sign() > 0 { small_triple(random) } else { large_triple(random) },
    }
}

// Half a side of the box.
fn half(random: &mut Random, size: Size) -> i64 {
    match size {
        Size::Small => random.whole(1, SMALL),
        Size::Large => random.whole(1, WIDEST / 2),
        Size::Mixed => if random.sign() > 0 { random.whole(1, SMALL) } else { random.whole(1, WIDEST / 2) },
    }
}

// A box with a corner at (x, y), or with (x, y) on an edge.
fn box_at(random: &mut Random, x: i64, y: i64, size: Size, corner: bool) -> Sides {
    loop {
        let (a, b) = (half(random, size), half(random, size));
        let mut along = |h: i64, at_end: bool| if at_end { h * random.sign() } else { random.whole(-h, h) };
        let (dx, dy) = match (corner, along(1, true)) {
            (true, _) => (along(a, true), along(b, true)),
            (false, 1) => (along(a, true), along(b, false)),
            (false, _) => (along(a, false), along(b, true)),
        };
        if (x + dx).abs() <= FURTHEST && (y + dy).abs() <= FURTHEST {
            return sides(x + dx, y + dy, 2 * a, 2 * b);
        }
    }
}

// Heads whose edges go through one point, with the box there. Of mixed ones the first is small, the second large.
fn through_a_point(random: &mut Random, size: Size, corner: bool) -> Plan {
    let reach = match size {
        Size::Small => 12,
        _ => random.whole(0, FURTHEST / 2),
    };
    let (x, y) = (random.whole(-reach, reach), random.whole(-reach, reach));
    let mixed = matches!(size, Size::Mixed);
    let n = if mixed { several(random) } else { number(random) };
    let heads = heads(n, |i| {
        let (dx, dy, d) = match (mixed, i) {
            (true, 0) => small_triple(random),
            (true, 1) => large_triple(random),
            _ => legs(random, size),
        };
        (x + dx, y + dy, d)
    });
    assert!(!mixed || heads[0].r <= SMALL as f64 && heads[1].r > SMALL as f64);
    Plan { heads, sides: box_at(random, x, y, size, corner) }
}

fn point_on_an_edge(random: &mut Random) -> Plan {
    through_a_point(random, Size::Small, false)
}

fn point_at_a_corner(random: &mut Random) -> Plan {
    through_a_point(random, Size::Small, true)
}

fn large_point_on_an_edge(random: &mut Random) -> Plan {
    through_a_point(random, Size::Large, false)
}

fn large_point_at_a_corner(random: &mut Random) -> Plan {
    through_a_point(random, Size::Large, true)
}

fn mixed_point_on_an_edge(random: &mut Random) -> Plan {
    through_a_point(random, Size::Mixed, false)
}

fn mixed_point_at_a_corner(random: &mut Random) -> Plan {
    through_a_point(random, Size::Mixed, true)
}

// Heads whose edges go through two points, half a chord of k apart from its middle: centres on a line, c² + k² = r².
fn through_two_points(random: &mut Random) -> Plan {
    const HALVES: [i64; 7] = [12, 24, 60, 120, 720, 2520, 5040];
    let k = HALVES[(random.next() % 7) as usize];
    let (x, y, turned) = (random.whole(-100, 100), random.whole(-100, 100), random.sign() > 0);
    let place = |along: i64, across: i64| if turned { (x + across, y + along) } else { (x + along, y + across) };
    let n = several(random);
    let heads = heads(n, |_| loop {
        // (r - c)(r + c) = k²
        let d = random.whole(1, k);
        let e = k * k / d;
        if k * k % d == 0 && (d + e) % 2 == 0 && (d + e) / 2 <= LARGEST {
            let (cx, cy) = place((e - d) / 2 * random.sign(), 0);
            return (cx, cy, (d + e) / 2);
        }
    });
    let (px, py) = place(0, k * random.sign());
    let corner = random.sign() > 0;
    let size = if k < 200 { Size::Small } else { Size::Mixed };
    Plan { heads, sides: box_at(random, px, py, size, corner) }
}

// ---- tangencies

// Each head touches one made before, from outside or from inside; the box has its corner or its edge at the last touch.
fn touching(random: &mut Random) -> Plan {
    let size = if random.sign() > 0 { Size::Small } else { Size::Mixed };
    let n = several(random);
    let mut made: Vec<(i64, i64, i64)> = Vec::new();
    let mut touch = (0, 0);
    let heads = heads(n, |i| {
        made.truncate(i);
        let (dx, dy, d) = legs(random, size);
        let head = if made.is_empty() {
            (dx / 2, dy / 2, legs(random, size).2)
        } else {
            let (x, y, r) = made[(random.next() % made.len() as u64) as usize];
            // outside: d = r + s; inside: d = r - s, or d = s - r
            let s = match random.whole(0, 2) {
                0 => d - r,
                1 => r - d,
                _ => r + d,
            };
            if dx * r % d == 0 && dy * r % d == 0 {
                touch = (x + dx * r / d, y + dy * r / d);
            }
            (x + dx, y + dy, s)
        };
        if in_domain(head.0, head.1, head.2) {
            made.push(head);
        }
        head
    });
    let corner = random.sign() > 0;
    let (x, y) = (touch.0.clamp(-FURTHEST, FURTHEST), touch.1.clamp(-FURTHEST, FURTHEST));
    Plan { heads, sides: box_at(random, x, y, size, corner) }
}

// All touch from inside at one point: centres on one ray.
fn touching_at_a_point(random: &mut Random) -> Plan {
    const TRIPLES: [(i64, i64, i64); 4] = [(1, 0, 1), (3, 4, 5), (5, 12, 13), (20, 21, 29)];
    let (a, b, d) = TRIPLES[(random.next() % 4) as usize];
    let (a, b) = (a * random.sign(), b * random.sign());
    let (x, y, most) = (random.whole(-50, 50), random.whole(-50, 50), if random.sign() > 0 { 8 } else { LARGEST / d });
    let n = several(random);
    let heads = heads(n, |_| {
        let scale = random.whole(1, most);
        let side = if random.whole(0, 5) == 0 { -1 } else { 1 };
        (x + side * a * scale, y + side * b * scale, d * scale)
    });
    let corner = random.sign() > 0;
    Plan { heads, sides: box_at(random, x, y, Size::Mixed, corner) }
}

// Boxes whose edges touch heads, or miss them by one.
fn box_touching(random: &mut Random) -> Plan {
    let mut plan = if random.sign() > 0 { small(random) } else { any(random) };
    let h = plan.heads[(random.next() % plan.heads.len() as u64) as usize];
    let (x, y, r) = (h.x as i64, h.y as i64, h.r as i64);
    let miss = if random.whole(0, 3) == 0 { random.whole(-1, 1) } else { 0 };
    let (a, b) = (random.whole(1, 2 * r), random.whole(1, 2 * r));
    plan.sides = match random.whole(0, 5) {
        0 => sides(x, y, 2 * r + 2 * miss, 2 * r),
        1 => sides(x + r + a + miss, y + random.whole(-b, b), 2 * a, 2 * b),
        2 => sides(x - r - a + miss, y + random.whole(-b, b), 2 * a, 2 * b),
        3 => sides(x + random.whole(-a, a), y + r + b + miss, 2 * a, 2 * b),
        4 => sides(x + random.whole(-a, a), y - r + b + miss, 2 * a, 2 * b),
        _ => sides(x + r - a + miss, y + random.whole(-b, b), 2 * a, 2 * b),
    };
    plan
}

// ---- other arrangements

fn concentric(random: &mut Random) -> Plan {
    let (x, y) = (random.whole(-FURTHEST, FURTHEST), random.whole(-FURTHEST, FURTHEST));
    let most = if random.sign() > 0 { 20 } else { LARGEST };
    let n = several(random);
    let heads = heads(n, |_| {
        let aside = if random.whole(0, 3) == 0 { random.whole(-3, 3) } else { 0 };
        (x + aside, y, random.whole(1, most))
    });
    let sides = if random.sign() > 0 { box_at(random, x, y, Size::Mixed, true) } else { any_sides(random) };
    Plan { heads, sides }
}

// Each head overlaps the one before.
fn chain(random: &mut Random) -> Plan {
    let n = several(random);
    let r = random.whole(2, 2000);
    let (dx, dy) = (random.whole(0, r), random.whole(0, r));
    let heads = heads(n, |i| {
        let i = i as i64 - 5;
        (i * dx + random.whole(-1, 1), i * dy + random.whole(-1, 1), (r + random.whole(-1, 1)).max(1))
    });
    Plan { heads, sides: sides(0, random.whole(-r, r), random.whole(1, WIDEST), random.whole(1, 2 * r)) }
}

fn one_beside_20000(random: &mut Random) -> Plan {
    let n = several(random);
    let (x, y) = (random.whole(-1000, 1000), random.whole(-1000, 1000));
    let heads = heads(n, |i| {
        if i == 0 {
            return (x, y, LARGEST);
        }
        let dx = random.whole(-LARGEST - 1, LARGEST + 1);
        let dy = ((LARGEST * LARGEST - dx * dx).max(0).isqrt() + random.whole(-2, 2)) * random.sign();
        (x + dx, y + dy, if random.whole(0, 3) == 0 { LARGEST } else { random.whole(1, 3) })
    });
    let near = heads[heads.len() - 1];
    let sides = box_at(random, near.x as i64, near.y as i64, Size::Mixed, true);
    Plan { heads, sides }
}

fn collinear(random: &mut Random) -> Plan {
    let (dx, dy) = (random.whole(-3, 3), random.whole(-3, 3));
    let (reach, most) = if random.sign() > 0 { (8, 12) } else { (FURTHEST / 3, LARGEST) };
    let n = several(random);
    let heads = heads(n, |_| {
        let i = random.whole(-reach, reach);
        (i * dx, i * dy, random.whole(1, most))
    });
    Plan { heads, sides: if most == 12 { small_sides(random) } else { any_sides(random) } }
}

// Ten heads, or nearly, around one place, each with that place inside.
fn all_overlapping(random: &mut Random) -> Plan {
    let reach = if random.sign() > 0 { 6 } else { 5000 };
    let n = random.whole(6, 10) as usize;
    let heads = heads(n, |_| {
        let (x, y) = (random.whole(-reach, reach), random.whole(-reach, reach));
        (x, y, (x * x + y * y).isqrt() + random.whole(1, reach))
    });
    let (width, height) = (random.whole(1, 4 * reach), random.whole(1, 4 * reach));
    Plan { heads, sides: sides(random.whole(-reach, reach), random.whole(-reach, reach), width, height) }
}

fn corner_inside(random: &mut Random) -> Plan {
    let mut plan = if random.sign() > 0 { small(random) } else { any(random) };
    let h = plan.heads[0];
    let size = if h.r <= 12.0 { Size::Small } else { Size::Large };
    plan.sides = box_at(random, h.x as i64, h.y as i64, size, true);
    plan
}

fn box_far_away(random: &mut Random) -> Plan {
    let mut plan = small(random);
    plan.sides = sides(random.whole(1000, FURTHEST), random.whole(-FURTHEST, -1000), random.whole(1, 900), random.whole(1, 900));
    plan
}

fn single(random: &mut Random) -> Plan {
    let mut plan = if random.sign() > 0 { small(random) } else { any(random) };
    plan.heads.truncate(1);
    plan
}

// Document 01's plan of no heads at all: its one set is the box.
fn no_heads(random: &mut Random) -> Plan {
    Plan { heads: Vec::new(), sides: if random.sign() > 0 { small_sides(random) } else { any_sides(random) } }
}

// ---- out of the domain: a box of no area

fn empty_box(random: &mut Random) -> Plan {
    let mut plan = if random.sign() > 0 { small(random) } else { corner_inside(random) };
    let side = random.whole(-1, 0) as f64;
    if random.sign() > 0 {
        plan.sides.width = side;
    } else {
        plan.sides.height = side;
    }
    plan
}

// ---- out of the domain: floats with all their digits

fn fraction(random: &mut Random, most: f64) -> f64 {
    (random.next() >> 11) as f64 / (1u64 << 53) as f64 * most
}

fn fractions(random: &mut Random) -> Plan {
    let n = number(random);
    let most = [4.0, 16.0, 1000.0][(random.next() % 3) as usize];
    let heads = (0..n)
        .map(|_| Head { x: fraction(random, most), y: fraction(random, most), r: fraction(random, most / 2.0) + 1e-3 })
        .collect();
    let sides = Sides {
        x: fraction(random, most),
        y: fraction(random, most),
        width: fraction(random, most) + 1e-3,
        height: fraction(random, most) + 1e-3,
    };
    Plan { heads, sides }
}

// A plan through one point with every number moved by some floats, or by some millionths of a millionth.
fn nearly_through_a_point(random: &mut Random) -> Plan {
    let mut plan = match random.whole(0, 2) {
        0 => point_on_an_edge(random),
        1 => point_at_a_corner(random),
        _ => touching(random),
    };
    let by = [1e-15, 1e-12, 1e-10, 1e-9, 1e-8][(random.next() % 5) as usize];
    let mut moved = |v: f64| v + (random.whole(-8, 8) as f64) * by;
    for h in &mut plan.heads {
        (h.x, h.y, h.r) = (moved(h.x), moved(h.y), moved(h.r));
    }
    let s = plan.sides;
    plan.sides = Sides { x: moved(s.x), y: moved(s.y), width: moved(s.width), height: moved(s.height) };
    plan
}

// ---- out of the domain: a float of the plan meets a tolerance exactly, or misses it by a few floats

fn near(random: &mut Random, v: f64) -> f64 {
    (0..random.whole(0, 3)).fold(v, |v, _| if random.sign() > 0 { v.next_up() } else { v.next_down() })
}

// The box from its four sides; the last digits of three of them may be lost.
fn between(x_min: f64, x_max: f64, y_min: f64, y_max: f64) -> Sides {
    Sides { x: x_min + (x_max - x_min) / 2.0, y: y_min + (y_max - y_min) / 2.0, width: x_max - x_min, height: y_max - y_min }
}

// Concentric circles of which one's edge is at the limit of coincidence with the other's: 1 + eps or 1 - eps times its squared
// radius. eps is 2e-7 / r, for a third of them a power of 2, but at least 1e-12, which is more for radii above 200000.
fn at_coincidence(random: &mut Random) -> Plan {
    let r = match random.whole(0, 2) {
        0 => 2e-7 * (1u64 << random.whole(20, 26)) as f64,
        1 => random.whole(1, 40) as f64,
        _ => random.whole(200001, 1000000) as f64,
    };
    let eps = f64::max(2e-7 / r, 1e-12);
    let other = r * (1.0 + eps * random.sign() as f64).our_root();
    let (one, two) = (Head { x: 0.0, y: 0.0, r }, Head { x: 0.0, y: 0.0, r: near(random, other) });
    let heads = if random.sign() > 0 { vec![one, two] } else { vec![two, one] };
    Plan { heads, sides: small_sides(random) }
}

// Three circles whose common part has an arc of the turn 1e-9 on the first: the others go through its ends, across it.
fn at_a_gap(random: &mut Random) -> Plan {
    let a = fraction(random, 6.0) - 3.0;
    let (start, end) = ((a.our_cos(), a.our_sin()), ((a + 1e-9).our_cos(), (a + 1e-9).our_sin()));
    let r = random.whole(2, 8) as f64 / 8.0;
    let heads = vec![
        Head { x: 0.0, y: 0.0, r: 1.0 },
        Head { x: start.0 - r * start.1, y: start.1 + r * start.0, r: near(random, r) },
        Head { x: end.0 + r * end.1, y: end.1 - r * end.0, r: near(random, r) },
    ];
    Plan { heads, sides: small_sides(random) }
}

// A circle that touches two larger ones from inside, at points that are the turn 1e-9 apart: all but that is one arc.
fn at_a_full_turn(random: &mut Random) -> Plan {
    let turn = 1e-9 + random.whole(-3, 3) as f64 * (f64::EPSILON * 2.0);
    let (a, b) = (random.whole(1, 20) as f64, random.whole(1, 20) as f64);
    let mut heads = vec![
        Head { x: 0.0, y: 0.0, r: 1.0 },
        Head { x: -a, y: 0.0, r: a + 1.0 },
        Head { x: -b, y: -b * turn, r: b + 1.0 },
    ];
    let first = (random.next() % 3) as usize;
    heads.swap(0, first);
    Plan { heads, sides: small_sides(random) }
}

// A circle whose furthest point to one side is 1e-9 outside of the box.
fn at_the_box(random: &mut Random) -> Plan {
    let r = random.whole(1, 4) as f64;
    let mut ends = [-2.0 * r, 2.0 * r, -2.0 * r, 2.0 * r];
    let edge = (random.next() % 4) as usize;
    ends[edge] = near(random, (r - 1e-9) * [-1.0, 1.0, -1.0, 1.0][edge]);
    Plan { heads: vec![Head { x: 0.0, y: 0.0, r }], sides: between(ends[0], ends[1], ends[2], ends[3]) }
}

// An arc that ends 1e-12 before or after it crosses an edge: of a single, which begins at the angle 0, or of a lens.
fn at_a_crossing(random: &mut Random) -> Plan {
    let one = Head { x: 0.0, y: 0.0, r: 1.0 };
    if random.sign() > 0 {
        let y = near(random, -1e-12);
        return Plan { heads: vec![one], sides: between(-3.0, 3.0, y, 3.0) };
    }
    // the lens of two unit circles, one to the right: its arc on the left one goes from -phi to phi
    let x = random.whole(1, 15) as f64 / 8.0;
    let phi = (x / 2.0).our_acos();
    let y = (phi + 1e-12 * [-1.0, 1.0][(random.next() % 2) as usize]).our_sin() * random.sign() as f64;
    let y = near(random, y);
    let sides = if random.sign() > 0 { between(-3.0, 3.0, y, y + 4.0) } else { between(-3.0, 3.0, y - 4.0, y) };
    Plan { heads: vec![one, Head { x, y: 0.0, r: 1.0 }], sides }
}

fn at_a_tolerance(random: &mut Random) -> Plan {
    match random.whole(0, 7) {
        0..=2 => at_coincidence(random),
        3 => at_a_gap(random),
        4 => at_a_full_turn(random),
        5 => at_the_box(random),
        _ => at_a_crossing(random),
    }
}

// ---- with identical heads

// A plan with up to three more heads, each a copy of one that is there, at any place among them.
fn doubled(random: &mut Random, mut plan: Plan) -> Plan {
    plan.heads.truncate(9);
    for _ in 0..random.whole(1, 3) {
        let n = plan.heads.len();
        if n < 10 {
            let copied = plan.heads[(random.next() % n as u64) as usize];
            plan.heads.insert((random.next() % (n as u64 + 1)) as usize, copied);
        }
    }
    plan
}

fn twins_alone(random: &mut Random) -> Plan {
    let plan = single(random);
    doubled(random, plan)
}

fn twins_anywhere(random: &mut Random) -> Plan {
    let plan = if random.sign() > 0 { any(random) } else { small(random) };
    doubled(random, plan)
}

fn twins_through_a_point(random: &mut Random) -> Plan {
    let plan = match random.whole(0, 5) {
        0 => point_on_an_edge(random),
        1 => point_at_a_corner(random),
        2 => large_point_on_an_edge(random),
        3 => mixed_point_at_a_corner(random),
        4 => through_two_points(random),
        _ => all_overlapping(random),
    };
    doubled(random, plan)
}

fn twins_touching(random: &mut Random) -> Plan {
    let plan = match random.whole(0, 4) {
        0 => touching(random),
        1 => touching_at_a_point(random),
        2 => concentric(random),
        3 => chain(random),
        _ => one_beside_20000(random),
    };
    doubled(random, plan)
}

pub struct Category {
    pub name: &'static str,
    // how many of every hundred plans
    pub share: u64,
    pub plan: fn(&mut Random) -> Plan,
}

pub const CATEGORIES: [Category; 25] = [
    Category { name: "through a point on an edge of the box, small heads", share: 7, plan: point_on_an_edge },
    Category { name: "through a point at a corner of the box, small heads", share: 7, plan: point_at_a_corner },
    Category { name: "through a point on an edge of the box, large heads", share: 6, plan: large_point_on_an_edge },
    Category { name: "through a point at a corner of the box, large heads", share: 6, plan: large_point_at_a_corner },
    Category { name: "through a point on an edge of the box, small and large", share: 6, plan: mixed_point_on_an_edge },
    Category { name: "through a point at a corner of the box, small and large", share: 6, plan: mixed_point_at_a_corner },
    Category { name: "through two points, the box at one", share: 5, plan: through_two_points },
    Category { name: "random heads and box of the domain", share: 4, plan: any },
    Category { name: "random heads and box, at most 12", share: 7, plan: small },
    Category { name: "touching, Pythagorean, the box at a touch", share: 7, plan: touching },
    Category { name: "touching at one point, the box there", share: 4, plan: touching_at_a_point },
    Category { name: "box touching a head or missing it by one", share: 5, plan: box_touching },
    Category { name: "concentric", share: 2, plan: concentric },
    Category { name: "chains", share: 3, plan: chain },
    Category { name: "radius 1 to 3 beside 20000, near the edge", share: 2, plan: one_beside_20000 },
    Category { name: "centres on a line", share: 3, plan: collinear },
    Category { name: "all overlapping", share: 2, plan: all_overlapping },
    Category { name: "a corner of the box inside a head", share: 2, plan: corner_inside },
    Category { name: "box far away", share: 1, plan: box_far_away },
    Category { name: "single heads", share: 2, plan: single },
    Category { name: "fractions", share: 3, plan: fractions },
    Category { name: "moved a little from a point or a touch", share: 2, plan: nearly_through_a_point },
    Category { name: "at a tolerance exactly, or a few floats from it", share: 6, plan: at_a_tolerance },
    Category { name: "no heads", share: 1, plan: no_heads },
    Category { name: "box of no area", share: 1, plan: empty_box },
];

// Plans with identical heads, beside the hundred.
pub const TWINS: [Category; 4] = [
    Category { name: "identical heads alone", share: 1, plan: twins_alone },
    Category { name: "identical heads among random ones", share: 5, plan: twins_anywhere },
    Category { name: "identical heads through a point", share: 5, plan: twins_through_a_point },
    Category { name: "identical heads, touching, concentric, chains", share: 5, plan: twins_touching },
];
