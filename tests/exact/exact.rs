// The float decisions about two circles against the whole-number ones, where they are hardest: at squared distances D = s², s² ± 1, t² and t² ± 1,
// for every pair of radii of a grid in both orders, s being the sum and t the difference of the radii; a circle of radius 0 is closed: it has no point and
// contains nothing. Where D is a sum of two squares the centres are placed so, at both ends of the coordinates' range, and our own functions are called, through
// the static library of crate `probe`. Where it is not, no heads have that D: the formulas of the tests, and the steps up to the root of what is left across, are
// compared at the root of D, by the machine's square root, which ours equals bit for bit (tests/root).
use std::process::exit;

const REACH: i64 = 20000;

#[repr(C)]
struct Points {
    number: usize,
    x1: f64,
    y1: f64,
    x2: f64,
    y2: f64,
}

extern "C" {
    fn probe_contains(x1: f64, y1: f64, r1: f64, x2: f64, y2: f64, r2: f64) -> bool;
    fn probe_intersects(x1: f64, y1: f64, r1: f64, x2: f64, y2: f64, r2: f64) -> bool;
    fn probe_intersection_points(x1: f64, y1: f64, r1: f64, x2: f64, y2: f64, r2: f64) -> Points;
}

#[derive(Clone, Copy)]
struct Head {
    x: i64,
    y: i64,
    radius: i64,
}

#[derive(Clone, Copy)]
struct Circle {
    x: f64,
    y: f64,
    radius: f64,
}

fn circle(h: Head) -> Circle {
    Circle { x: h.x as f64, y: h.y as f64, radius: h.radius as f64 }
}

// ---- the formulas of the float decisions, for a distance that no two heads have

fn closed(a: f64, b: f64) -> bool {
    a == 0.0 || b == 0.0
}

fn contains(d: f64, a: f64, b: f64) -> bool {
    !closed(a, b) && d + b <= a
}

fn intersects(d: f64, a: f64, b: f64) -> bool {
    d < a + b && d > (a - b).abs()
}

fn beyond(d: f64, a: f64, b: f64) -> bool {
    d >= a + b
}

fn within(d: f64, a: f64, b: f64) -> bool {
    d <= (a - b).abs()
}

fn apart(d: f64, a: f64, b: f64) -> bool {
    closed(a, b) || d > a + b || d < (a - b).abs()
}

// How far the foot of the chord lies from the first centre, and how far the points lie from the foot.
fn foot(d: f64, a: f64, b: f64) -> (f64, f64) {
    let along = (a * a - b * b + d * d) / (2.0 * d);
    (along, (a * a - along * along).sqrt())
}

// ---- the whole-number decisions

struct Exact {
    contains: bool,
    intersects: bool,
    beyond: bool,
    within: bool,
    points: usize,
}

fn exact(d: i64, a: i64, b: i64) -> Exact {
    let (s2, t2) = ((a + b) * (a + b), (a - b) * (a - b));
    let closed = a == 0 || b == 0;
    let meets = !closed && t2 <= d && d <= s2 && !(d == 0 && a == b);
    Exact {
        contains: !closed && a >= b && d <= t2,
        intersects: t2 < d && d < s2,
        beyond: d >= s2,
        within: d <= t2,
        points: if !meets { 0 } else if d == t2 || d == s2 { 1 } else { 2 },
    }
}

// ---- the comparison

#[derive(Default)]
struct Tally {
    pairs: u64,
    placed: u64,
    unplaced: u64,
    differences: u64,
}

impl Tally {
    fn differ(&mut self, what: &str, d: i64, a: i64, b: i64) {
        self.differences += 1;
        if self.differences <= 10 {
            println!("{what} differs: D = {d}, radii {a} and {b}");
        }
    }

    // The tests on the distance alone, and whether something is left across.
    fn compare_tests(&mut self, root: f64, d: i64, a: i64, b: i64) {
        let want = exact(d, a, b);
        let (fa, fb) = (a as f64, b as f64);
        let left = foot(root, fa, fb).1;
        let right = contains(root, fa, fb) == want.contains
            && intersects(root, fa, fb) == want.intersects
            && beyond(root, fa, fb) == want.beyond
            && within(root, fa, fb) == want.within
            && (d == 0 || apart(root, fa, fb) == (want.points == 0))
            && (want.points != 1 || left == 0.0)
            && (want.points != 2 || left > 0.0);
        if !right {
            self.differ("a test", d, a, b);
        }
    }

    // Two heads with centres dx and dy apart, in this order and in the other.
    fn compare_heads(&mut self, a: Head, b: Head) {
        let (dx, dy) = (a.x - b.x, a.y - b.y);
        let d = dx * dx + dy * dy;
        for (p, q) in [(a, b), (b, a)] {
            let (c, e) = (circle(p), circle(q));
            let want = exact(d, p.radius, q.radius);
            let found = unsafe { probe_intersection_points(c.x, c.y, c.radius, e.x, e.y, e.radius) };
            let placed = [found.x1, found.y1, found.x2, found.y2].iter().all(|v| v.abs() <= 80000.0);
            if found.number != want.points || !placed {
                self.differ("the number of points", d, p.radius, q.radius);
            }
            if unsafe { probe_contains(c.x, c.y, c.radius, e.x, e.y, e.radius) } != want.contains {
                self.differ("contains", d, p.radius, q.radius);
            }
            if unsafe { probe_intersects(c.x, c.y, c.radius, e.x, e.y, e.radius) } != want.intersects {
                self.differ("intersects", d, p.radius, q.radius);
            }
            self.placed += 1;
        }
    }

    fn compare(&mut self, legs: &[(i64, i64)], d: i64, a: i64, b: i64) {
        if legs.is_empty() {
            for (p, q) in [(a, b), (b, a)] {
                self.compare_tests((d as f64).sqrt(), d, p, q);
                self.unplaced += 1;
            }
        }
        for &(dx, dy) in legs {
            for (dx, dy) in [(dx, dy), (dy, dx), (-dx, dy), (dx, -dy)] {
                let x = if dx < 0 { REACH } else { -REACH };
                let y = if dy < 0 { -dy - REACH } else { REACH - dy };
                self.compare_heads(Head { x, y, radius: a }, Head { x: x + dx, y: y + dy, radius: b });
            }
        }
    }
}

// The pairs with squares that sum up to d: the flattest and the steepest.
fn legs(d: i64) -> Vec<(i64, i64)> {
    let mut found = vec![];
    let (mut x, mut y) = ((d as f64).sqrt() as i64 + 1, 0);
    while y <= x {
        let over = x * x + y * y - d;
        if over == 0 {
            found.push((x, y));
            y += 1;
        } else if over > 0 {
            x -= 1;
        } else {
            y += 1;
        }
    }
    found.retain(|&(x, y)| x <= 2 * REACH && y <= 2 * REACH);
    found.dedup();
    if found.len() > 2 {
        found = vec![found[0], found[found.len() - 1]];
    }
    found
}

// n radii: both ends of the range, powers of two with their neighbours, and between them evenly.
fn grid(n: i64) -> Vec<i64> {
    let mut radii: Vec<i64> = (0..=12).chain(REACH - 11..=REACH).collect();
    for k in 4..15 {
        radii.extend([(1 << k) - 1, 1 << k, (1 << k) + 1]);
    }
    let rest = (n - radii.len() as i64).max(0);
    radii.extend((1..=rest).map(|i| 1 + (i * (REACH - 1)) / (rest + 1)));
    if n >= REACH {
        radii = (0..=REACH).collect();
    }
    radii.retain(|&r| 0 <= r && r <= REACH);
    radii.sort();
    radii.dedup();
    radii
}

fn main() {
    let n: i64 = std::env::args().nth(1).and_then(|s| s.parse().ok()).unwrap_or(2000);
    let radii = grid(n);
    let mut tally = Tally::default();
    // for each sum or difference k, the legs of k² - 1, k² and k² + 1, worked out when first wanted
    let mut known: Vec<Option<[Vec<(i64, i64)>; 3]>> = vec![None; 2 * REACH as usize + 1];
    for &a in &radii {
        for &b in radii.iter().filter(|&&b| b <= a) {
            tally.pairs += 1;
            for k in [a + b, a - b] {
                let three = known[k as usize].get_or_insert_with(|| [k * k - 1, k * k, k * k + 1].map(legs)).clone();
                for (i, legs) in three.iter().enumerate() {
                    let d = k * k + i as i64 - 1;
                    if d >= 0 {
                        tally.compare(legs, d, a, b);
                    }
                }
            }
        }
    }
    println!("{} radii, {} pairs: {} placed, {} by the distance alone, {} differences", radii.len(), tally.pairs, tally.placed, tally.unplaced, tally.differences);
    exit(if tally.differences == 0 && tally.placed > 0 { 0 } else { 1 });
}
