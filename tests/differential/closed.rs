// Closed heads, those of radius 0. A plan that has some is answered by the Rust with them left out, and the answers are spread back: masks,
// rows and gradient entries to the places that the other heads have among all. And plans with closed heads: the others as plans.rs makes
// them, the closed ones where a head of radius 0 could be taken to meet, to hold, to be held or to adopt.

use crate::case::{input, Case, OurCircles, Rows, Slopes};
use crate::inputs::{Head, Random, FURTHEST, LARGEST};
use crate::plans::{Plan, Sides, CATEGORIES, TWINS};

pub fn is_closed(h: &Head) -> bool {
    !(h.r > 0.0)
}

pub fn left_out(plan: &Plan) -> Plan {
    Plan { heads: plan.heads.iter().filter(|h| !is_closed(h)).copied().collect(), sides: plan.sides }
}

// Among `n` heads those at `places`, in their order, are the ones that answers are of.
pub struct Spread {
    pub n: usize,
    pub places: Vec<usize>,
}

impl Spread {
    // Over some heads, of those that are not closed.
    pub fn over(heads: &[Head]) -> Self {
        Spread { n: heads.len(), places: (0..heads.len()).filter(|i| !is_closed(&heads[*i])).collect() }
    }

    // Each head at its own place.
    pub fn none(n: usize) -> Self {
        Spread { n, places: (0..n).collect() }
    }

    // The mask of the heads that nothing is spread to.
    pub fn closed(&self) -> usize {
        (0..self.n).filter(|i| !self.places.contains(i)).map(|i| 1 << i).sum()
    }

    pub fn mask(&self, mask: usize) -> usize {
        self.places.iter().enumerate().filter(|(i, _)| mask >> i & 1 == 1).map(|(_, place)| 1 << place).sum()
    }

    // The mask that is spread to this one less its other heads.
    pub fn back(&self, mask: usize) -> usize {
        self.places.iter().enumerate().filter(|(_, place)| mask >> *place & 1 == 1).map(|(i, _)| 1 << i).sum()
    }

    pub fn rows(&self, rows: Rows) -> Rows {
        rows.into_iter().map(|(mask, area)| (self.mask(mask), area)).collect()
    }

    // Three entries of each head, then what a row has beyond the heads.
    fn entries(&self, row: &[f64]) -> Vec<f64> {
        let mut all = vec![0.0; 3 * self.n];
        for (i, place) in self.places.iter().enumerate() {
            all[3 * place..3 * place + 3].copy_from_slice(&row[3 * i..3 * i + 3]);
        }
        all.extend(&row[3 * self.places.len()..]);
        all
    }

    pub fn slopes(&self, (areas, slopes): (Rows, Slopes)) -> (Rows, Slopes) {
        let slopes = slopes.into_iter().map(|(mask, row)| (self.mask(mask), self.entries(&row))).collect();
        (self.rows(areas), slopes)
    }
}

// What our exports are given: the heads of a case, or more heads, among which those of a case stand at some places.
pub struct Given {
    pub n: usize,
    pub ours: OurCircles,
    pub spread: Spread,
    pub input: String,
}

impl Given {
    pub fn same(case: &Case) -> Self {
        Given { n: case.n, ours: case.ours, spread: Spread::none(case.n), input: case.input() }
    }

    pub fn over(plan: &Plan, spread: Spread) -> Self {
        Given { n: plan.heads.len(), ours: OurCircles::of(&plan.heads), spread, input: input(&plan.heads, plan.sides) }
    }
}

// ---- plans

// The nearest whole number; without the machine's own, which no program here may call.
fn nearest(v: f64) -> f64 {
    (v + if v < 0.0 { -0.5 } else { 0.5 }) as i64 as f64
}

// Whole numbers within document 01's limits.
fn in_domain(plan: &Plan) -> bool {
    let (s, whole) = (plan.sides, |v: f64, least: i64, most: i64| v == nearest(v) && v >= least as f64 && v <= most as f64);
    let place = |x: f64, y: f64| whole(x, -FURTHEST, FURTHEST) && whole(y, -FURTHEST, FURTHEST);
    let sides = whole(s.width, 1, 2 * FURTHEST) && whole(s.height, 1, 2 * FURTHEST);
    sides && place(s.x, s.y) && plan.heads.iter().all(|h| place(h.x, h.y) && whole(h.r, 1, LARGEST))
}

// A plan of `number` heads, none of them closed, from a category; within the domain where `whole`.
fn others(number: usize, whole: bool, random: &mut Random) -> Plan {
    let all: Vec<_> = CATEGORIES.iter().chain(&TWINS).collect();
    loop {
        let mut plan = (all[(random.next() % all.len() as u64) as usize].plan)(random);
        plan.heads.truncate(number);
        if plan.heads.len() == number && (!whole || in_domain(&plan)) {
            return plan;
        }
    }
}

// From a centre to a place on its head's edge: whole numbers where the radius is whole.
fn to_the_edge(r: f64, random: &mut Random) -> (f64, f64) {
    let parts: Vec<(f64, f64, f64)> =
        [(3.0, 4.0, 5.0), (5.0, 12.0, 13.0), (8.0, 15.0, 17.0), (7.0, 24.0, 25.0)].into_iter().filter(|(_, _, d)| r % d == 0.0).collect();
    let (a, b) = match parts.get((random.next() % (parts.len() as u64 + 1)) as usize) {
        Some((a, b, d)) => (a * (r / d), b * (r / d)),
        None => (0.0, r),
    };
    let (a, b) = (a * random.sign() as f64, b * random.sign() as f64);
    if random.sign() > 0 { (a, b) } else { (b, a) }
}

// A place for a closed head beside others. `points` are their meeting points, `there` the closed heads that are there already.
fn place(heads: &[Head], points: &[(f64, f64)], there: &[Head], sides: &Sides, random: &mut Random) -> (f64, f64) {
    let mut one = |number: usize| (random.next() % number as u64) as usize;
    match one(10) {
        0 | 1 if !heads.is_empty() => {
            let h = heads[one(heads.len())];
            (h.x, h.y)
        }
        2 | 3 if !heads.is_empty() => {
            let h = heads[one(heads.len())];
            let (dx, dy) = to_the_edge(h.r, random);
            (h.x + dx, h.y + dy)
        }
        4..=6 if !points.is_empty() => points[one(points.len())],
        7 if !there.is_empty() => {
            let h = there[one(there.len())];
            (h.x, h.y)
        }
        8 => (sides.x + sides.width / 2.0 * random.whole(-1, 1) as f64, sides.y + sides.height / 2.0 * random.whole(-1, 1) as f64),
        9 => (random.whole(-FURTHEST, FURTHEST) as f64, random.whole(-FURTHEST, FURTHEST) as f64),
        _ => (random.whole(-30, 30) as f64, random.whole(-30, 30) as f64),
    }
}

// A plan of `n` heads of which `closed` are closed, those at any places among the others; within the domain where `whole`.
pub fn plan(n: usize, closed: usize, whole: bool, random: &mut Random) -> Plan {
    let others = others(n - closed, whole, random);
    let points: Vec<(f64, f64)> = Case::of_any(Plan { heads: others.heads.clone(), sides: others.sides })
        .points
        .iter()
        .map(|q| (q.point().x(), q.point().y()))
        .filter(|(x, y)| !whole || (x - nearest(*x)).abs() < 1e-6 && (y - nearest(*y)).abs() < 1e-6)
        .collect();
    let mut there: Vec<Head> = Vec::new();
    let mut heads = others.heads.clone();
    for _ in 0..closed {
        let (mut x, mut y) = place(&others.heads, &points, &there, &others.sides, random);
        if whole {
            let furthest = FURTHEST as f64;
            (x, y) = (nearest(x).clamp(-furthest, furthest), nearest(y).clamp(-furthest, furthest));
        }
        let head = Head { x, y, r: 0.0 };
        there.push(head);
        heads.insert((random.next() % (heads.len() as u64 + 1)) as usize, head);
    }
    Plan { heads, sides: others.sides }
}

// ---- where closed heads stand

// Those of a plan that stand at the centre of a head that is not closed; exactly at its radius from one; so from two, which is a meeting
// point; inside one; on top of another closed head.
#[derive(Default)]
pub struct Stand {
    at_a_centre: usize,
    on_an_edge: usize,
    on_a_meeting_point: usize,
    inside: usize,
    on_another: usize,
}

impl Stand {
    pub fn count(&mut self, plan: &Plan) {
        let (closed, others): (Vec<Head>, Vec<Head>) = plan.heads.iter().copied().partition(is_closed);
        for (i, h) in closed.iter().enumerate() {
            let far = |o: &&Head| (o.x - h.x).powi(2) + (o.y - h.y).powi(2) - o.r * o.r;
            let edges: Vec<&Head> = others.iter().filter(|o| far(o) == 0.0).collect();
            self.at_a_centre += others.iter().any(|o| (o.x, o.y) == (h.x, h.y)) as usize;
            self.on_an_edge += !edges.is_empty() as usize;
            self.on_a_meeting_point += edges.iter().any(|o| *o != edges[0]) as usize;
            self.inside += others.iter().any(|o| far(&o) < 0.0) as usize;
            self.on_another += closed.iter().enumerate().any(|(j, o)| j != i && (o.x, o.y) == (h.x, h.y)) as usize;
        }
    }

    // Ends the program where one kind was never drawn.
    pub fn print(&self) {
        let Stand { at_a_centre, on_an_edge, on_a_meeting_point, inside, on_another } = self;
        let places = format!("{at_a_centre} at a centre, {on_an_edge} on an edge, {on_a_meeting_point} of them on two");
        println!("closed heads: {places}, {inside} inside, {on_another} on another");
        let all = [at_a_centre, on_an_edge, on_a_meeting_point, inside, on_another];
        assert!(all.iter().all(|number| **number > 0), "a kind was not drawn");
    }
}
