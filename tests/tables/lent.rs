// A plan and tables as the C interface takes them, include/watered.h.

use crate::inputs::{Head, Random};
use crate::plans::{Plan, Sides};

extern "C" {
    fn watered_afresh(
        n: usize, sides: *const i32, heads: *const i32, presence: *mut u8, presence_count: usize, rows: *mut f64, rows_count: usize,
        exclusive_presence: *mut u8, exclusive_presence_count: usize, exclusives: *mut f64, exclusives_count: usize,
    ) -> u32;
    fn watered_open_afresh(
        n: usize, sides: *const i32, heads: *const i32, presence: *mut u8, presence_count: usize, rows: *mut f64, rows_count: usize,
        exclusive_presence: *mut u8, exclusive_presence_count: usize, exclusives: *mut f64, exclusives_count: usize,
    ) -> u32;
    fn watered_edit(
        n: usize, sides: *const i32, heads: *mut i32, head: usize, x: i32, y: i32, radius: i32, presence: *mut u8, presence_count: usize,
        rows: *mut f64, rows_count: usize, exclusive_presence: *mut u8, exclusive_presence_count: usize, exclusives: *mut f64,
        exclusives_count: usize,
    ) -> u32;
    fn watered_run(
        n: usize, sides: *const i32, heads: *mut i32, edit_heads: *const usize, edit_heads_count: usize, x: *const i32, x_count: usize,
        y: *const i32, y_count: usize, radius: *const i32, radius_count: usize, answers: *mut u8, answers_count: usize, presence: *mut u8,
        presence_count: usize, rows: *mut f64, rows_count: usize, exclusive_presence: *mut u8, exclusive_presence_count: usize,
        exclusives: *mut f64, exclusives_count: usize,
    ) -> usize;
    fn watered_gradients(
        n: usize, sides: *const i32, heads: *const i32, presence: *mut u8, presence_count: usize, exclusives: *mut f64,
        exclusives_count: usize, gradients: *mut f64, gradients_count: usize,
    ) -> u32;
    fn watered_open_gradients(
        n: usize, sides: *const i32, heads: *const i32, presence: *mut u8, presence_count: usize, exclusives: *mut f64,
        exclusives_count: usize, gradients: *mut f64, gradients_count: usize,
    ) -> u32;
    fn watered_overlap(n: usize, sides: *const i32, heads: *const i32, overlap: *mut f64) -> u32;
}

// A plan: the box, n, and each head's x, y and radius. What stands past n heads is never read.
#[derive(Clone, PartialEq, Debug)]
pub struct Book {
    pub n: usize,
    pub sides: [i32; 4],
    pub heads: [i32; 30],
}

#[derive(Clone, Copy, Debug)]
pub struct Edit {
    pub head: usize,
    pub x: i32,
    pub y: i32,
    pub radius: i32,
}

// The whole numbers of a plan of the domain, or nothing where it has others.
fn whole(numbers: &[f64]) -> Option<Vec<i32>> {
    numbers.iter().map(|v| (*v == *v as i32 as f64 && v.abs() <= 40000.0).then_some(*v as i32)).collect()
}

impl Book {
    pub fn of(plan: &Plan, random: &mut Random) -> Option<Book> {
        let s = plan.sides;
        let sides = whole(&[s.x, s.y, s.width, s.height])?;
        if sides[2] < 1 || sides[3] < 1 {
            return None;
        }
        let mut heads = [0; 30];
        for number in &mut heads {
            *number = random.next() as i32;
        }
        for (i, h) in plan.heads.iter().enumerate() {
            heads[3 * i..3 * i + 3].copy_from_slice(&whole(&[h.x, h.y, h.r])?);
        }
        Some(Book { n: plan.heads.len(), sides: [sides[0], sides[1], sides[2], sides[3]], heads })
    }

    pub fn head(&self, i: usize) -> (i64, i64, i64) {
        (self.heads[3 * i] as i64, self.heads[3 * i + 1] as i64, self.heads[3 * i + 2] as i64)
    }

    pub fn plan(&self) -> Plan {
        let float = |i: usize| self.heads[i] as f64;
        let heads = (0..self.n).map(|i| Head { x: float(3 * i), y: float(3 * i + 1), r: float(3 * i + 2) }).collect();
        let [x, y, width, height] = self.sides.map(f64::from);
        Plan { heads, sides: Sides { x, y, width, height } }
    }

    pub fn rows(&self) -> usize {
        1 << self.n
    }

    // The answer, and what all heads water together.
    pub fn overlap(&self) -> (u32, f64) {
        let mut area = f64::NAN;
        let answer = unsafe { watered_overlap(self.n, self.sides.as_ptr(), self.heads.as_ptr(), &mut area) };
        (answer, area)
    }
}

// The tables of a call: the rows and their exclusives.
#[derive(Clone)]
pub struct Tables {
    pub presence: Vec<u8>,
    pub rows: Vec<f64>,
    pub exclusive_presence: Vec<u8>,
    pub exclusives: Vec<f64>,
}

impl Tables {
    // Of so many rows, with any bytes and numbers in them.
    pub fn filled(count: [usize; 4], random: &mut Random) -> Self {
        let mut bytes = |n: usize| (0..n).map(|_| (random.next() % 4) as u8).collect::<Vec<u8>>();
        let (presence, exclusive_presence) = (bytes(count[0]), bytes(count[2]));
        let mut numbers = |n: usize| (0..n).map(|_| random.whole(-1_000_000, 1_000_000) as f64 / 8.0).collect::<Vec<f64>>();
        Tables { presence, rows: numbers(count[1]), exclusive_presence, exclusives: numbers(count[3]) }
    }

    // At least so many rows.
    pub fn of(rows: usize, random: &mut Random) -> Self {
        let mut more = || rows + random.whole(0, 3) as usize;
        let count = [more(), more(), more(), more()];
        Tables::filled(count, random)
    }

    pub fn afresh(&mut self, book: &Book) -> u32 {
        let (p, r, q, e) = (&mut self.presence, &mut self.rows, &mut self.exclusive_presence, &mut self.exclusives);
        unsafe {
            watered_afresh(
                book.n, book.sides.as_ptr(), book.heads.as_ptr(), p.as_mut_ptr(), p.len(), r.as_mut_ptr(), r.len(), q.as_mut_ptr(),
                q.len(), e.as_mut_ptr(), e.len(),
            )
        }
    }

    pub fn open_afresh(&mut self, book: &Book) -> u32 {
        let (p, r, q, e) = (&mut self.presence, &mut self.rows, &mut self.exclusive_presence, &mut self.exclusives);
        unsafe {
            watered_open_afresh(
                book.n, book.sides.as_ptr(), book.heads.as_ptr(), p.as_mut_ptr(), p.len(), r.as_mut_ptr(), r.len(), q.as_mut_ptr(),
                q.len(), e.as_mut_ptr(), e.len(),
            )
        }
    }

    // An edit over the first `lent` of each table.
    pub fn edit(&mut self, book: &mut Book, edit: Edit, lent: [usize; 4]) -> u32 {
        let (p, r, q, e) = (&mut self.presence, &mut self.rows, &mut self.exclusive_presence, &mut self.exclusives);
        assert!(lent[0] <= p.len() && lent[1] <= r.len() && lent[2] <= q.len() && lent[3] <= e.len());
        let Edit { head, x, y, radius } = edit;
        unsafe {
            watered_edit(
                book.n, book.sides.as_ptr(), book.heads.as_mut_ptr(), head, x, y, radius, p.as_mut_ptr(), lent[0], r.as_mut_ptr(), lent[1],
                q.as_mut_ptr(), lent[2], e.as_mut_ptr(), lent[3],
            )
        }
    }

    pub fn run(&mut self, book: &mut Book, edits: &[Edit], answers: &mut [u8]) -> usize {
        let (p, r, q, e) = (&mut self.presence, &mut self.rows, &mut self.exclusive_presence, &mut self.exclusives);
        let heads: Vec<usize> = edits.iter().map(|e| e.head).collect();
        let list = |f: fn(&Edit) -> i32| edits.iter().map(f).collect::<Vec<i32>>();
        let (x, y, radius) = (list(|e| e.x), list(|e| e.y), list(|e| e.radius));
        unsafe {
            watered_run(
                book.n, book.sides.as_ptr(), book.heads.as_mut_ptr(), heads.as_ptr(), heads.len(), x.as_ptr(), x.len(), y.as_ptr(), y.len(),
                radius.as_ptr(), radius.len(), answers.as_mut_ptr(), answers.len(), p.as_mut_ptr(), p.len(), r.as_mut_ptr(), r.len(),
                q.as_mut_ptr(), q.len(), e.as_mut_ptr(), e.len(),
            )
        }
    }

    pub fn lengths(&self) -> [usize; 4] {
        [self.presence.len(), self.rows.len(), self.exclusive_presence.len(), self.exclusives.len()]
    }

    // Bit for bit.
    pub fn same(&self, other: &Tables) -> bool {
        let bits = |l: &[f64]| l.iter().map(|x| x.to_bits()).collect::<Vec<u64>>();
        self.presence == other.presence
            && self.exclusive_presence == other.exclusive_presence
            && bits(&self.rows) == bits(&other.rows)
            && bits(&self.exclusives) == bits(&other.exclusives)
    }
}

// The slices of a call for gradients.
#[derive(Clone)]
pub struct Gradients {
    pub presence: Vec<u8>,
    pub exclusives: Vec<f64>,
    pub gradients: Vec<f64>,
}

impl Gradients {
    // At least so many rows and so many numbers.
    pub fn of(rows: usize, numbers: usize, random: &mut Random) -> Self {
        let more = random.whole(0, 5) as usize;
        let tables = Tables::of(rows, random);
        Gradients { presence: tables.presence, exclusives: tables.exclusives, gradients: vec![-0.625; numbers + more] }
    }

    pub fn boxed(&mut self, book: &Book) -> u32 {
        let (p, e, g) = (&mut self.presence, &mut self.exclusives, &mut self.gradients);
        unsafe {
            watered_gradients(
                book.n, book.sides.as_ptr(), book.heads.as_ptr(), p.as_mut_ptr(), p.len(), e.as_mut_ptr(), e.len(), g.as_mut_ptr(), g.len(),
            )
        }
    }

    pub fn open(&mut self, book: &Book) -> u32 {
        let (p, e, g) = (&mut self.presence, &mut self.exclusives, &mut self.gradients);
        unsafe {
            watered_open_gradients(
                book.n, book.sides.as_ptr(), book.heads.as_ptr(), p.as_mut_ptr(), p.len(), e.as_mut_ptr(), e.len(), g.as_mut_ptr(), g.len(),
            )
        }
    }
}
