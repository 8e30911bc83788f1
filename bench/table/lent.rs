// A plan and its tables as the C interface takes them, include/watered.h.

use crate::plans::{Plan, SIDES};

extern "C" {
    fn watered_afresh(
        n: usize, sides: *const i32, heads: *const i32, presence: *mut u8, presence_count: usize, rows: *mut f64, rows_count: usize,
        exclusive_presence: *mut u8, exclusive_presence_count: usize, exclusives: *mut f64, exclusives_count: usize,
    ) -> u32;
    fn watered_open_afresh(
        n: usize, sides: *const i32, heads: *const i32, presence: *mut u8, presence_count: usize, rows: *mut f64, rows_count: usize,
        exclusive_presence: *mut u8, exclusive_presence_count: usize, exclusives: *mut f64, exclusives_count: usize,
    ) -> u32;
    fn watered_edit(
        n: usize, sides: *const i32, heads: *mut i32, head: usize, x: i32, y: i32, radius: i32, presence: *mut u8, presence_count: usize,
        rows: *mut f64, rows_count: usize, exclusive_presence: *mut u8, exclusive_presence_count: usize, exclusives: *mut f64,
        exclusives_count: usize,
    ) -> u32;
    fn watered_gradients(
        n: usize, sides: *const i32, heads: *const i32, presence: *mut u8, presence_count: usize, exclusives: *mut f64,
        exclusives_count: usize, gradients: *mut f64, gradients_count: usize,
    ) -> u32;
    fn watered_open_gradients(
        n: usize, sides: *const i32, heads: *const i32, presence: *mut u8, presence_count: usize, exclusives: *mut f64,
        exclusives_count: usize, gradients: *mut f64, gradients_count: usize,
    ) -> u32;
}

struct Tables {
    presence: [u8; 1024],
    rows: [f64; 1024],
    exclusive_presence: [u8; 1024],
    exclusives: [f64; 1024],
}

// `tables` are those that edits change; `aside` those of calls that leave them alone.
pub struct Lent {
    n: usize,
    heads: [i32; 30],
    head: usize,
    here: [i32; 3],
    there: [i32; 3],
    tables: Box<Tables>,
    aside: Box<Tables>,
    gradients: Vec<f64>,
}

fn none() -> Box<Tables> {
    Box::new(Tables { presence: [0; 1024], rows: [0.0; 1024], exclusive_presence: [0; 1024], exclusives: [0.0; 1024] })
}

type Afresh =
    unsafe extern "C" fn(usize, *const i32, *const i32, *mut u8, usize, *mut f64, usize, *mut u8, usize, *mut f64, usize) -> u32;

impl Tables {
    // How many rows are there.
    fn count(&self, n: usize) -> usize {
        self.presence[..1 << n].iter().filter(|byte| **byte == 1).count()
    }

    fn afresh(&mut self, call: Afresh, n: usize, heads: &[i32; 30]) {
        let (p, r, q, e) = (&mut self.presence, &mut self.rows, &mut self.exclusive_presence, &mut self.exclusives);
        let (p, r, q, e) = (p.as_mut_ptr(), r.as_mut_ptr(), q.as_mut_ptr(), e.as_mut_ptr());
        let answer = unsafe { call(n, SIDES.as_ptr(), heads.as_ptr(), p, 1024, r, 1024, q, 1024, e, 1024) };
        assert_eq!(answer, 0, "refused");
    }
}

impl Lent {
    pub fn of(plan: &Plan) -> Lent {
        let mut heads = [0; 30];
        for (i, h) in plan.heads.iter().enumerate() {
            heads[3 * i..3 * i + 3].copy_from_slice(h);
        }
        let (n, at) = (plan.heads.len(), [0; 3]);
        Lent { n, heads, head: 0, here: at, there: at, tables: none(), aside: none(), gradients: vec![0.0; 34 * 1024] }
    }

    pub fn afresh(&mut self) -> usize {
        self.tables.afresh(watered_afresh, self.n, &self.heads);
        self.tables.count(self.n)
    }

    pub fn afresh_aside(&mut self) -> usize {
        self.aside.afresh(watered_afresh, self.n, &self.heads);
        1
    }

    pub fn open_afresh(&mut self) -> usize {
        self.aside.afresh(watered_open_afresh, self.n, &self.heads);
        1
    }

    pub fn gradients(&mut self) -> usize {
        let (p, e, g) = (self.aside.presence.as_mut_ptr(), self.aside.exclusives.as_mut_ptr(), self.gradients.as_mut_ptr());
        let count = self.gradients.len();
        let answer = unsafe { watered_gradients(self.n, SIDES.as_ptr(), self.heads.as_ptr(), p, 1024, e, 1024, g, count) };
        assert_eq!(answer, 0, "refused");
        1
    }

    pub fn open_gradients(&mut self) -> usize {
        let (p, e, g) = (self.aside.presence.as_mut_ptr(), self.aside.exclusives.as_mut_ptr(), self.gradients.as_mut_ptr());
        let count = self.gradients.len();
        let answer = unsafe { watered_open_gradients(self.n, SIDES.as_ptr(), self.heads.as_ptr(), p, 1024, e, 1024, g, count) };
        assert_eq!(answer, 0, "refused");
        1
    }

    // The head that is moved, and where to.
    pub fn moves(&mut self, head: usize, there: [i32; 3]) {
        self.head = head;
        self.here.copy_from_slice(&self.heads[3 * head..3 * head + 3]);
        self.there = there;
    }

    fn edit(&mut self, [x, y, radius]: [i32; 3]) -> usize {
        let t = &mut self.tables;
        let (p, r, q, e) = (t.presence.as_mut_ptr(), t.rows.as_mut_ptr(), t.exclusive_presence.as_mut_ptr(), t.exclusives.as_mut_ptr());
        let (sides, heads) = (SIDES.as_ptr(), self.heads.as_mut_ptr());
        let answer = unsafe { watered_edit(self.n, sides, heads, self.head, x, y, radius, p, 1024, r, 1024, q, 1024, e, 1024) };
        assert_eq!(answer, 0, "refused");
        1
    }

    pub fn there(&mut self) -> usize {
        self.edit(self.there)
    }

    pub fn back(&mut self) -> usize {
        self.edit(self.here)
    }
}
