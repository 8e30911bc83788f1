//! The life of a drawing window: what examples/window.c does and prints, from Rust. Module `watered` is all that a Rust program needs of the
//! library; examples/README.md says how this is built.

mod watered {
    //! Safe calls: slices in, `Result` out. What include/watered.h asks of a caller, the types give: a slice is never null and is whole, and
    //! two `&mut` never overlap. A table that is too short is refused by the library itself.

    /// How many heads a plan may have.
    pub const HEADS: usize = 10;

    /// A plan as the library takes it; numbers of `heads` past the first `n` heads change nothing.
    #[derive(Clone, Copy, PartialEq)]
    pub struct Plan {
        pub n: usize,
        pub ground: [i32; 4],
        pub heads: [i32; 3 * HEADS],
    }

    /// Both tables of a plan; rows 0 to 2^n - 1 are in use.
    #[derive(Clone)]
    pub struct Tables {
        pub presence: Vec<u8>,
        pub rows: Vec<f64>,
        pub exclusive_presence: Vec<u8>,
        pub exclusives: Vec<f64>,
    }

    impl Tables {
        pub fn of(heads: usize) -> Tables {
            let count = 1 << heads.min(HEADS);
            Tables { presence: vec![0; count], rows: vec![0.0; count], exclusive_presence: vec![0; count], exclusives: vec![0.0; count] }
        }
    }

    /// The number of the first check that failed. Nothing was written.
    #[derive(Debug)]
    pub struct Refused(pub u32);

    impl std::fmt::Display for Refused {
        fn fmt(&self, out: &mut std::fmt::Formatter) -> std::fmt::Result {
            let words = match self.0 {
                2 => "there are more than ten heads",
                4 => "x or y is outside -20000 to 20000",
                5 => "a side of the box is outside 1 to 40000",
                6 => "there is no head of this number",
                7 => "the tables are too short",
                11 => "a radius is outside 0 to 20000",
                _ => "a number that this program does not know",
            };
            write!(out, "refused {}, {words}", self.0)
        }
    }

    /// The calls that this program needs, as the header declares them.
    mod raw {
        extern "C" {
            #[rustfmt::skip]
            pub fn watered_afresh(n: usize, ground: *const i32, heads: *const i32, presence: *mut u8, presence_count: usize, rows: *mut f64, rows_count: usize,
                exclusive_presence: *mut u8, exclusive_presence_count: usize, exclusives: *mut f64, exclusives_count: usize) -> u32;
            #[rustfmt::skip]
            pub fn watered_edit(n: usize, ground: *const i32, heads: *mut i32, head: usize, x: i32, y: i32, radius: i32,
                presence: *mut u8, presence_count: usize, rows: *mut f64, rows_count: usize,
                exclusive_presence: *mut u8, exclusive_presence_count: usize, exclusives: *mut f64, exclusives_count: usize) -> u32;
            #[rustfmt::skip]
            pub fn watered_gradients(n: usize, ground: *const i32, heads: *const i32, presence: *mut u8, presence_count: usize,
                exclusives: *mut f64, exclusives_count: usize, gradients: *mut f64, gradients_count: usize) -> u32;
            pub fn watered_overlap(n: usize, ground: *const i32, heads: *const i32, overlap: *mut f64) -> u32;
        }
    }

    fn answered(answer: u32) -> Result<(), Refused> {
        if answer == 0 { Ok(()) } else { Err(Refused(answer)) }
    }

    pub fn afresh(p: &Plan, t: &mut Tables) -> Result<(), Refused> {
        let (a, b, c, d) = (&mut t.presence[..], &mut t.rows[..], &mut t.exclusive_presence[..], &mut t.exclusives[..]);
        answered(unsafe {
            raw::watered_afresh(p.n, p.ground.as_ptr(), p.heads.as_ptr(), a.as_mut_ptr(), a.len(), b.as_mut_ptr(), b.len(),
                c.as_mut_ptr(), c.len(), d.as_mut_ptr(), d.len())
        })
    }

    pub fn edit(p: &mut Plan, head: usize, to: [i32; 3], t: &mut Tables) -> Result<(), Refused> {
        let (a, b, c, d) = (&mut t.presence[..], &mut t.rows[..], &mut t.exclusive_presence[..], &mut t.exclusives[..]);
        answered(unsafe {
            raw::watered_edit(p.n, p.ground.as_ptr(), p.heads.as_mut_ptr(), head, to[0], to[1], to[2], a.as_mut_ptr(), a.len(),
                b.as_mut_ptr(), b.len(), c.as_mut_ptr(), c.len(), d.as_mut_ptr(), d.len())
        })
    }

    pub fn gradients(p: &Plan, presence: &mut [u8], exclusives: &mut [f64], gradients: &mut [f64]) -> Result<(), Refused> {
        answered(unsafe {
            raw::watered_gradients(p.n, p.ground.as_ptr(), p.heads.as_ptr(), presence.as_mut_ptr(), presence.len(),
                exclusives.as_mut_ptr(), exclusives.len(), gradients.as_mut_ptr(), gradients.len())
        })
    }

    pub fn overlap(p: &Plan) -> Result<f64, Refused> {
        let mut area = 0.0;
        answered(unsafe { raw::watered_overlap(p.n, p.ground.as_ptr(), p.heads.as_ptr(), &mut area) }).map(|()| area)
    }
}

use watered::{Plan, Refused, Tables};

/// All that a window keeps of a plan, and all the state there is: the library has none.
#[derive(Clone)]
struct Window {
    plan: Plan,
    tables: Tables,
}

/// The heads of a set by their numbers, such as 0,2.
fn set_of(mask: usize) -> String {
    let heads: Vec<String> = (0..watered::HEADS).filter(|i| mask >> i & 1 == 1).map(|i| i.to_string()).collect();
    if heads.is_empty() { "none".to_string() } else { heads.join(",") }
}

impl Window {
    /// Both tables; areas come in square centimetres. A row without presence is no row.
    fn show(&self) {
        println!("  {:<8} {:>12} {:>12}", "heads", "together", "alone");
        let t = &self.tables;
        for mask in (0..1 << self.plan.n).filter(|&mask| t.presence[mask] == 1) {
            println!("  {:<8} {:>12.2} {:>12.2}", set_of(mask), t.rows[mask] / 1e4, t.exclusives[mask] / 1e4);
        }
    }

    /// Plan and tables in every bit: `==` of floats would take -0 for +0.
    fn same(&self, other: &Window) -> bool {
        let bits = |numbers: &[f64]| numbers.iter().map(|v| v.to_bits()).collect::<Vec<u64>>();
        let (a, b) = (&self.tables, &other.tables);
        self.plan == other.plan && a.presence == b.presence && bits(&a.rows) == bits(&b.rows)
            && a.exclusive_presence == b.exclusive_presence && bits(&a.exclusives) == bits(&b.exclusives)
    }

    /// One drag. A refused edit leaves plan and tables as they were: there is nothing to undo. Here that is looked at; a window need not.
    fn drag(&mut self, head: usize, to: [i32; 3]) {
        let before = self.clone();
        print!("\nhead {head} to ({}, {}), radius {}: ", to[0], to[1], to[2]);
        match watered::edit(&mut self.plan, head, to, &mut self.tables) {
            Ok(()) => {
                println!("taken");
                self.show();
            }
            Err(refused) => {
                println!("{refused}");
                println!("  {}", if self.same(&before) { "nothing changed" } else { "SOMETHING CHANGED" });
            }
        }
    }

    /// With radius 0 a head is closed: it keeps its number and its place, and its rows are absent. It is the window that remembers the radius. Opened
    /// again, it leaves plan and tables as they were before.
    fn switch_off_and_on(&mut self, head: usize) {
        let before = self.clone();
        let [x, y, radius] = [0, 1, 2].map(|i| before.plan.heads[3 * head + i]);
        self.drag(head, [x, y, 0]);
        self.drag(head, [x, y, radius]);
        let same = if self.same(&before) { "are, bit for bit," } else { "ARE NOT" };
        println!("  plan and tables {same} those from before head {head} was closed");
    }

    /// How the ground that only the heads of a set water grows with every number of the plan.
    fn show_gradient(&self, mask: usize) -> Result<(), Refused> {
        let n = self.plan.n;
        let (count, width) = (1 << n, 3 * n + 4);
        let (mut presence, mut exclusives, mut gradients) = (vec![0; count], vec![0.0; count], vec![0.0; count * width]);
        watered::gradients(&self.plan, &mut presence, &mut exclusives, &mut gradients)?;
        let (heads, ground) = gradients[mask * width..(mask + 1) * width].split_at(3 * n);
        println!("\nwhat heads {} water alone, in m2 for each metre", set_of(mask));
        println!("  {:<8} {:>8} {:>8} {:>8}", "by", "x", "y", "radius");
        for (i, by) in heads.chunks(3).enumerate() {
            println!("  head {i:<3} {:>8.2} {:>8.2} {:>8.2}", by[0] / 100.0, by[1] / 100.0, by[2] / 100.0);
        }
        println!("  {:<8} {:>8.2} {:>8.2}", "box", ground[0] / 100.0, ground[1] / 100.0);
        println!("  and in m2 by ln(width*height) {:.2}, by ln(width/height) {:.2}", ground[2] / 1e4, ground[3] / 1e4);
        Ok(())
    }

    /// The promise of the library: after any edits the tables are those worked out from the plan left, in every bit.
    fn hold_against_afresh(&self) -> Result<(), Refused> {
        let mut fresh = Window { plan: self.plan, tables: Tables::of(self.plan.n) };
        watered::afresh(&fresh.plan, &mut fresh.tables)?;
        println!("\nthe edited tables {} those worked out afresh", if self.same(&fresh) { "are, bit for bit," } else { "ARE NOT" });
        Ok(())
    }
}

fn life() -> Result<(), Refused> {
    let mut heads = [0; 3 * watered::HEADS];
    heads[..9].copy_from_slice(&[-350, -150, 380, 150, -80, 350, 100, 250, 300]);
    let plan = Plan { n: 3, ground: [0, 0, 1200, 900], heads };
    let mut w = Window { plan, tables: Tables::of(plan.n) };

    watered::afresh(&w.plan, &mut w.tables)?;
    println!("ground of {:.2} by {:.2} m, {} heads, areas in m2", plan.ground[2] as f64 / 1e2, plan.ground[3] as f64 / 1e2, plan.n);
    w.show();

    w.drag(2, [450, 300, 300]);
    w.drag(1, [150, -80, -1]);
    w.switch_off_and_on(1);
    w.drag(2, [-120, 150, 320]);
    w.hold_against_afresh()?;

    w.show_gradient(1)?;
    println!("\nall {} heads together, without the box: {:.2} m2", w.plan.n, watered::overlap(&w.plan)? / 1e4);
    Ok(())
}

fn main() {
    if let Err(refused) = life() {
        eprintln!("window: {refused}");
        std::process::exit(1);
    }
}
