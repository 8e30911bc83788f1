// Lists of edits through the C interface. What an edit must leave is worked out here from document 01: the answer by its checks on the book,
// which is a plan and nothing more; the heads met by whole numbers; the sets by the Rust's discover_regions of the heads that are not closed,
// or, where two of these are identical, by the presence bytes of the afresh call. So both halves of demand 3 are looked at on every edit, on
// tables that are the plan's and on false ones.

use crate::case::Case;
use crate::closed::{self, left_out, Spread};
use crate::geometry::diagram::to_exclusive_areas;
use crate::inputs::{Head, Random};
use crate::lent::{Book, Edit, Tables};
use crate::plans::{Plan, Sides, CATEGORIES, TWINS};

// 0 is taken; of the refusals 11 is the highest
const ANSWERS: usize = 12;

#[derive(Default)]
struct Counts {
    lists: u64,
    twins: u64,
    edits: u64,
    // by answer
    answers: [u64; ANSWERS],
    false_tables: u64,
    kept: u64,
    reworked: u64,
    newly: u64,
    // rows newly present though the head met nobody, before or after
    newly_unmet: u64,
    gone: u64,
    // taken edits by whether the head is closed before and after; of `stays_closed` both
    closes: u64,
    opens: u64,
    stays_closed: u64,
    // rows kept that would be worked out anew, if a closed head on the edge of another met it
    kept_by_closed: u64,
    // rows gone or newly present where a head was closed or opened
    gone_by_closing: u64,
    newly_by_opening: u64,
    runs: u64,
    unacceptable: [u64; ANSWERS],
    differences: u64,
}

impl Counts {
    fn expect(&mut self, same: bool, what: impl Fn() -> String) {
        if !same {
            self.differences += 1;
            if self.differences <= 20 {
                println!("{}", what());
            }
        }
    }
}

// ---- document 01's checks, on the book

fn coordinate(v: i32) -> bool {
    (-20000..=20000).contains(&v)
}

fn radius(v: i32) -> bool {
    (0..=20000).contains(&v)
}

fn plan_answer(book: &Book) -> u32 {
    if book.n > 10 {
        return 2;
    }
    let [x, y, width, height] = book.sides;
    if !coordinate(x) || !coordinate(y) {
        return 4;
    }
    if [width, height].iter().any(|side| !(1..=40000).contains(side)) {
        return 5;
    }
    for head in book.heads[..3 * book.n].chunks(3) {
        if !coordinate(head[0]) || !coordinate(head[1]) {
            return 4;
        }
        if !radius(head[2]) {
            return 11;
        }
    }
    0
}

fn answer(book: &Book, edit: Edit, lent: [usize; 4]) -> u32 {
    match plan_answer(book) {
        0 if edit.head >= book.n => 6,
        0 if !coordinate(edit.x) || !coordinate(edit.y) => 4,
        0 if !radius(edit.radius) => 11,
        0 if lent.iter().any(|rows| *rows < book.rows()) => 7,
        other => other,
    }
}

fn applied(book: &Book, edit: Edit) -> Book {
    let mut after = book.clone();
    after.heads[3 * edit.head..3 * edit.head + 3].copy_from_slice(&[edit.x, edit.y, edit.radius]);
    after
}

// ---- document 01's rule of rows

// "Two heads meet exactly if t² ≤ D ≤ s² and they are not identical."
fn outlines_meet(a: (i64, i64, i64), b: (i64, i64, i64)) -> bool {
    let (d, t, s) = ((a.0 - b.0).pow(2) + (a.1 - b.1).pow(2), a.2 - b.2, a.2 + b.2);
    t * t <= d && d <= s * s && a != b
}

// Request 3: a closed head meets nothing.
fn meet(a: (i64, i64, i64), b: (i64, i64, i64)) -> bool {
    a.2 != 0 && b.2 != 0 && outlines_meet(a, b)
}

// Which masks are sets of the plan; `fresh` are its afresh tables.
fn sets(book: &Book, fresh: &Tables) -> Vec<bool> {
    let plan = book.plan();
    let (others, spread) = (left_out(&plan), Spread::over(&plan.heads));
    if !others.twins().is_empty() {
        return (0..book.rows()).map(|mask| mask > 0 && fresh.presence[mask] == 1).collect();
    }
    let mut found = vec![false; book.rows()];
    for mask in Case::of(others).found() {
        found[spread.mask(mask)] = true;
    }
    found
}

fn afresh(book: &Book) -> Tables {
    let rows = book.rows();
    let mut tables = Tables { presence: vec![9; rows], rows: vec![9.0; rows], exclusive_presence: vec![9; rows], exclusives: vec![9.0; rows] };
    assert_eq!(tables.afresh(book), 0, "{book:?}");
    tables
}

// A plan with its afresh tables and its sets.
struct Known {
    book: Book,
    fresh: Tables,
    sets: Vec<bool>,
}

impl Known {
    fn of(book: Book) -> Self {
        let fresh = afresh(&book);
        let sets = sets(&book, &fresh);
        Known { book, fresh, sets }
    }
}

// What a taken edit leaves of the tables handed in. Counts the rows where `counts` is given.
fn left(before: &Known, after: &Known, head: usize, handed: &Tables, mut counts: Option<&mut Counts>) -> Tables {
    let moved = [before.book.head(head), after.book.head(head)];
    let by = |rule: fn((i64, i64, i64), (i64, i64, i64)) -> bool| -> usize {
        let others = (0..after.book.n).filter(|j| *j != head);
        others.filter(|j| moved.iter().any(|h| rule(*h, after.book.head(*j)))).map(|j| 1 << j).sum()
    };
    let (met, met_by_outlines) = (by(meet), by(outlines_meet));
    let was_closed = moved[0].2 == 0;
    if let Some(counts) = counts.as_deref_mut() {
        match (was_closed, moved[1].2 == 0) {
            (false, true) => counts.closes += 1,
            (true, false) => counts.opens += 1,
            (true, true) => counts.stays_closed += 1,
            _ => (),
        }
    }
    let (mut tables, mut present) = (handed.clone(), std::collections::HashMap::new());
    for mask in 0..after.book.rows() {
        let reworked = mask & 1 << head != 0 || mask.count_ones() > 1 && mask & met != 0;
        let (is, was) = (mask == 0 || after.sets[mask], mask == 0 || before.sets[mask]);
        tables.presence[mask] = is as u8;
        tables.rows[mask] = match (is, reworked || !was) {
            (false, _) => 0.0,
            (true, true) => after.fresh.rows[mask],
            (true, false) => handed.rows[mask],
        };
        tables.exclusive_presence[mask] = is as u8;
        if is {
            present.insert(mask, tables.rows[mask]);
        }
        if let Some(counts) = counts.as_deref_mut() {
            counts.kept += (is && was && !reworked) as u64;
            counts.reworked += (is && was && reworked) as u64;
            counts.newly += (is && !was) as u64;
            counts.newly_unmet += (is && !was && met == 0) as u64;
            counts.gone += (was && !is) as u64;
            counts.kept_by_closed += (is && was && !reworked && mask.count_ones() > 1 && mask & met_by_outlines != 0) as u64;
            counts.gone_by_closing += (was && !is && moved[1].2 == 0) as u64;
            counts.newly_by_opening += (is && !was && was_closed) as u64;
        }
    }
    let exclusives = to_exclusive_areas(&present);
    for mask in 0..after.book.rows() {
        let area = *exclusives.get(&mask).unwrap_or(&0.0);
        tables.exclusives[mask] = if area == 0.0 { 0.0 } else { area };
    }
    tables
}

// ---- plans and edits

// Three heads that overlap, with others that hold them all: where one of those leaves, sets of the three become present by containment.
fn nested(random: &mut Random) -> Plan {
    let (x, y, r) = (random.whole(-2000, 2000), random.whole(-2000, 2000), random.whole(20, 400));
    let head = |x: i64, y: i64, r: i64| Head { x: x as f64, y: y as f64, r: r as f64 };
    let mut heads: Vec<Head> = (0..3)
        .map(|i| head(x + if i == 1 { r * 3 / 5 } else { 0 }, y + if i == 2 { r * 3 / 5 } else { 0 }, r))
        .collect();
    for i in 1..=random.whole(1, 4) {
        heads.insert((random.next() % (heads.len() as u64 + 1)) as usize, head(x, y, 10 * r * i));
    }
    Plan { heads, sides: Sides { x: x as f64, y: y as f64, width: (4 * r) as f64, height: (6 * r) as f64 } }
}

fn some_book(random: &mut Random) -> Book {
    loop {
        let plan = match random.whole(0, 11) {
            0 => nested(random),
            10 | 11 => {
                let n = random.whole(1, 10);
                closed::plan(n as usize, random.whole(0, n) as usize, true, random)
            }
            1 | 2 => (TWINS[(random.next() % TWINS.len() as u64) as usize].plan)(random),
            _ => (CATEGORIES[(random.next() % CATEGORIES.len() as u64) as usize].plan)(random),
        };
        if let Some(book) = Book::of(&plan, random) {
            if plan_answer(&book) == 0 {
                return book;
            }
        }
    }
}

fn outside(random: &mut Random) -> i32 {
    [20001, -20001, i32::MAX, i32::MIN, 20001 + random.whole(0, 100000) as i32][(random.next() % 5) as usize]
}

fn no_radius(random: &mut Random) -> i32 {
    [-1, -1, 20001, i32::MIN, i32::MAX][(random.next() % 5) as usize]
}

fn no_head(book: &Book, random: &mut Random) -> usize {
    [book.n, book.n + 1, 10, 30, usize::MAX][(random.next() % 5) as usize].max(book.n)
}

// A head of the plan moved so that it lies to another as such heads do: identical, concentric, touching, or anywhere; closed where it is, at
// the other's centre or edge; or, if it is closed, opened.
fn placed(book: &Book, head: usize, random: &mut Random) -> (i64, i64, i64) {
    let (x, y, r) = book.head(head);
    let (ox, oy, other) = book.head((random.next() % book.n as u64) as usize);
    let most = if random.sign() > 0 { 30 } else { 3000 };
    match random.whole(0, 12) {
        0 => (ox, oy, other),
        1 => (ox, oy, random.whole(1, 20000)),
        2 => (ox + r + other, oy, r),
        3 => (ox, oy + other - r, r),
        4 => (random.whole(-20000, 20000), random.whole(-20000, 20000), random.whole(1, 20000)),
        5 => (if x < 0 { 19000 } else { -19000 }, if y < 0 { 19000 } else { -19000 }, r),
        6 => (x, y, r),
        7 => (x, y, (r + random.whole(-3, 3)).max(0)),
        8 => (x, y, 0),
        9 => [(ox, oy, 0), (ox + other, oy, 0), (ox, oy - other, 0)][(random.next() % 3) as usize],
        10 if r == 0 => (x, y, random.whole(1, most)),
        _ => (x + random.whole(-40, 40), y + random.whole(-40, 40), r),
    }
}

fn some_edit(book: &Book, random: &mut Random) -> Edit {
    if book.n == 0 {
        return Edit { head: no_head(book, random), x: 0, y: 0, radius: 1 };
    }
    let head = (random.next() % book.n as u64) as usize;
    let (x, y, r) = placed(book, head, random);
    let mut edit = Edit { head, x: x.clamp(-20000, 20000) as i32, y: y.clamp(-20000, 20000) as i32, radius: r.clamp(0, 20000) as i32 };
    // one in four is wrong in a field, and of these one in three in another too
    for _ in 0..if random.whole(0, 3) == 0 { random.whole(1, 3).max(1) - random.whole(0, 1).min(1) } else { 0 } {
        match random.whole(0, 3) {
            0 => edit.x = outside(random),
            1 => edit.y = outside(random),
            2 => edit.radius = no_radius(random),
            _ => edit.head = no_head(book, random),
        }
    }
    edit
}

// The lengths lent: one in eight has a table of too few rows, or of none.
fn some_lengths(tables: &Tables, book: &Book, random: &mut Random) -> [usize; 4] {
    let mut lent = tables.lengths();
    if random.whole(0, 7) == 0 {
        let short = if random.whole(0, 3) == 0 { 0 } else { random.whole(0, book.rows() as i64 - 1) as usize };
        lent[(random.next() % 4) as usize] = short;
    }
    lent
}

// Mostly short lists, and some of up to 200.
fn some_length(random: &mut Random) -> usize {
    (match random.whole(0, 9) {
        0..=6 => random.whole(1, 8),
        7 | 8 => random.whole(9, 30),
        _ => random.whole(31, 200),
    }) as usize
}

// ---- the run

// One edit of the tables handed in, held against the rule.
fn one(counts: &mut Counts, before: &Known, after: Option<&Known>, edit: Edit, lent: [usize; 4], tables: &mut Tables, counted: bool) {
    let what = |of: &str| format!("{of}: {edit:?} of {:?}, lent {lent:?}", before.book);
    let (handed, mut book) = (tables.clone(), before.book.clone());
    let given = tables.edit(&mut book, edit, lent);
    counts.expect(given == answer(&before.book, edit, lent), || what(&format!("answer {given}")));
    let (left_book, left_tables) = match after {
        Some(known) => (&known.book, left(before, known, edit.head, &handed, counted.then_some(&mut *counts))),
        None => (&before.book, handed),
    };
    counts.expect(book == *left_book, || what("the plan left"));
    counts.expect(tables.same(&left_tables), || what("the tables left"));
}

// Rows and exclusives of a table are the plan's.
fn is_fresh(tables: &Tables, known: &Known, exclusives: bool) -> bool {
    let rows = known.book.rows();
    let bits = |l: &[f64]| l[..rows].iter().map(|x| x.to_bits()).collect::<Vec<u64>>();
    let fresh = &known.fresh;
    tables.presence[..rows] == fresh.presence[..]
        && bits(&tables.rows) == bits(&fresh.rows)
        && (!exclusives || tables.exclusive_presence[..rows] == fresh.exclusive_presence[..] && bits(&tables.exclusives) == bits(&fresh.exclusives))
}

// The list at one call, from the plan's afresh rows, with exclusives that may be false; it is held against the book alone.
fn whole_list(counts: &mut Counts, start: &Known, edits: &[Edit], random: &mut Random) {
    let mut tables = Tables::of(start.book.rows(), random);
    let false_ones = (tables.exclusive_presence.clone(), tables.exclusives.clone());
    assert_eq!(tables.afresh(&start.book), 0);
    let false_exclusives = random.sign() > 0;
    if false_exclusives {
        (tables.exclusive_presence, tables.exclusives) = false_ones;
    }
    let handed = tables.clone();
    let room = if random.whole(0, 3) == 0 { random.whole(0, edits.len() as i64 + 3) as usize } else { edits.len() };
    let mut answers = vec![99; room];
    let (mut book, mut kept) = (start.book.clone(), start.book.clone());
    let count = tables.run(&mut book, edits, &mut answers);
    let mut want = vec![99; room];
    let tried = room.min(edits.len());
    for (i, edit) in edits[..tried].iter().enumerate() {
        let given = answer(&kept, *edit, tables.lengths());
        want[i] = given as u8;
        if given == 0 {
            kept = applied(&kept, *edit);
        }
    }
    let any = want[..tried].contains(&0);
    let what = |of: &str| format!("a run: {of}: {edits:?} of {:?}", start.book);
    counts.runs += 1;
    counts.expect(count == tried && answers == want, || what("count or answers"));
    counts.expect(book == kept, || what("the plan left"));
    let end = Known { fresh: afresh(&kept), sets: vec![], book: kept };
    let right = if any { is_fresh(&tables, &end, true) } else { tables.same(&handed) };
    counts.expect(right, || what("the tables left"));
    let rows = start.book.rows();
    let beyond = |t: &Tables| {
        let bits = |l: &[f64]| l[rows..].iter().map(|x| x.to_bits()).collect::<Vec<u64>>();
        (t.presence[rows..].to_vec(), bits(&t.rows), t.exclusive_presence[rows..].to_vec(), bits(&t.exclusives))
    };
    counts.expect(beyond(&tables) == beyond(&handed), || what("what stands beyond the rows"));
}

fn list(counts: &mut Counts, book: Book, length: usize, random: &mut Random) {
    let start = Known::of(book);
    let mut known = Known { book: start.book.clone(), fresh: start.fresh.clone(), sets: start.sets.clone() };
    let mut tables = Tables::of(known.book.rows(), random);
    assert_eq!(tables.afresh(&known.book), 0);
    let mut edits = vec![];
    counts.lists += 1;
    let mut twins = false;
    for _ in 0..length {
        twins |= !left_out(&known.book.plan()).twins().is_empty();
        let edit = some_edit(&known.book, random);
        let lent = some_lengths(&tables, &known.book, random);
        let given = answer(&known.book, edit, lent);
        let after = (given == 0).then(|| Known::of(applied(&known.book, edit)));
        counts.edits += 1;
        counts.answers[given as usize] += 1;
        let mut false_tables = Tables::filled(tables.lengths(), random);
        one(counts, &known, after.as_ref(), edit, lent, &mut tables, true);
        one(counts, &known, after.as_ref(), edit, lent, &mut false_tables, false);
        counts.false_tables += 1;
        edits.push(edit);
        if let Some(after) = after {
            counts.expect(is_fresh(&tables, &after, true), || format!("stale after {edits:?} of {:?}", start.book));
            known = after;
        }
    }
    counts.twins += twins as u64;
    counts.expect(is_fresh(&tables, &known, true), || format!("stale at the end: {edits:?} of {:?}", start.book));
    whole_list(counts, &start, &edits, random);
}

// A plan that is itself not acceptable: its own first failed check is the answer of every call, and nothing is written.
fn unacceptable(counts: &mut Counts, mut book: Book, random: &mut Random) {
    let rows = book.rows();
    let head = 3 * (random.next() % book.n.max(1) as u64) as usize;
    for _ in 0..random.whole(1, 2) {
        match random.whole(0, 6) {
            0 => book.n = [11, 12, 64, 1 << 40, usize::MAX][(random.next() % 5) as usize],
            1 => book.sides[(random.next() % 2) as usize] = outside(random),
            2 | 3 => book.sides[2 + (random.next() % 2) as usize] = [0, -1, 40001, i32::MAX, i32::MIN][(random.next() % 5) as usize],
            4 if book.n > 0 => book.heads[head + (random.next() % 2) as usize] = outside(random),
            _ if book.n > 0 => book.heads[head + 2] = no_radius(random),
            _ => book.sides[2] = 0,
        }
    }
    let lengths = [rows; 4].map(|n| if random.whole(0, 3) == 0 { random.whole(0, n as i64) as usize } else { n });
    let mut tables = Tables::filled(lengths, random);
    let (handed, before) = (tables.clone(), book.clone());
    let want = plan_answer(&book);
    let edit = some_edit(&Book { n: book.n.min(10), ..book.clone() }, random);
    let mut told = [9; 3];
    let given = [tables.edit(&mut book, edit, lengths), tables.afresh(&book), tables.open_afresh(&book)];
    let count = tables.run(&mut book, &[edit; 3], &mut told);
    let right = given == [want; 3] && count == 3 && told == [want as u8; 3];
    counts.unacceptable[want as usize] += 1;
    counts.expect(want > 0 && right && book == before && tables.same(&handed), || format!("not acceptable: {edit:?} of {before:?}: {given:?}"));
}

// Five heads, the last of which leaves, or is closed where it is, without ever having met one: set 007 becomes present.
fn example() -> (Book, [Edit; 2]) {
    let mut heads = [0; 30];
    heads[..15].copy_from_slice(&[0, 0, 50, 30, 0, 50, 0, 30, 50, 0, 0, 1000, 0, 0, 2000]);
    let edits = [Edit { head: 4, x: 9000, y: 0, radius: 2000 }, Edit { head: 4, x: 0, y: 0, radius: 0 }];
    (Book { n: 5, sides: [0, 0, 40000, 40000], heads }, edits)
}

pub fn compare(number: u64, seed: u64) {
    let (mut counts, mut random) = (Counts::default(), Random::of(seed, 800));
    let (book, edits) = example();
    for edit in edits {
        let (before, after) = (Known::of(book.clone()), Known::of(applied(&book, edit)));
        let lent = [before.book.rows(); 4];
        let met = counts.newly_unmet;
        one(&mut counts, &before, Some(&after), edit, lent, &mut before.fresh.clone(), true);
        counts.expect(counts.newly_unmet > met, || "document 01's rule of rows newly present was not met".to_string());
    }
    for _ in 0..number {
        let book = some_book(&mut random);
        let length = some_length(&mut random);
        if random.whole(0, 3) == 0 {
            unacceptable(&mut counts, book.clone(), &mut random);
        }
        list(&mut counts, book, length, &mut random);
    }
    let c = &counts;
    println!("seed {seed}: {} lists, {} of them with identical heads, {} edits, as many again on false tables ({})", c.lists, c.twins, c.edits, c.false_tables);
    let [taken, r4, r6, r7, r11] = [0, 4, 6, 7, 11].map(|number| c.answers[number]);
    println!("{taken} edits taken; refused {r4} by 4, {r6} by 6, {r7} by 7, {r11} by 11");
    let [n2, n4, n5, n11] = [2, 4, 5, 11].map(|number| c.unacceptable[number]);
    println!("{} plans not acceptable: {n2} by 2, {n4} by 4, {n5} by 5, {n11} by 11", c.unacceptable.iter().sum::<u64>());
    println!("rows: {} kept, {} worked out anew, {} newly present, {} gone", c.kept, c.reworked, c.newly, c.gone);
    println!("{} rows newly present though the head met nobody", c.newly_unmet);
    println!("{} edits closed a head, which took {} rows; {} opened one, which brought {}", c.closes, c.gone_by_closing, c.opens, c.newly_by_opening);
    println!("{} moved a closed head; {} rows kept though a closed one stood or stands on an edge of theirs", c.stays_closed, c.kept_by_closed);
    println!("{} lists run at one call; {} differences", c.runs, c.differences);
    let all_seen = [taken, r4, r6, r7, r11, n2, n4, n5, n11, c.twins, c.kept, c.newly].iter().all(|number| *number > 0);
    let of_closed = [c.closes, c.opens, c.stays_closed, c.kept_by_closed, c.gone_by_closing, c.newly_by_opening];
    let closed_seen = of_closed.iter().all(|number| *number > 0);
    if c.differences > 0 || !all_seen || !closed_seen {
        std::process::exit(1);
    }
}
