// Claims about identical heads ("the lower index owns the arc"), which are run and not proved: two alone have the one outline of the
// lower, a full circle; and in a set with two of them the higher gets no arc.

use crate::case::Case;
use crate::outlines::{our_arcs, OurArc};
use crate::plans::{twins_of, Plan};
use crate::tally::Tally;

pub const FUNCTIONS: [&str; 2] =
    ["identical heads alone: the lower one's full circle", "a set with two identical heads: no arc of the higher"];

// The full circle of a head as the Rust has it, of a plan of that head alone.
fn alone(tally: &mut Tally, case: &Case, head: usize) {
    let one = case.heads[head];
    let single = Case::of(Plan { heads: vec![one], sides: case.sides });
    let theirs = single.arcs(1);
    assert_eq!((theirs.len(), theirs[0].circle), (1, 0));
    let pair = Case::of_any(Plan { heads: vec![one, one], sides: case.sides });
    let ours = our_arcs(&pair, 3);
    let same = |a: &OurArc| {
        let (own, full) = ([a.start, a.end, a.delta], [theirs[0].phi_start, theirs[0].phi_end, theirs[0].delta_phi]);
        a.head == 0 && own.map(f64::to_bits) == full.map(f64::to_bits)
    };
    let right = ours.len() == 1 && same(&ours[0]);
    tally.whole("identical heads alone: the lower one's full circle", right as u64, 1, || pair.input());
}

pub fn compare(tally: &mut Tally, case: &Case) {
    let twins = twins_of(&case.heads);
    assert!(!twins.is_empty());
    tally.things("pairs of identical heads", twins.len());
    for &(i, j) in &twins {
        alone(tally, case, i);
        let both = 1 << i | 1 << j;
        for mask in (0..1usize << case.n).filter(|mask| mask & both == both) {
            let of_the_higher = our_arcs(case, mask).iter().filter(|arc| arc.head == j).count();
            let input = || format!("{}, set {mask:X}", case.input());
            tally.whole("a set with two identical heads: no arc of the higher", of_the_higher as u64, 0, input);
        }
    }
}
