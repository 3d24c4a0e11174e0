//! Lists of the random families, and small ones that are about one thing each.

use super::accepted;
use crate::families;
use crate::fused;
use crate::layout::{word, OP_PLACES};
use crate::records::Records;
use crate::rng::Rng;
use crate::tape::tape;

/// Operation places and tape bytes of a list at most, so that there is room for many.
const MOST_PLACES: usize = 8 * OP_PLACES;
const MOST_BYTES: usize = 800;

/// Lists that compare in every bit.
pub fn exact(out: &mut Records) {
    fixed(out, 0);
    random(out, 0, &["matchgate", "reorder", "tails", "register", "opaque"]);
}

/// Lists with diagonal blocks: interactions, rotations, swaps times these.
pub fn angled(out: &mut Records) {
    fixed(out, 1);
    random(out, 1, &["angles", "angles", "tails", "register", "opaque"]);
}

/// Swaps by code and by matrix, and the small lists.
fn fixed(out: &mut Records, angled: u64) {
    for (list, bytes) in fused::fixed() {
        accepted(out, &list, &bytes, |c| c.report[word::ANGLED] == angled);
    }
}

/// One list of each family in turn, as long as there is room; one in five may have bad blocks.
fn random(out: &mut Records, angled: u64, names: &[&str]) {
    let mut rng = Rng::new(7 + angled);
    for k in 0..2000 {
        let family = families::find(names[k % names.len()]).expect("a family");
        let list = family(&mut rng.split());
        let bytes = tape(&list).expect("a tape");
        if bytes.len() <= MOST_BYTES {
            accepted(out, &list, &bytes, |c| {
                let free = c.report[word::FREE] == 1 || k / names.len() % 5 == 0;
                free && c.report[word::ANGLED] == angled && c.ops.len() <= MOST_PLACES
            });
        }
    }
}
