//! Whether a closed set has a smaller closed set in it, in books with O lines that are too large for trying every subset.
//! On tiny books this is compared with trying them all (plain.rs).

use crate::meaning::{all_in, Conclusions, Given};

/// Whether some proper subset of S, which is closed, is closed too: one that lacks some member of S.
pub fn has_smaller(reduct: &[Given], s: &Conclusions) -> bool {
    s.members().into_iter().any(|lacking| grows(reduct, Conclusions::NONE, without(s, lacking)))
}

/// The set without one of its members.
fn without(set: &Conclusions, member: i32) -> Conclusions {
    let mut less = *set;
    let side = if member > 0 { &mut less.held } else { &mut less.denied };
    *side &= !(1 << (member.abs() - 1));
    less
}

/// Whether some closed set has all of `inside` and lies within `most`. A rule that is not met yet is met by one of its
/// heads: each is tried in turn, and is left out from then on.
fn grows(reduct: &[Given], mut inside: Conclusions, mut most: Conclusions) -> bool {
    loop {
        let unmet = reduct.iter().filter(|rule| all_in(rule.needed, &inside) && !rule.given_in(&inside));
        let possible = unmet.map(|rule| rule.heads.iter().copied().filter(|head| *head != 0 && most.has(*head)));
        let Some(heads) = possible.map(|heads| heads.collect::<Vec<i32>>()).min_by_key(Vec::len) else {
            return true;
        };
        let Some((last, others)) = heads.split_last() else {
            return false;
        };
        for head in others {
            let mut more = inside;
            more.put(*head);
            if grows(reduct, more, most) {
                return true;
            }
            most = without(&most, *head);
        }
        if !most.has(*last) {
            return false;
        }
        inside.put(*last);
    }
}
