//! Parts of exactly the limit, of one byte more, and between document 01's limit and this one. They run
//! one after the other on one thread, over long parts that all of them share.

use crate::memory::Long;
use crate::{Run, checks, hashes, lookups, notes, segments, strings, symbols, versions, words};
use fetulombo::LIMIT;

/// Which of them a run has.
#[derive(Clone, Copy, PartialEq, Eq)]
pub enum Limits {
    /// None: a memory checker would need hours.
    None,
    /// The refusals: of a part that is refused nothing is read.
    Refusals,
    /// Each part at the limit and past it.
    Some,
    /// The same at other places, and just below the limit.
    All,
}

/// The most bytes of a part in document 01; one byte more is refused there, and answered here.
pub const FORMER: usize = 16_777_216;

impl Limits {
    /// The lengths that a long part has.
    pub fn lengths(self) -> &'static [usize] {
        match self {
            Limits::None => &[],
            Limits::Refusals => &[LIMIT + 1],
            Limits::Some => &[FORMER + 1, LIMIT, LIMIT + 1],
            Limits::All => &[FORMER + 1, LIMIT - 1, LIMIT, LIMIT + 1],
        }
    }

    /// Whether parts that are not refused are lent.
    pub fn answered(self) -> bool {
        matches!(self, Limits::Some | Limits::All)
    }
}

/// The long parts. Who changes one renews it.
pub struct Parts {
    pub zeros: Long,
    pub letters: Long,
}

pub fn compare(run: &mut Run) {
    if run.limits == Limits::None {
        return;
    }
    assert_eq!(LIMIT, 1_073_741_824);
    let mut parts = Parts {
        zeros: Long::of(0),
        letters: Long::of(b'a'),
    };
    for compare in [
        words::limits,
        strings::limits,
        symbols::limits,
        hashes::limits,
        notes::limits,
        versions::limits,
        lookups::limits,
        checks::limits,
        segments::limits,
    ] {
        compare(run, &mut parts);
        parts.zeros.renew();
        parts.letters.renew();
    }
}
