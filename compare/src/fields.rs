//! Every leaf bitfield of depth 3 and 4, with right sums and pins on some leaves: exactly 17 and 48 are good. And every pin bitfield with
//! each good one of depth 3: those are good that have pins on leaves alone.

use second::panel::{with_right_sums, Panel};

use crate::random::Random;
use crate::subject::{Asked, Subject};
use crate::tally::{Compared, Difference, Tally};

/// Every bitfield with a bit for each place of this depth.
pub fn fields(depth: u32) -> impl Iterator<Item = Vec<bool>> {
    let places = 1u32 << depth;
    (0..1u64 << places).map(move |x| (0..places).map(|p| x >> p & 1 == 1).collect())
}

/// All good panels of this depth, without pins.
pub fn good(depth: u32) -> Vec<Panel> {
    fields(depth).filter_map(|bits| Panel::read(&with_right_sums(depth, &bits, &[])).ok()).collect()
}

/// Every call on these panels, of which so many are good.
fn count_good(
    tally: &mut Tally,
    random: &mut Random,
    depth: u32,
    panels: impl Iterator<Item = Vec<u8>>,
    right: u32,
) -> Compared {
    let asked = Asked::all(depth);
    let mut good = 0;
    for bytes in panels {
        let mut subject = Subject::read(tally, random, &bytes);
        subject.every_call(&asked)?;
        good += u32::from(subject.is_good());
    }
    if good != right {
        return Err(Difference(format!("{good} bitfields of depth {depth} are good, not {right}")));
    }
    Ok(())
}

pub fn all(tally: &mut Tally, random: &mut Random) -> Compared {
    for (depth, right) in [(3, 17), (4, 48)] {
        let mut pins = Random(random.next()); // of its own: the calls take the other
        let panels = fields(depth).map(|bits| {
            let pinned: Vec<bool> = bits.iter().map(|leaf| *leaf && pins.once_in(4)).collect();
            with_right_sums(depth, &bits, &pinned)
        });
        count_good(tally, random, depth, panels, right)?;
    }
    for panel in good(3) {
        let leaf_bits = panel.leaf_bits();
        let panels = fields(3).map(|pins| with_right_sums(3, &leaf_bits, &pins));
        count_good(tally, random, 3, panels, 1 << panel.leaves().len())?;
    }
    Ok(())
}
