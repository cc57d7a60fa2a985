//! Document 02's request l, 'Four bikes, one supply', on four wants and L: a model from the client's sentences.

pub const BIKES: usize = 4;

pub type Four = [u32; BIKES];

/// In 64 bits, since four wants of 32 bits may not sum in 32.
fn sum(four: Four) -> u64 {
    four.into_iter().map(u64::from).sum()
}

/// "each gets the lesser of its want and the .. level"
fn at_level(wants: Four, level: u32) -> Four {
    wants.map(|want| want.min(level))
}

/// "the greatest whole level at which the four still sum to at most L": every level is counted from 0 up. It is asked only where
/// the wants sum to more than L. Then no level is the greatest that isn't below the greatest want: from there on each gets its
/// want, and the four sum to more than L.
fn greatest_level(wants: Four, supply: u32) -> u32 {
    let most = wants.into_iter().max().unwrap();
    let mut greatest = 0;
    for level in 0..=most {
        if sum(at_level(wants, level)) <= u64::from(supply) {
            greatest = level;
        }
    }
    greatest
}

/// "If the wants sum to at most L each gets its own. Otherwise each gets the lesser of its want and the greatest whole level at
/// which the four still sum to at most L."
pub fn grants(wants: Four, supply: u32) -> Four {
    if sum(wants) <= u64::from(supply) { wants } else { at_level(wants, greatest_level(wants, supply)) }
}

/// "the sum is at most L, and each bike gets at least the lesser of its want and L / 4 rounded down"
pub fn claims_hold(wants: Four, supply: u32, grants: Four) -> bool {
    let quarter = supply / 4;
    sum(grants) <= u64::from(supply) && (0..BIKES).all(|bike| grants[bike] >= wants[bike].min(quarter))
}
