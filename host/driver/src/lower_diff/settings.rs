//! Settings as a host may hand them over.

use gen::Rng;

/// Tuples, structs and most.
pub type Triple = [u64; 3];

/// The usual settings.
pub const USUAL: Triple = [1, 1, 8];

/// "A flag is on when its number is not 0": small numbers, and such as are 0 in their low half.
const FLAGS: [u64; 5] = [0, 1, 7, 1 << 32, u64::MAX];

/// Both flags off and on, as 1 and as 7, and every size to 17.
pub fn all_settings() -> Vec<Triple> {
    let flags = [0, 1, 7];
    let pairs = flags.iter().flat_map(|tuples| flags.iter().map(move |structs| (tuples, structs)));
    pairs.flat_map(|(tuples, structs)| (0..=17).map(|most| [*tuples, *structs, most])).collect()
}

/// The usual settings, and two others.
pub fn some_settings(rng: &mut Rng) -> Vec<Triple> {
    let mut any = || {
        let most = match rng.below(20) {
            0 => rng.pick(&[17, 18, 1 << 32, u64::MAX]),
            _ => rng.below(17) as u64,
        };
        [rng.pick(&FLAGS), rng.pick(&FLAGS), most]
    };
    vec![USUAL, any(), any()]
}
