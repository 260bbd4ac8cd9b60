//! A deterministic stream of bundles, and one of remapping lists. The bundle of a seed and an index does not depend on those
//! before it.

mod cases;
mod clashes;
mod families;
pub mod lines;
pub mod link;
pub mod lookup;
mod project;
mod reach;
pub mod rng;
mod shapes;
mod stats;
mod tree;

pub use cases::{case, CASES};
pub use clashes::{clash, WORDS};
pub use families::{Family, FAMILIES, FAR};
pub use reach::Reach;
pub use rng::Rng;
pub use shapes::{shape, SHAPES};
pub use stats::stats;

/// No tree of a generated bundle has more entries than this, written out.
pub const LARGEST: usize = 8_000;

/// One of `families`, by weight.
fn any<'a>(rng: &mut Rng, families: &'a [Family]) -> &'a Family {
    &families[rng.weighted(families.iter().map(|family| family.weight))]
}

/// The bundle `index` of the stream of `seed`, of one family or of all by weight.
pub fn bundle(seed: u64, index: u64, family: Option<&Family>) -> Vec<u8> {
    let mut rng = Rng::new(seed, index);
    let family = family.unwrap_or_else(|| any(&mut rng, FAMILIES));
    made(&mut rng, family)
}

/// The same of the stream that reaches far: sizes up to the limits, each as often as any other.
pub fn far_bundle(seed: u64, index: u64) -> Vec<u8> {
    let mut rng = Rng::new(seed, index);
    let family = any(&mut rng, FAR);
    made(&mut rng, family)
}

fn made(rng: &mut Rng, family: &Family) -> Vec<u8> {
    loop {
        let bytes = (family.make)(rng);
        if !family.measured || !link::run(&bytes, LARGEST).too_large {
            return bytes;
        }
    }
}
