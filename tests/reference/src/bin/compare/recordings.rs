//! Generated recordings: streams as whole byte strings, from small to about 100 KB.

use crate::rng::Rng;
use crate::streams::{stream, Shape};

/// The recording of a seed: one stream, or several one after another.
pub fn recording(seed: u64) -> Vec<u8> {
    let rng = &mut Rng::new(seed ^ 0x7265_636f_7264);
    let size = *rng.pick(&[200, 1000, 2000, 4000, 8000, 20_000, 100_000]);
    let mut bytes = Vec::new();
    loop {
        let shape = Shape {
            commands: rng.within(1, 40),
            damage: *rng.pick(&[0, 0, 3, 12]),
            noise: *rng.pick(&[0, 5, 30]),
            big: *rng.pick(&[0, 2, 30, 70]),
        };
        let chunks = stream(rng, &shape).chunks;
        bytes.extend(chunks.concat());
        if bytes.len() >= size {
            break;
        }
    }
    bytes.truncate(130_000);
    bytes
}
