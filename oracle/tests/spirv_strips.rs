//! The strips for the writer of SPIR-V words: well-formed, and with what they are for.

use oracle::format::{Layout, encode, kind, signature};
use oracle::rng::Rng;
use oracle::shape::shape_ok;
use oracle::spirv_strips::spirv_strip;

#[test]
fn strips_are_well_formed_and_have_every_kind() {
    let mut rng = Rng::new(1);
    let mut seen = [0u32; 256];
    let mut casts_of_casts = 0;
    for _ in 0..5000 {
        let strip = spirv_strip(&mut rng);
        assert!(shape_ok(&encode(&strip, Layout::Wide), Layout::Wide), "{strip:?}");
        // The entries that make values, by their numbers.
        let makers: Vec<_> = strip.iter().filter(|entry| signature(entry.kind).unwrap().result.is_some()).collect();
        let is_cast = |k: u8| matches!(k, kind::CAST_I | kind::CAST_U);
        for entry in &strip {
            seen[usize::from(entry.kind)] += 1;
            casts_of_casts += u32::from(is_cast(entry.kind) && is_cast(makers[usize::from(entry.refs()[0])].kind));
        }
    }
    for kind in (0..=255u8).filter(|kind| signature(*kind).is_some()) {
        assert!(seen[usize::from(kind)] > 500, "kind {kind}: {}", seen[usize::from(kind)]);
    }
    assert!(casts_of_casts > 500, "{casts_of_casts}");
}
