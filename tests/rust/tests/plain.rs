//! The plain extractor hears what the reference hears.

use std::collections::BTreeSet;

use itzahuemo_reference::calls::Reference;
use itzahuemo_reference::hearing::plain_session;

#[test]
fn the_plain_extractor_hears_what_the_reference_hears() {
    let (mut refusals, mut steps, mut reasons): (BTreeSet<_>, BTreeSet<_>, BTreeSet<_>) =
        Default::default();
    for seed in 0..20_000 {
        let heard = plain_session(&Reference, seed)
            .unwrap_or_else(|difference| panic!("seed {seed}: {difference}"));
        for event in heard {
            match event.numbers[..] {
                [refusal] => refusals.insert(refusal),
                [what, _, damage] => steps.insert((what, damage)),
                [.., reason, damage] => reasons.insert((reason, damage)),
                [..] => panic!("an event says something"),
            };
        }
    }
    assert!(refusals.into_iter().eq([3, 4, 5, 6, 7, 13]));
    assert!(steps.into_iter().eq([(1, 0), (2, 0), (3, 1), (3, 2), (3, 3), (3, 4)]));
    // A first octet that is wrong is damage in the zone where it stands.
    assert!(reasons.into_iter().eq([(0, 0), (1, 0), (2, 0), (3, 3), (3, 4)]));
}
