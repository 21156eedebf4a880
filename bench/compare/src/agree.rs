//! The archive and the reference answer alike and leave the same words, on random stores whole
//! and damaged.

#[path = "../../reference/tests/property/random.rs"]
mod random;

use random::Random;
use trisculap_reference::calls::{self, Store};

use crate::archive;

/// Makes calls of every kind both ways.
fn agree(r: &mut Random, store: &Store) {
    for call in random::calls(r, store) {
        let (mut ours, mut theirs) = (store.clone(), store.clone());
        let answer = calls::perform(&mut ours, &call);
        assert_eq!(archive::perform(&mut theirs, &call), answer, "{call:?} on {store:x?}");
        assert_eq!(theirs, ours, "{call:?} on {store:x?}");
    }
}

#[test]
fn the_archive_and_the_reference_agree() {
    let mut r = Random::seeded(3);
    for round in 0..200_000 {
        let most = if round % 20 == 0 { 400 } else { 14 };
        let whole = random::store(&mut r, most);
        let store = random::perhaps_damaged(&mut r, whole);
        agree(&mut r, &store);
    }
}

#[test]
fn they_agree_on_chains_and_rings() {
    let mut r = Random::seeded(4);
    for round in 0..200_000 {
        let most = if round % 20 == 0 { 600 } else { 14 };
        let store = random::chains(&mut r, most);
        agree(&mut r, &store);
    }
}
