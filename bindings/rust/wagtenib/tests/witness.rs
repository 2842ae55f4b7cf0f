//! The witness over the heads of the reference tree, by the texts of C2SP tlog-checkpoint and tlog-cosignature.

mod common;

use common::{hash, hashes, PROOF, ROOTS};
use wagtenib::witness::{self, Request, WitnessedTree};
use wagtenib::Error;

/// The checkpoints of the first six and of all eight leaves.
const SIX: &str = "log.example\n6\nduZ9rbzfHhDht03cYIq9L5jfsW+851J3tSMqEn8gh+8=\n";
const EIGHT: &str = "log.example\n8\nXcnaeacGWamtVZy3Ad7ZoqudgjqtL0lgz+Nw7/RgQyg=\n";

fn message(time: u64, checkpoint: &str) -> Vec<u8> {
    format!("cosignature/v1\ntime {time}\n{checkpoint}").into_bytes()
}

#[test]
fn checkpoints_are_cosigned_in_the_order_of_one_list() {
    let proof = hashes(&PROOF);
    let first = Request { checkpoint: SIX, old: 0, proof: &[], time: 7 };
    let six = witness::first("log.example", &first).unwrap();
    assert_eq!(six, message(7, SIX));
    let next = Request { checkpoint: EIGHT, old: 6, proof: &proof, time: u64::MAX };
    let eight = witness::cosign(&six, &next).unwrap();
    assert_eq!(eight, message(u64::MAX, EIGHT));
    assert_eq!(witness::cosign(&six, &Request { time: 7, ..next }), Ok(message(7, EIGHT)));
    assert_eq!(witness::state(&six, &eight), Ok(WitnessedTree { tree_size: 8, time: u64::MAX, root: hash(ROOTS[8]) }));
    assert_eq!(witness::state(&eight, &six), Err(Error::StateRolledBack));
    assert_eq!(witness::state(&six, &six[1..]), Err(Error::BadState));
}

#[test]
fn each_refusal_has_its_name() {
    let proof = hashes(&PROOF);
    let six = message(7, SIX);
    let next = Request { checkpoint: EIGHT, old: 6, proof: &proof, time: 7 };
    let other_root = EIGHT.replace("Xcna", "Xcnb");
    for (refused, request, due) in [
        (&six[..9], next, Error::BadState),
        (&six[..], Request { checkpoint: &EIGHT[1..], ..next }, Error::OtherOrigin),
        (&six[..], Request { checkpoint: "log.example\n08\n", ..next }, Error::NoCheckpoint),
        (&six[..], Request { old: 9, ..next }, Error::OldAbove),
        (&six[..], Request { old: 5, ..next }, Error::NotLast),
        (&message(7, EIGHT)[..], Request { checkpoint: &other_root, old: 8, proof: &[], time: 7 }, Error::Fork),
        (&message(7, EIGHT)[..], Request { old: 8, ..next }, Error::ProofNotEmpty),
        (&six[..], Request { proof: &[], ..next }, Error::EmptyPath),
        (&six[..], Request { proof: &proof[..2], ..next }, Error::PathTooShort),
        (&six[..], Request { checkpoint: &other_root, ..next }, Error::RootMismatch),
        (&six[..], Request { time: 6, ..next }, Error::TimeFalls),
        (&six[..], Request { time: 0, ..next }, Error::TimeFalls),
    ] {
        assert_eq!(witness::cosign(refused, &request), Err(due), "{request:?}");
    }
    assert_eq!(witness::first("log.other", &Request { checkpoint: SIX, old: 0, proof: &[], time: 7 }), Err(Error::OtherOrigin));
}
