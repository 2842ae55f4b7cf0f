//! The commands of a node in the order of docs/NODE.md, lock texts, and what a node that starts finds.

use wagtenib::guard::TreeHead;
use wagtenib::node::{self, Command, Found, Outcome, Start, State};
use wagtenib::{lock, Error};

const SEEN: State = State { timestamp: 7, previous_timestamp: 5, salt: 1 };
const MADE: State = State { timestamp: 9, previous_timestamp: 7, salt: 2 };
const OLDER: State = State { timestamp: 6, previous_timestamp: 4, salt: 1 };

#[test]
fn commands_follow_one_another() {
    let (seen, next) = (SEEN, MADE);
    let step = Command::MakeStep { seen };
    let steps = [
        (Outcome::Done, Command::ReadLock),
        (Outcome::LockRead { state: seen }, Command::LookForHead { seen }),
        (Outcome::Published, step),
        (Outcome::BatchListed { state: next }, step),
        (Outcome::BatchListed { state: seen }, step),
        (Outcome::BatchListed { state: OLDER }, Command::DeleteBatch { seen, next: OLDER }),
        (Outcome::Lost, step),
        (Outcome::StepMade { state: OLDER, objects: 2 }, step),
        (Outcome::StepMade { state: next, objects: 2 }, Command::StageBatch { seen, next, objects: 2 }),
        (Outcome::Done, Command::SwapLock { seen, next, objects: 2 }),
        (Outcome::Done, Command::PutObjects { next, objects: 2 }),
        (Outcome::Done, Command::AddToIndex { next }),
        (Outcome::Done, Command::PublishHead { next }),
        (Outcome::Done, Command::AnswerAll { next }),
        (Outcome::Done, Command::ReadLock),
        (Outcome::LockRead { state: next }, Command::LookForHead { seen: next }),
        (Outcome::BatchRead { objects: 3 }, Command::PutObjects { next, objects: 3 }),
        (Outcome::Lost, Command::ReadLock),
    ];
    let mut now = Command::ReadLock;
    for (outcome, due) in steps {
        let got = node::next(now, outcome);
        assert_eq!(got, due, "after {now:?} with {outcome:?}");
        now = got;
    }
}

/// The line of a state with 3 leaves at 9 milliseconds, whose root begins with 01.
fn line() -> String {
    format!("growth {:016x}{:016x}01{}", 3, 9, "0".repeat(254))
}

#[test]
fn lock_texts_are_written_and_read() {
    for address in ["", "-", "https://node.example", &"n".repeat(10_000)] {
        let text = lock::lock_text(&line(), address, 7, 2).unwrap();
        assert_eq!(String::from_utf8(text.clone()).unwrap(), format!("{}\nnode {address}\nsalt {:016x}{:016x}\n", line(), 7, 2));
        assert_eq!(lock::state(&text), Ok((MADE, 3)));
        assert_eq!(lock::state(&text[1..]), Err(Error::BadLockText));
    }
    // If the previous timestamp is not before the state's, it counts as 0.
    let text = lock::lock_text(&line(), "", 9, u64::MAX).unwrap();
    assert_eq!(lock::state(&text), Ok((State { timestamp: 9, previous_timestamp: 0, salt: u64::MAX }, 3)));
}

#[test]
fn batches_have_names() {
    let name = "staging/000000000000000900000000000000070000000000000002";
    assert_eq!(lock::batch_name(MADE), name);
    assert_eq!(lock::batch_state(name.as_bytes()), Ok(MADE));
    let upper = "staging/00000000000000090000000000000007000000000000000A";
    for wrong in ["", &name[1..], "stagin./000000000000000900000000000000070000000000000002", upper] {
        assert_eq!(lock::batch_state(wrong.as_bytes()), Err(Error::BadBatchName));
    }
}

#[test]
fn a_node_starts_from_what_it_finds() {
    let mut root = [0; 32];
    root[0] = 1;
    let text = lock::lock_text(&line(), "-", 7, 2).unwrap();
    let head = |tree_size, timestamp, root| Some(TreeHead { tree_size, timestamp, root });
    let at = |tree_size, timestamp| head(tree_size, timestamp, root);
    let none = Found::default();
    for (lock, found, due) in [
        (Some(&text[..]), none, Ok(Start::Continues)),
        (Some(&text), Found { seen: head(3, 9, root), signed: head(3, 9, root), guarded: true, published: at(3, 9), listed: at(3, 9), ..none }, Ok(Start::Continues)),
        (Some(&text), Found { seen: head(3, 9, [0; 32]), ..none }, Err(Error::BehindSeen)),
        (Some(&text), Found { seen: head(4, 8, root), ..none }, Err(Error::BehindSeen)),
        (Some(&text), Found { signed: head(3, 9, [0; 32]), guarded: true, ..none }, Err(Error::TwoRoots)),
        (Some(&text), Found { signed: head(3, 10, root), guarded: true, ..none }, Err(Error::BehindSigned)),
        (Some(&text), Found { signed: head(3, 10, root), ..none }, Ok(Start::Continues)),
        (Some(&text), Found { listed: at(1, 1), guarded: true, ..none }, Err(Error::SignedBehindListed)),
        (Some(&text), Found { listed: at(3, 10), ..none }, Err(Error::BehindListed)),
        (Some(&text), Found { listed: head(3, 9, [0; 32]), ..none }, Err(Error::BehindListed)),
        (Some(&text), Found { published: head(3, 9, [0; 32]), ..none }, Err(Error::BehindPublished)),
        (Some(&text), Found { published: at(4, 9), ..none }, Err(Error::BehindPublished)),
        (None, Found { creates: true, ..none }, Ok(Start::CreatesLock)),
        (None, none, Err(Error::LockGone)),
        (None, Found { creates: true, has_object: true, ..none }, Err(Error::LockGone)),
        (Some(&[]), Found { creates: true, ..none }, Err(Error::BadLockText)),
        (Some(b"a text"), Found { creates: true, ..none }, Err(Error::BadLockText)),
    ] {
        assert_eq!(node::start(lock, &found), due, "{found:?}");
    }
}
