//! The published vectors of Certificate Transparency's reference tree, and the guard over its heads.

mod common;

use common::{bytes, hash, hashes, leaf_hashes, LEAVES, PATH, PROOF, ROOTS};
use wagtenib::guard::{self, TreeHead};
use wagtenib::leaf::{self, Entry};
use wagtenib::node;
use wagtenib::subtrees::{self, Range};
use wagtenib::texts;
use wagtenib::tree::{self, Subtrees};
use wagtenib::Error;

#[test]
fn roots_are_those_of_the_reference_tree() {
    let mut subtrees = Subtrees::default();
    for (size, root) in ROOTS.iter().enumerate() {
        assert_eq!(tree::root(&leaf_hashes()[..size]), Ok(hash(root)));
        assert_eq!((subtrees.size(), subtrees.root()), (size as u64, hash(root)));
        if let Some(leaf) = leaf_hashes().get(size) {
            subtrees.push(leaf);
        }
    }
}

#[test]
fn proofs_of_the_reference_tree_are_accepted_and_damaged_ones_refused() {
    let (leaf, root, path) = (leaf_hashes()[5], hash(ROOTS[8]), hashes(&PATH));
    assert_eq!(tree::verify_inclusion(&leaf, 5, 8, &path, &root), Ok(()));
    assert_eq!(tree::verify_inclusion(&leaf, 8, 8, &path, &root), Err(Error::IndexOutOfRange));
    assert_eq!(tree::verify_inclusion(&leaf, 5, 8, &path[..2], &root), Err(Error::PathTooShort));
    assert_eq!(tree::verify_inclusion(&leaf, 5, 8, &[path.clone(), path.clone()].concat(), &root), Err(Error::PathTooLong));
    assert_eq!(tree::verify_inclusion(&leaf, 4, 8, &path, &root), Err(Error::RootMismatch));
    let (first, proof) = (hash(ROOTS[6]), hashes(&PROOF));
    assert_eq!(tree::verify_consistency(6, 8, &first, &root, &proof), Ok(()));
    assert_eq!(tree::verify_consistency(8, 8, &root, &root, &proof), Err(Error::SizesOutOfRange));
    assert_eq!(tree::verify_consistency(6, 8, &first, &root, &[]), Err(Error::EmptyPath));
    assert_eq!(tree::verify_consistency(6, 8, &root, &root, &proof), Err(Error::FirstMismatch));
    assert_eq!(tree::verify_consistency(6, 8, &first, &first, &proof), Err(Error::RootMismatch));
}

#[test]
fn subtrees_of_the_reference_tree_are_accepted_and_others_refused() {
    let (leaves, root, proof) = (leaf_hashes(), hash(ROOTS[8]), hashes(&PROOF));
    // The first leaves have the consistency proof of RFC 6962, and one leaf has its audit path.
    let first = Range { start: 0, end: 6 };
    assert_eq!(subtrees::verify(first, 8, &hash(ROOTS[6]), &root, &proof), Ok(()));
    assert_eq!(subtrees::verify(Range { start: 5, end: 6 }, 8, &leaves[5], &root, &hashes(&PATH)), Ok(()));
    assert_eq!(subtrees::verify(Range { start: 0, end: 8 }, 8, &root, &root, &[]), Ok(()));
    assert_eq!(subtrees::verify(Range { start: 1, end: 3 }, 8, &root, &root, &proof), Err(Error::NotASubtree));
    assert_eq!(subtrees::verify(Range { start: 8, end: 9 }, 8, &root, &root, &proof), Err(Error::BeyondTree));
    assert_eq!(subtrees::verify(first, 8, &hash(ROOTS[6]), &root, &proof[1..]), Err(Error::PathTooShort));
    assert_eq!(subtrees::verify(first, 8, &hash(ROOTS[6]), &root, &[proof.clone(), vec![root]].concat()), Err(Error::PathTooLong));
    assert_eq!(subtrees::verify(first, 8, &root, &root, &proof), Err(Error::FirstMismatch));
    assert_eq!(subtrees::verify(first, 8, &hash(ROOTS[6]), &hash(ROOTS[6]), &proof), Err(Error::RootMismatch));
    // [4, 6) has two leaves, so the path of one is the other.
    let pair = Range { start: 4, end: 6 };
    assert_eq!(subtrees::evaluate_path(&leaves[5], 5, pair, &leaves[4..5]), tree::root(&leaves[4..6]));
    assert_eq!(subtrees::evaluate_path(&leaves[5], 6, pair, &leaves[4..5]), Err(Error::IndexOutOfRange));
    assert_eq!(subtrees::evaluate_path(&leaves[5], 5, pair, &[]), Err(Error::PathTooShort));
}

#[test]
fn ranges_are_covered_by_subtrees() {
    let range = |start, end| Range { start, end };
    assert_eq!(subtrees::cover(range(5, 6)), Ok(vec![range(5, 6)]));
    assert_eq!(subtrees::cover(range(3, 6)), Ok(vec![range(3, 4), range(4, 6)]));
    // The leaves 1 to 3 are in no subtree that is smaller than [0, 4).
    assert_eq!(subtrees::cover(range(1, 6)), Ok(vec![range(0, 4), range(4, 6)]));
    assert_eq!(subtrees::cover(range(6, 6)), Err(Error::EmptyRange));
    assert_eq!(subtrees::check(range(4, 7)), Ok(()));
    assert_eq!(subtrees::check(range(1 << 62, u64::MAX)), Err(Error::NotASubtree));
}

/// A MerkleTreeLeaf of a certificate (RFC 6962, section 3.4), written out by hand.
const CERTIFICATE_LEAF: &str = "00000000018bcfe568000000000003cafe010002beef";

/// The same of a precertificate, whose issuer key hash is 32 times 7a.
const PRECERTIFICATE_LEAF: &str = "00000000018bcfe5680000017a7a7a7a7a7a7a7a7a7a7a7a7a7a7a7a7a7a7a7a7a7a7a7a7a7a7a7a7a7a7a7a00000230000000";

#[test]
fn leaves_are_decoded() {
    let certificate = bytes(CERTIFICATE_LEAF);
    let decoded = leaf::decode(&certificate).unwrap();
    assert_eq!(decoded.timestamp, 1_700_000_000_000);
    assert_eq!((decoded.entry, decoded.extensions), (Entry::Certificate(&[0xca, 0xfe, 0x01]), &[0xbe, 0xef][..]));
    let precertificate = bytes(PRECERTIFICATE_LEAF);
    let decoded = leaf::decode(&precertificate).unwrap();
    assert_eq!(decoded.entry, Entry::Precertificate { issuer_key_hash: &[0x7a; 32], tbs_certificate: &[0x30, 0x00] });
    assert!(decoded.extensions.is_empty());
    for cut in 0..certificate.len() {
        assert_eq!(leaf::decode(&certificate[..cut]), Err(Error::Truncated), "{cut} bytes");
    }
    assert_eq!(leaf::decode(&[certificate.clone(), vec![0]].concat()), Err(Error::Trailing));
}

#[test]
fn the_guard_signs_no_fork() {
    let head = |tree_size: usize, timestamp| TreeHead { tree_size: tree_size as u64, timestamp, root: hash(ROOTS[tree_size]) };
    let empty = guard::first_head(&head(0, 1000), None).unwrap();
    assert_eq!(empty[..2], [0, 1]);
    assert_eq!(guard::first_head(&head(6, 1000), None), Err(Error::NotFirst));
    let six = guard::head(&empty, &head(6, 2000), &[], 10_000).unwrap();
    assert_eq!(guard::first_head(&head(6, 2000), Some(&head(6, 2000))), Ok(six));
    let proof = hashes(&PROOF);
    let eight = guard::head(&six, &head(8, 3000), &proof, 10_000).unwrap();
    assert_eq!(guard::head(&six, &head(8, 3000), &proof, 999), Err(Error::TimestampTooFar));
    assert_eq!(guard::head(&eight, &head(6, 4000), &proof, 10_000), Err(Error::SizeFalls));
    assert_eq!(guard::head(&eight, &TreeHead { root: hash(ROOTS[7]), ..head(8, 4000) }, &[], 10_000), Err(Error::Fork));
    assert_eq!(guard::head(&[], &head(8, 4000), &proof, 10_000), Err(Error::BadState));
    assert_eq!(guard::state(&six, &eight), Ok(head(8, 3000)));
    assert_eq!(guard::state(&eight, &six), Err(Error::StateRolledBack));
    assert_eq!(node::accept(&head(6, 2000), &head(8, 3000), &proof), Ok(()));
    assert_eq!(node::accept(&head(6, 2000), &head(8, 2000), &proof), Err(Error::TimestampNotLater));
    assert_eq!(node::accept(&head(8, 3000), &head(6, 4000), &proof), Err(Error::SizeFalls));
    // A MerkleTreeLeaf of the timestamp 2000, whose hash is the root of its tree.
    let leaf = bytes("000000000000000007d00000000001780000");
    let one = guard::head(&empty, &TreeHead { tree_size: 1, timestamp: 2000, root: tree::leaf_hash(&leaf) }, &[], 10_000).unwrap();
    assert_eq!(guard::receipt(&one, &leaf, 0, &[]), Ok(()));
    assert_eq!(guard::receipt(&six, &leaf, 0, &[]), Err(Error::PathTooShort));
    assert_eq!(guard::receipts(&one, 0, &[], &[&leaf]), Ok(()));
    assert_eq!(guard::receipts(&one, 1, &[], &[&leaf]), Err(Error::IndexOutOfRange));
    // A leaf of the reference tree is no MerkleTreeLeaf.
    assert_eq!(guard::receipt(&eight, &bytes(LEAVES[5]), 5, &hashes(&PATH)), Err(Error::BadVersion));
}

#[test]
fn calls_can_be_made_from_many_threads_at_once() {
    let threads: Vec<_> = (0..64)
        .map(|_| {
            std::thread::spawn(|| {
                for _ in 0..50 {
                    assert_eq!(tree::root(&leaf_hashes()), Ok(hash(ROOTS[8])));
                }
            })
        })
        .collect();
    for thread in threads {
        thread.join().unwrap();
    }
}

#[test]
fn errors_have_words() {
    assert_eq!(Error::Fork.to_string(), "wagtenib: the head has the size of the last one, and another root");
    assert_eq!(Error::Fork.code(), 34);
}

#[test]
fn sha_instructions_are_used_only_if_asked() {
    if !cfg!(feature = "sha-instructions") {
        assert!(!texts::has_sha_instructions());
    } else if let Ok(due) = std::env::var("WAGTENIB_INSTRUCTIONS") {
        // (the caller says whether the processor has them)
        assert_eq!(texts::has_sha_instructions(), due == "yes");
    }
}
