//! What a monitor calls: data tiles, names, verdicts and texts, over the reference tree and over bytes that are written out by hand.

mod common;

use common::{bytes, hash, hashes, leaf_hashes, LEAVES, PROOF, ROOTS};
use wagtenib::data_tiles::{self, TileError};
use wagtenib::guard::TreeHead;
use wagtenib::monitor::{self, Verdict};
use wagtenib::names::{self, EntryType, Found, Name, NameKind, Place, WatchList};
use wagtenib::texts::{self, Checkpoint};
use wagtenib::{tree, Error, Hash};

fn head(tree_size: usize, timestamp: u64) -> TreeHead {
    TreeHead { tree_size: tree_size as u64, timestamp, root: hash(ROOTS[tree_size]) }
}

fn leaves() -> Vec<Vec<u8>> {
    LEAVES.iter().map(|leaf| bytes(leaf)).collect()
}

#[test]
fn a_monitor_accepts_the_head_of_the_leaves_that_it_read() {
    let begun = monitor::begin().unwrap();
    let waiting = monitor::head(&begun, &head(8, 5)).unwrap();
    assert_eq!((waiting.verdict, waiting.accepted, waiting.read, waiting.wanted), (Verdict::Pending, 0, 0, 8));
    let (some, report) = monitor::entries(&waiting.state, 0, &leaves()[..3]).unwrap();
    assert_eq!((some.verdict, some.read, report.later, report.faulty), (Verdict::Pending, 3, None, Some((0, Error::Truncated))));
    let (all, _) = monitor::entries(&some.state, 3, &leaves()[3..]).unwrap();
    assert_eq!((all.verdict, all.accepted, all.wanted), (Verdict::Accepted, 8, 8));
    assert_eq!(monitor::head(&all.state, &head(8, 6)).unwrap().verdict, Verdict::Again);
    assert_eq!(monitor::head(&all.state, &TreeHead { root: Hash::default(), ..head(8, 6) }).unwrap().verdict, Verdict::Forked(head(8, 5)));
    assert_eq!(monitor::head(&all.state, &head(7, 4)).unwrap().verdict, Verdict::Older(head(8, 5)));
    assert_eq!(monitor::head(&all.state, &head(7, 6)).unwrap().verdict, Verdict::Shrunk(head(8, 5)));
}

#[test]
fn a_monitor_begins_at_a_head_that_it_is_told_to_trust() {
    let hashes_of_leaves = leaf_hashes();
    let subtrees = [hash(ROOTS[4]), tree::root(&hashes_of_leaves[4..6]).unwrap()];
    let started = monitor::start(&head(6, 5), &subtrees).unwrap();
    let waiting = monitor::head(&started, &head(8, 6)).unwrap();
    assert_eq!((waiting.verdict, waiting.accepted, waiting.read), (Verdict::Pending, 6, 6));
    assert_eq!(monitor::proof(&waiting.state, &hashes(&PROOF)).unwrap().verdict, Verdict::Consistent);
    assert_eq!(monitor::proof(&waiting.state, &[]).unwrap().verdict, Verdict::Inconsistent(Error::EmptyPath));
    let (all, _) = monitor::entries(&waiting.state, 6, &leaves()[6..]).unwrap();
    assert_eq!((all.verdict, all.accepted), (Verdict::Accepted, 8));
    assert_eq!(monitor::start(&head(6, 5), &subtrees[..1]), Err(Error::OtherCount));
    assert_eq!(monitor::start(&head(6, 5), &[subtrees[1], subtrees[0]]), Err(Error::RootMismatch));
    assert_eq!(monitor::head(&started[1..], &head(8, 6)), Err(Error::BadState));
}

#[test]
fn a_proof_tells_an_older_head_from_a_fork_that_lags() {
    let waiting = monitor::head(&monitor::begin().unwrap(), &head(8, 5)).unwrap();
    let (all, _) = monitor::entries(&waiting.state, 0, &leaves()).unwrap();
    let fork = TreeHead { root: Hash::default(), ..head(6, 4) };
    assert_eq!(monitor::older(&all.state, &head(6, 4), &hashes(&PROOF)).unwrap().verdict, Verdict::Consistent);
    assert_eq!(monitor::older(&all.state, &fork, &hashes(&PROOF)).unwrap().verdict, Verdict::Inconsistent(Error::FirstMismatch));
    assert_eq!(monitor::older(&all.state, &head(8, 4), &[]).unwrap().verdict, Verdict::Gap);
    assert!(!Verdict::Inconsistent(Error::FirstMismatch).accuses());
    assert_eq!((monitor::compare(&head(6, 4), &head(8, 5)), monitor::compare(&head(8, 5), &head(6, 4))), (None, Some(Verdict::Older(head(8, 5)))));
    assert_eq!(monitor::compare(&head(8, 5), &head(6, 5)), Some(Verdict::Shrunk(head(8, 5))));
}

#[test]
fn entries_of_another_tree_speak_against_the_log() {
    let waiting = monitor::head(&monitor::begin().unwrap(), &head(2, 5)).unwrap();
    let (other, _) = monitor::entries(&waiting.state, 0, &leaves()[1..3]).unwrap();
    let root = tree::root(&leaf_hashes()[1..3]).unwrap();
    assert_eq!(other.verdict, Verdict::OtherRoot(root));
    assert!(other.verdict.accuses() && !waiting.verdict.accuses());
}

// A TileLeaf of a certificate (7 ms, "DER", no extensions, one fingerprint), and one of a precertificate (8 ms, "TBS", "PRE", no fingerprint).
const CERTIFICATE: &str = "0000000000000007 0000 000003444552 0000";
const FINGERPRINT: &str = "0101010101010101010101010101010101010101010101010101010101010101";
const PRECERTIFICATE: &str = "0000000000000008 0001 0202020202020202020202020202020202020202020202020202020202020202 000003544253 0000";

fn joined(texts: &[&str]) -> Vec<u8> {
    bytes(&texts.concat().replace(' ', ""))
}

#[test]
fn a_data_tile_has_its_entries() {
    let tile = joined(&[CERTIFICATE, "0020", FINGERPRINT, PRECERTIFICATE, "000003505245", "0000"]);
    let entries = data_tiles::leaves(&tile).unwrap();
    assert_eq!(entries.len(), 2);
    assert_eq!((entries[0].leaf.clone(), entries[0].submitted, entries[0].issuers.clone()), (joined(&["0000", CERTIFICATE]), &b"DER"[..], vec![hash(FINGERPRINT)]));
    assert_eq!((entries[1].leaf.clone(), entries[1].submitted, entries[1].issuers.clone()), (joined(&["0000", PRECERTIFICATE]), &b"PRE"[..], vec![]));
    assert_eq!(data_tiles::leaves(&[]), Ok(vec![]));
    let refused = |tile: &[u8], error, entry| assert_eq!(data_tiles::leaves(tile), Err(TileError { error, entry: Some(entry) }));
    refused(&tile[..tile.len() - 1], Error::Truncated, 1);
    refused(&joined(&[CERTIFICATE, "0010"]), Error::PartialFingerprint, 0);
    refused(&joined(&[CERTIFICATE, "0000", "0000000000000007 0002"]), Error::BadEntryType, 1);
    refused(&joined(&["0000000000000007 0000 000000"]), Error::EmptyVector, 0);
    assert_eq!(data_tiles::leaves(&tile[..9]).unwrap_err().to_string(), "wagtenib: the leaf ends before a field is whole (entry 0 of the data tile, counted from 0)");
}

#[test]
fn an_entry_is_judged_beside_a_head() {
    let leaf = joined(&["0000", CERTIFICATE]);
    for head_timestamp in [7, 8, u64::MAX] {
        assert_eq!(monitor::entry(head_timestamp, &leaf), Ok(7));
    }
    for head_timestamp in [0, 6] {
        assert_eq!(monitor::entry(head_timestamp, &leaf), Err(Error::LaterEntry));
    }
    assert_eq!(monitor::entry(0, &leaf[..leaf.len() - 1]), Err(Error::Truncated));
    assert_eq!(monitor::entry(0, &[]), Err(Error::Truncated));
}

/// A data tile of certificates whose extensions name these indexes (C2SP static-ct-api).
fn tile_of(indexes: &[u64]) -> Vec<u8> {
    indexes.iter().flat_map(|index| joined(&["0000000000000007 0000 000003444552 0008 000005", &format!("{index:010x}"), "0000"])).collect()
}

#[test]
fn a_data_tile_is_compared_with_its_name() {
    let (name, tile) = ("tile/data/001.p/3", tile_of(&[256, 257, 258]));
    assert_eq!(data_tiles::compare(name, 256, &tile), Ok(()));
    assert_eq!(data_tiles::compare(name, 257, &tile_of(&[0, 257, 258])), Ok(()));
    let refused = |name, next, tile: &[u8], error, entry| assert_eq!(data_tiles::compare(name, next, tile), Err(TileError { error, entry }));
    refused("tile/0/001.p/3", 256, &tile, Error::NoDataTile, None);
    refused(name, 255, &tile, Error::TileAfter, None);
    refused(name, 259, &tile, Error::TileBefore, None);
    refused(name, 256, &tile[..tile.len() - 1], Error::Truncated, Some(2));
    refused(name, 256, &tile_of(&[256, 257]), Error::OtherEntries, Some(2));
    refused(name, 256, &tile_of(&[256, 258, 258]), Error::WrongIndex, Some(257));
}

/// An element of DER with a content of fewer than 128 bytes.
fn element(tag: &str, content: &str) -> String {
    format!("{tag}{:02x}{content}", content.len() / 2)
}

fn in_hex(text: &str) -> String {
    text.bytes().map(|byte| format!("{byte:02x}")).collect()
}

/// A TBSCertificate with the common name cn.example and the dNSName *.san.example (RFC 5280, sections 4.1.2.6 and 4.2.1.6).
fn tbs() -> Vec<u8> {
    let name = element("30", &format!("0603550403{}", element("0c", &in_hex("cn.example"))));
    let subject = element("30", &element("31", &name));
    let alt_names = element("04", &element("30", &element("82", &in_hex("*.san.example"))));
    let extensions = element("a3", &element("30", &element("30", &format!("0603551d11{alt_names}"))));
    bytes(&element("30", &format!("020107300030003000{subject}3000{extensions}")))
}

#[test]
fn names_are_read_and_found() {
    let tbs = tbs();
    let named = |kind, name: &str| Name { kind, bytes: name.as_bytes().to_vec() };
    assert_eq!(names::of_certificate(EntryType::Precert, &tbs).unwrap(), [named(NameKind::Common, "cn.example"), named(NameKind::Dns, "*.san.example")]);
    let list = WatchList::new(["other.example", "cn.example", "www.san.example"]);
    let found = names::watched(EntryType::Precert, &tbs, &list).unwrap();
    assert_eq!(found, [Found { position: 1, place: Place::CommonName }, Found { position: 2, place: Place::AltName }]);
    assert_eq!(names::watched(EntryType::Precert, &tbs, &WatchList::default()).unwrap(), []);
    let cut = names::of_certificate(EntryType::X509, &tbs[..9]).unwrap_err();
    assert_eq!((cut.error, cut.field.map(|field| field.name)), (Error::DerTruncated, Some("certificate")));
}

#[test]
fn names_are_found_in_bytes() {
    let tbs = tbs();
    let cut = &tbs[..tbs.len() - 1];
    assert_eq!(names::of_certificate(EntryType::Precert, cut).unwrap_err().error, Error::DerTruncated);
    let list = WatchList::new(["other.example", "CN.Example", "*.n.EXAMPLE", ".an.exampl.", ""]);
    let at = |position| Found { position, place: Place::InBytes };
    assert_eq!(names::in_bytes(cut, &list).unwrap(), [at(1), at(2), at(3), at(4)]);
    assert_eq!(names::in_bytes(&[], &list).unwrap(), [at(4)]);
    assert_eq!(names::in_bytes(cut, &WatchList::default()).unwrap(), []);
}

#[test]
fn texts_are_those_of_their_formats() {
    let root = hash(ROOTS[8]);
    let checkpoint = Checkpoint { origin: "example.org/log", tree_size: 8, root };
    let text = texts::checkpoint_text(&checkpoint).unwrap();
    assert_eq!(text, "example.org/log\n8\nXcnaeacGWamtVZy3Ad7ZoqudgjqtL0lgz+Nw7/RgQyg=\n");
    assert_eq!(texts::read_checkpoint(&text), Ok(checkpoint));
    assert_eq!(texts::read_checkpoint(&text[1..text.len() - 1]), Err(Error::NoCheckpoint));
    assert_eq!(texts::checkpoint_text(&Checkpoint { origin: "", ..checkpoint }), Err(Error::BadOrigin));
    assert_eq!(texts::cosignature_message(1_700_000_000, &text).unwrap(), [b"cosignature/v1\ntime 1700000000\n", text.as_bytes()].concat());
    assert_eq!(texts::tree_head_signature(&head(8, 5)).to_vec(), joined(&["0001 0000000000000005 0000000000000008", ROOTS[8]]));
    // The key of the Go checksum database, sum.golang.org+033de0ae.
    let key = bytes("ce3372d75ad1ee5ecdaf8727293d4b111d87eb37531d7c86d4d3003f0eb809fc");
    assert_eq!(texts::note_key_id("sum.golang.org", 1, &key).to_vec(), bytes("033de0ae"));
    assert_eq!(texts::log_id(b"abc"), hash("ba7816bf8f01cfea414140de5dae2223b00361a396177a9cb410ff61f20015ad"));
    assert_eq!(texts::version(), 1000);
}
