//! Tiles of the reference tree (C2SP tlog-tiles), and certificates that are as short as RFC 5280 allows, written out by hand.

mod common;

use common::{bytes, hash, hashes, leaf_hashes, PATH, PROOF, ROOTS};
use wagtenib::certificates::{self, CertificateError, Field, Promise};
use wagtenib::{tiles, tree, Error};

#[test]
fn roots_and_proofs_are_those_of_the_reference_tree() {
    let names = vec![String::from("tile/0/000.p/8")];
    let tile = [leaf_hashes().concat()];
    assert_eq!(tiles::root_tiles(8), Ok(names.clone()));
    assert_eq!(tiles::root_of_tiles(8, &tile), Ok(hash(ROOTS[8])));
    assert_eq!(tiles::path_tiles(5, 8), Ok(names.clone()));
    assert_eq!(tiles::path_of_tiles(5, 8, &tile), Ok(hashes(&PATH)));
    assert_eq!(tiles::proof_tiles(6, 8), Ok(names));
    assert_eq!(tiles::proof_of_tiles(6, 8, &tile), Ok(hashes(&PROOF)));
}

#[test]
fn the_largest_tree_has_a_tile_of_each_level() {
    let names = tiles::path_tiles(u64::MAX - 1, u64::MAX).unwrap();
    assert_eq!((names.len(), names[0].as_str(), names[7].as_str()), (8, "tile/0/x072/x057/x594/x037/x927/935.p/255", "tile/7/000.p/255"));
    assert_eq!(tiles::path_tiles(0, u64::MAX).unwrap().len(), 15);
}

#[test]
fn wrong_tiles_are_refused_by_name() {
    let tile = leaf_hashes().concat();
    assert_eq!(tiles::root_of_tiles(0, &[&tile]), Err(Error::EmptyTree));
    assert_eq!(tiles::root_of_tiles::<&[u8]>(8, &[]), Err(Error::MissingTile));
    assert_eq!(tiles::path_of_tiles(5, 8, &[&tile, &tile]), Err(Error::TooManyTiles));
    assert_eq!(tiles::path_of_tiles(5, 8, &[&tile[1..]]), Err(Error::BadTile));
    assert_eq!(tiles::path_tiles(8, 8), Err(Error::IndexOutOfRange));
    assert_eq!(tiles::proof_of_tiles(8, 8, &[&tile]), Err(Error::SizesOutOfRange));
}

/// The fields of a TBSCertificate before its extensions: a serial number, and five empty SEQUENCEs.
const FIELDS: &str = "02010730003000300030003000";
const POISON: &str = "3013060a2b06010401d679020403 0101ff 04020500";
const LIST: &str = "3010060a2b06010401d679020402 04024142";
const OTHER: &str = "300706022a03 040100";

/// An element of DER with a content of fewer than 128 bytes.
fn element(tag: &str, content: &str) -> String {
    format!("{tag}{:02x}{content}", content.len() / 2)
}

fn tbs(extensions: &[&str]) -> String {
    let listed = extensions.concat().replace(' ', "");
    let extensions = if listed.is_empty() { String::new() } else { element("a3", &element("30", &listed)) };
    element("30", &format!("{FIELDS}{extensions}"))
}

fn certificate(extensions: &[&str]) -> String {
    element("30", &format!("{}3000030100", tbs(extensions)))
}

fn in_field(error: Error, name: &'static str, is_of_issuer: bool) -> CertificateError {
    CertificateError { error, field: Some(Field { name, is_of_issuer }) }
}

#[test]
fn entries_are_precertificates_without_the_poison() {
    let entry = |extensions: &[&str]| certificates::precertificate_entry(&bytes(&tbs(extensions)));
    assert_eq!(entry(&[OTHER, POISON]), Ok(bytes(&tbs(&[OTHER]))));
    assert_eq!(entry(&[POISON]), Ok(bytes(&tbs(&[]))));
    assert_eq!(entry(&[OTHER]), Err(in_field(Error::NoExtension, "extensions", false)));
    assert_eq!(entry(&[POISON, POISON]), Err(in_field(Error::SecondExtension, "extensions", false)));
    assert_eq!(entry(&[&POISON.replace("0101ff", "010100")]), Err(in_field(Error::BadPoison, "extensions", false)));
    assert_eq!(certificates::precertificate_entry(&[]), Err(in_field(Error::DerTruncated, "tbsCertificate", false)));
    let words = certificates::precertificate_entry(&[0x30, 0x81, 0]).unwrap_err().to_string();
    assert_eq!(words, "wagtenib: the length of an element has more bytes than it needs, which DER does not allow (in tbsCertificate of the certificate)");
}

/// The leaf that the timestamp 1,700,000,000,000 in such a certificate promises, up to its extensions. It has SHA-256 of 3000, the issuer's key.
fn promised(extensions: &[&str]) -> Vec<u8> {
    let entry = tbs(extensions);
    bytes(&format!("00000000018bcfe568000001e4f60d0aa6d7f3d3b6a6494b1c861b99f649c6f9ec51abaf201b20f297327c95{:06x}{entry}0002beef", entry.len() / 2))
}

#[test]
fn promised_leaves_are_found_in_a_tree() {
    let (of, by) = (bytes(&certificate(&[LIST, OTHER])), bytes(&certificate(&[])));
    let promise = Promise { certificate: &of, issuer: &by, timestamp: 1_700_000_000_000, extensions: &[0xbe, 0xef] };
    let leaf = certificates::promised_leaf(&promise).unwrap();
    assert_eq!(leaf, promised(&[OTHER]));
    let root = tree::leaf_hash(&leaf);
    assert_eq!(certificates::check_promise(&promise, 0, 1, &[], &root), Ok(()));
    assert_eq!(certificates::check_promise(&promise, 1, 1, &[], &root), Err(CertificateError { error: Error::IndexOutOfRange, field: None }));
    assert_eq!(certificates::promised_leaf(&Promise { issuer: &by[..by.len() - 1], ..promise }), Err(in_field(Error::DerTruncated, "certificate", true)));
    assert_eq!(certificates::promised_leaf(&Promise { issuer: &[0x31, 0], ..promise }), Err(in_field(Error::DerOtherTag, "certificate", true)));
    assert_eq!(certificates::promised_leaf(&Promise { certificate: &by, ..promise }), Err(in_field(Error::NoExtension, "extensions", false)));
    let long = vec![0; 65_536];
    assert_eq!(certificates::promised_leaf(&Promise { extensions: &long, ..promise }), Err(CertificateError { error: Error::ExtensionsTooLong, field: None }));
}
