//! A step of a tiled log (C2SP static-ct-api). Models of tests/tiles and hashlib computed the texts and hashes.

mod common;

use common::{bytes, hash};
use wagtenib::step::{self, Submitted};
use wagtenib::{tree, Error, Hash};

const ORIGIN: &str = "log.example/rust";
const FIRST_STATE: &str = "growth 000000000000000000000000000003e8e3b0c44298fc1c149afbf4c8996fb92427ae41e4649b934ca495991b7852b8550000000000000000000000000000000000000000000000000000000000000000e3b0c44298fc1c149afbf4c8996fb92427ae41e4649b934ca495991b7852b8550000000000000000000000000000000000000000000000000000000000000000";
const SECOND_STATE: &str = "growth 000000000000000200000000000003e9f09f03465f5b114ad7eec115e23a162ded5395411adc114b04cbfbe126159184fc28ee22801a2de8a0ff52e45bebe352fd8eb9849b46de94871592e89a28aa3c28cf03c5d12e9103d0d41b3d1d92678f9577b820b72a556e11129b93adc4a7847a435446a739c8f3df77bfca9e69ebb040d3fc1258b0e8520d634eade6b87ea4";
const CHECKPOINT: &str = "log.example/rust\n2\n8J8DRl9bEUrX7sEV4joWLe1TlUEa3BFLBMv74SYVkYQ=\n";
/// The leaves of a certificate and of a precertificate at 1,001 milliseconds.
const LEAVES: [&str; 2] = [
    "000000000000000003e9000000000d6365727469666963617465203000080000050000000000",
    "000000000000000003e900010707070707070707070707070707070707070707070707070707070707070707000005746273203100080000050000000001",
];
/// The root of these two and of a third leaf, "certificate 2" at 1,002 milliseconds.
const THIRD_ROOT: &str = "0ba958be5288577c9c9a80da674594a9b4e62f841e894621c6e91c6355597f65";
const KEY_HASH: Hash = [7; 32];

/// The first batch, with the first submission once more and with another chain.
fn batch() -> Vec<u8> {
    let mut batch = Vec::new();
    step::append_submission(&mut batch, &Submitted::Certificate(b"certificate 0"), &[[9; 32], [9; 32]]).unwrap();
    let pre = Submitted::Precertificate { issuer_key_hash: &KEY_HASH, tbs_certificate: b"tbs 1", precertificate: b"pre 1" };
    step::append_submission(&mut batch, &pre, &[]).unwrap();
    step::append_submission(&mut batch, &Submitted::Certificate(b"certificate 0"), &[]).unwrap();
    batch
}

#[test]
fn a_log_grows_by_steps() {
    assert_eq!(step::begin(1000).as_deref(), Ok(FIRST_STATE));
    assert_eq!(step::needs(FIRST_STATE), Ok(vec![]));
    let made = step::step(ORIGIN, FIRST_STATE, &[], &batch(), 1001, 1).unwrap();
    assert_eq!((made.state.as_str(), made.published.checkpoint.as_str()), (SECOND_STATE, CHECKPOINT));
    assert_eq!(made.published.signed[..18], [0, 1, 0, 0, 0, 0, 0, 0, 3, 0xe9, 0, 0, 0, 0, 0, 0, 0, 2]);
    let receipts: Vec<_> = made.receipts.iter().map(|receipt| (receipt.leaf_index, receipt.timestamp, receipt.signed.clone())).collect();
    let due = |index: usize| (index as u64, 1001, bytes(LEAVES[index]));
    assert_eq!(receipts, [due(0), due(1), due(0)]);
    let objects: Vec<_> = made.published.objects.iter().map(|object| (object.name.as_str(), object.start, object.length, object.digest)).collect();
    let digests = [hash("cccb9eba05084a8e1cf24352fc0491a1166314744d04a4aab85108f95cde0c87"), hash("28cf03c5d12e9103d0d41b3d1d92678f9577b820b72a556e11129b93adc4a784")];
    assert_eq!(objects, [("tile/0/000.p/2", 20, 64, digests[0]), ("tile/data/000.p/2", 107, 172, digests[1])]);
    assert_eq!(step::resume(ORIGIN, SECOND_STATE, &made.bundle), Ok(made.published));

    assert_eq!(step::needs(SECOND_STATE), Ok(vec![String::from("tile/0/000.p/2"), String::from("tile/data/000.p/2")]));
    let (mut edge, mut third) = (Vec::new(), Vec::new());
    step::append_content(&mut edge, &made.bundle[20..84]);
    step::append_content(&mut edge, &made.bundle[107..279]);
    step::append_submission(&mut third, &Submitted::Certificate(b"certificate 2"), &[]).unwrap();
    let next = step::step(ORIGIN, SECOND_STATE, &edge, &third, 1002, 1).unwrap();
    assert_eq!(next.published.signed[18..], hash(THIRD_ROOT));
    let bent = |at: usize| edge.iter().enumerate().map(|(i, byte)| byte ^ u8::from(i == at)).collect::<Vec<_>>();
    assert_eq!(step::step(ORIGIN, SECOND_STATE, &bent(8), &third, 1002, 1), Err(Error::Edge));
    assert_eq!(step::step(ORIGIN, SECOND_STATE, &bent(edge.len() - 1), &third, 1002, 1), Err(Error::Entries));
}

#[test]
fn each_refusal_has_its_name() {
    let made = |origin, state, batch: &[u8], now| step::step(origin, state, &[], batch, now, 9).unwrap_err();
    assert_eq!(made("", FIRST_STATE, &[], 1001), Error::BadOrigin);
    assert_eq!(made("two\nlines", FIRST_STATE, &[], 1001), Error::BadOrigin);
    assert_eq!(made(ORIGIN, FIRST_STATE, &batch()[1..], 1001), Error::BadBatch);
    assert_eq!(made(ORIGIN, FIRST_STATE, &batch().repeat(1366), 1001), Error::TooMany);
    assert_eq!(made(ORIGIN, &FIRST_STATE[1..], &[], 1001), Error::BadState);
    assert_eq!(made(ORIGIN, FIRST_STATE, &[], 1010), Error::TimestampTooFar);
    assert_eq!(made(ORIGIN, FIRST_STATE, &[], 1000), Error::ClockBack);
    assert_eq!(made(ORIGIN, SECOND_STATE, &[], 1002), Error::Edge);
    assert_eq!(step::needs("growth"), Err(Error::BadState));
    assert_eq!(step::resume(ORIGIN, SECOND_STATE, b"bundle"), Err(Error::Bundle));
    let mut batch = Vec::new();
    assert!(step::append_submission(&mut batch, &Submitted::Certificate(&[]), &[]).is_err());
    assert!(step::append_submission(&mut batch, &Submitted::Certificate(&vec![0; 1 << 24]), &[]).is_err());
    assert!(step::append_submission(&mut batch, &Submitted::Certificate(b"x"), &[[0; 32]; 2048]).is_err());
    assert!(batch.is_empty());
}

#[test]
fn claims_are_of_the_leaf() {
    let mut submission = Vec::new();
    step::append_submission(&mut submission, &Submitted::Certificate(b"certificate 0"), &[]).unwrap();
    let path = [tree::leaf_hash(&bytes(LEAVES[1]))];
    assert_eq!(step::claim(SECOND_STATE, 0, 1001, &path, &submission), Ok(bytes(LEAVES[0])));
    assert_eq!(step::claim(SECOND_STATE, 1, 1001, &path, &submission), Err(Error::Claim));
    assert_eq!(step::claim(SECOND_STATE, 0, 1001, &path, &[]), Err(Error::BadBatch));
}
