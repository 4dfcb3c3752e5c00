//! MD5 by the crate's types and by the archive's calls: the test suite of RFC 1321 whole and in pieces, what a state
//! holds, and buffers of other lengths.

use pcp::md5::{digest, Md5, STATE_LENGTH};
use pcp::{raw, Refusal, DIGEST_LENGTH};

/// The test suite of the RFC (A.5).
const SUITE: [(&[u8], &str); 7] = [
    (b"", "d41d8cd98f00b204e9800998ecf8427e"),
    (b"a", "0cc175b9c0f1b6a831c399e269772661"),
    (b"abc", "900150983cd24fb0d6963f7d28e17f72"),
    (b"message digest", "f96b697d7cb7938d525a2f31aaf161d0"),
    (b"abcdefghijklmnopqrstuvwxyz", "c3fcd3d76192e4007dfb496cca67e13b"),
    (b"ABCDEFGHIJKLMNOPQRSTUVWXYZabcdefghijklmnopqrstuvwxyz0123456789", "d174ab98d277d9f5a5611c2c9f419d9f"),
    (
        b"12345678901234567890123456789012345678901234567890123456789012345678901234567890",
        "57edf4a22be3c955ac49da2e2107b67a",
    ),
];

const SHORT: u8 = Refusal::ShortRecord as u8;

fn hex(bytes: &[u8]) -> String {
    bytes.iter().map(|byte| format!("{byte:02x}")).collect()
}

fn in_pieces<'p>(pieces: impl IntoIterator<Item = &'p [u8]>) -> String {
    let mut md5 = Md5::new();
    for piece in pieces {
        md5.feed(piece);
    }
    hex(&md5.finish())
}

#[test]
fn the_suite_is_the_papers() {
    for (text, printed) in SUITE {
        assert_eq!(hex(&digest(text)), printed);
        for size in 1..=text.len() {
            assert_eq!(in_pieces(text.chunks(size)), printed);
        }
        for cut in 0..=text.len() {
            let (front, rest) = text.split_at(cut);
            assert_eq!(in_pieces([front, b"", rest]), printed);
        }
    }
}

#[test]
fn pieces_give_the_digest_of_the_whole() {
    let bytes: Vec<u8> = (0..=255).cycle().take(1000).collect();
    for length in (0..=130).chain([191, 192, 193, 1000]) {
        let whole = &bytes[..length];
        for size in [1, 3, 55, 56, 63, 64, 65, 127, 128, 129] {
            assert_eq!(in_pieces(whole.chunks(size)), hex(&digest(whole)), "{length} bytes by {size}");
        }
    }
}

#[test]
fn a_state_is_finished_again_and_fed_further() {
    let mut md5 = Md5::default();
    md5.feed(b"abc");
    let other = md5.clone();
    for _ in 0..2 {
        assert_eq!(hex(&md5.finish()), SUITE[2].1);
        assert_eq!(md5, other);
    }
    md5.feed(b"defghijklmnopqrstuvwxyz");
    assert_eq!(hex(&md5.finish()), SUITE[4].1);
    assert_eq!(hex(&other.finish()), SUITE[2].1);
}

#[test]
fn a_state_outlives_a_restart() {
    let mut expected = [0; STATE_LENGTH];
    expected[..16].copy_from_slice(b"\x67\x45\x23\x01\xEF\xCD\xAB\x89\x98\xBA\xDC\xFE\x10\x32\x54\x76");
    assert_eq!(*Md5::new().state(), expected);
    let mut md5 = Md5::new();
    md5.feed(b"abc");
    expected[23] = 3;
    expected[24..27].copy_from_slice(b"abc");
    assert_eq!(*md5.state(), expected);
    md5 = Md5::from_state(expected);
    md5.feed(b"defghijklmnopqrstuvwxyz");
    assert_eq!(hex(&md5.finish()), SUITE[4].1);
}

#[test]
fn any_bytes_are_a_state() {
    // Of 2^64 - 1 bytes: the next makes the block whole, and the count begins again.
    let mut md5 = Md5::from_state([0xFF; STATE_LENGTH]);
    md5.feed(b"a");
    assert_eq!(md5.state()[16..], [0; STATE_LENGTH - 16]);
    let before = md5.finish();
    md5.feed(&[0; 64]);
    assert_ne!(md5.finish(), before);
}

#[test]
fn other_lengths_are_refused_and_change_nothing() {
    let state = *Md5::new().state();
    for length in [0, 1, STATE_LENGTH - 1] {
        let mut short = vec![0x55; length];
        let before = short.clone();
        assert_eq!((raw::md5_new(&mut short), &short), (SHORT, &before));
        assert_eq!((raw::md5_feed(&mut short, b"abc"), &short), (SHORT, &before));
        let mut digest = [0x55; DIGEST_LENGTH];
        assert_eq!((raw::md5_finish(&short, &mut digest), digest), (SHORT, [0x55; DIGEST_LENGTH]));
    }
    for length in [0, 1, DIGEST_LENGTH - 1, DIGEST_LENGTH + 1, 32] {
        let mut digest = vec![0x55; length];
        assert_eq!((raw::md5(b"abc", &mut digest), &digest), (SHORT, &vec![0x55; length]));
        assert_eq!((raw::md5_finish(&state, &mut digest), &digest), (SHORT, &vec![0x55; length]));
    }
}

#[test]
fn bytes_behind_a_state_stay() {
    let mut longer = [0x55; STATE_LENGTH + 9];
    assert_eq!((raw::md5_new(&mut longer), raw::md5_feed(&mut longer, b"abc")), (0, 0));
    assert_eq!(longer[STATE_LENGTH..], [0x55; 9]);
    let mut digest = [0; DIGEST_LENGTH];
    assert_eq!(raw::md5_finish(&longer, &mut digest), 0);
    assert_eq!(hex(&digest), SUITE[2].1);
}
