//! SHA-256 against a plain scalar one in Rust and one in C.

use crate::contest::{Case, Contest};
use reference::{library, sha256::sha256};
use std::hint::black_box;

extern "C" {
    fn plain_sha256(message: *const u8, len: usize, digest: *mut u8);
}

/// A proposal, an acceptor message with two references, the longest message, and a mebibyte.
const SIZES: [usize; 4] = [17, 75, 4_139, 1_048_576];

pub fn cases() -> Vec<Case> {
    SIZES.map(|size| Case::new(format!("SHA-256 of {size} bytes"), move |on| hash(on, size))).into()
}

fn hash(contest: &Contest, size: usize) {
    let message: Vec<u8> = (0..size).map(|place| (place * 31 + 7) as u8).collect();
    let mut digests = [[0u8; 32]; 2];
    library::sha256(&message, &mut digests[0]);
    unsafe { plain_sha256(message.as_ptr(), message.len(), digests[1].as_mut_ptr()) };
    assert_eq!(digests, [sha256(&message); 2], "the contestants differ on {size} bytes");
    let mut digest = [0u8; 32];
    let mut plain = [0u8; 32];
    contest.run(
        || {
            black_box(library::sha256(black_box(&message), &mut digest));
        },
        vec![
            (
                "plain Rust",
                Box::new(|| {
                    black_box(sha256(black_box(&message)));
                }),
            ),
            (
                "plain C, gcc -O3",
                Box::new(|| {
                    let message = black_box(&message);
                    unsafe {
                        plain_sha256(message.as_ptr(), message.len(), plain.as_mut_ptr());
                    }
                }),
            ),
        ],
    );
}
