//! SHA-256 on random messages.

use crate::tally::Tally;
use crate::Settings;
use reference::sha256::sha256;

/// FIPS 180-4's published vectors.
fn own_vectors(tally: &mut Tally) {
    let long = vec![b'a'; 1_000_000];
    let vectors: [(&[u8], &str); 5] = [
        (b"", "e3b0c44298fc1c149afbf4c8996fb92427ae41e4649b934ca495991b7852b855"),
        (b"abc", "ba7816bf8f01cfea414140de5dae2223b00361a396177a9cb410ff61f20015ad"),
        (
            b"abcdbcdecdefdefgefghfghighijhijkijkljklmklmnlmnomnopnopq",
            "248d6a61d20638b8e5c026930c3e6039a33ce45964ff2167f6ecedd419db06c1",
        ),
        (
            b"abcdefghbcdefghicdefghijdefghijkefghijklfghijklmghijklmnhijklmnoijklmnopjklmnopqklmnopqrlmnopqrsmnopqrstnopqrstu",
            "cf5b16a778af8380036ce59e7b0492370b249b11e8f07a51afac45037afee9d1",
        ),
        (&long, "cdc76e5c9914fb9281a1c7e284d73e67f1809a48a497200e046d39ccc7112cd0"),
    ];
    for (message, expected) in vectors {
        let digest: String = sha256(message).iter().map(|byte| format!("{byte:02x}")).collect();
        tally.check(digest == expected, || format!("{} bytes give {digest}", message.len()));
    }
}

pub fn run(settings: &Settings) -> Tally {
    let mut total = Tally::default();
    own_vectors(&mut total);
    total.line("digest", "own SHA-256 on FIPS 180-4's vectors");
    #[cfg(feature = "digest")]
    total.add(&linked::random_messages(settings));
    let _ = settings;
    total
}

#[cfg(feature = "digest")]
mod linked {
    use super::*;
    use crate::tally::Lent;
    use reference::library;

    const MESSAGES: u64 = 20_000;
    const LONGEST: usize = 5_000;
    const LARGEST_BUFFER: usize = 40;

    pub fn random_messages(settings: &Settings) -> Tally {
        let mut tally = Tally::default();
        let mut random = settings.random(1);
        let count = MESSAGES * settings.scale;
        for _ in 0..count {
            let len = match random.below(4) {
                // Around the ends of blocks, where padding takes one block or two.
                0 => (64 * random.below(5) + random.between(50, 70)).min(LONGEST),
                1 => random.between(0, 130),
                _ => random.between(0, LONGEST),
            };
            let message = random.bytes(len);
            let lent = message.clone();
            let room = random.between(0, LARGEST_BUFFER);
            let mut digest = Lent::new(&mut random, room);
            let answer = library::sha256(&lent, digest.window());
            let (number, front) =
                if room < 32 { (17, Vec::new()) } else { (0, sha256(&message).to_vec()) };
            let agreed = answer == number && digest.holds_only(&front) && lent == message;
            tally.check(agreed, || format!("{len} bytes into {room}: answer {answer}"));
        }
        tally.line(
            "digest",
            &format!("{count} random messages of 0 to {LONGEST} bytes, output buffers of 0 to {LARGEST_BUFFER} bytes"),
        );
        tally
    }
}
