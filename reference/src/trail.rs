//! A digest of all that the library answered and left in the buffers that a call
//! may write to, so that two builds of it can be compared on the same random rounds.

#[derive(Default)]
pub struct Trail {
    digest: u64,
    answers: u64,
}

impl Trail {
    /// One answer, and the buffers as the call left them.
    pub fn add(&mut self, answer: u32, buffers: &[&[u8]]) {
        self.answers += 1;
        self.mix(answer.into());
        for buffer in buffers {
            self.mix(buffer.len() as u64);
            for chunk in buffer.chunks(8) {
                let mut word = [0; 8];
                word[..chunk.len()].copy_from_slice(chunk);
                self.mix(u64::from_le_bytes(word));
            }
        }
    }

    /// For each word one-to-one in the digest before it, so that a difference lasts
    /// until another one happens to undo it.
    fn mix(&mut self, word: u64) {
        self.digest = (self.digest ^ word).wrapping_mul(0x9e37_79b9_7f4a_7c15);
        self.digest ^= self.digest >> 32;
    }

    /// The digest in words, for a line of the judge's.
    pub fn told(&self) -> String {
        let Trail { digest, answers } = self;
        format!("{answers} answers; digest of these and of each byte of the round, reply and report buffers after each: {digest:016x}")
    }
}

#[cfg(test)]
mod tests {
    use super::*;

    fn told(calls: &[(u32, &[&[u8]])]) -> String {
        let mut trail = Trail::default();
        for (answer, buffers) in calls {
            trail.add(*answer, buffers);
        }
        trail.told()
    }

    #[test]
    fn the_digest_tells_answers_bytes_and_their_order_apart() {
        let trails = [
            told(&[]),
            told(&[(0, &[])]),
            told(&[(17, &[])]),
            told(&[(0, &[&[1, 2]])]),
            told(&[(0, &[&[2, 1]])]),
            told(&[(0, &[&[1, 2, 0]])]),
            told(&[(0, &[&[1], &[2]])]),
            told(&[(0, &[&[0, 0, 0, 0, 0, 0, 0, 0, 1]])]),
            told(&[(0, &[&[0, 0, 0, 0, 0, 0, 0, 0, 2]])]),
            told(&[(0, &[]), (17, &[])]),
            told(&[(17, &[]), (0, &[])]),
        ];
        for (n, trail) in trails.iter().enumerate() {
            assert!(!trails[..n].contains(trail), "{trail} twice, once at {n}");
        }
        assert_eq!(told(&[(17, &[&[1, 2]])]), told(&[(17, &[&[1, 2]])]));
    }
}
