//! The C interface under judgement. A slice is lent as a pointer and a length;
//! each wrapper lends exactly the bytes of its slices.

use std::ptr::{null, null_mut};

#[cfg(feature = "digest")]
pub use digest::sha256;
#[cfg(feature = "graphs")]
pub use graphs::check_graph;
#[cfg(feature = "messages")]
pub use messages::{read_message, reference, write_proposal};
#[cfg(feature = "rounds")]
pub use rounds::{deliver, open, report};

/// "a null pointer is allowed where the length is 0": here it is always one.
pub fn start(bytes: &[u8]) -> *const u8 {
    if bytes.is_empty() {
        return null();
    }
    bytes.as_ptr()
}

pub fn start_mut(bytes: &mut [u8]) -> *mut u8 {
    if bytes.is_empty() {
        return null_mut();
    }
    bytes.as_mut_ptr()
}

#[cfg(feature = "digest")]
mod digest {
    use super::{start, start_mut};

    extern "C" {
        fn hpaxos_sha256(
            message: *const u8,
            message_len: usize,
            digest: *mut u8,
            digest_len: usize,
        ) -> u32;
    }

    pub fn sha256(message: &[u8], digest: &mut [u8]) -> u32 {
        unsafe { hpaxos_sha256(start(message), message.len(), start_mut(digest), digest.len()) }
    }
}

#[cfg(feature = "messages")]
mod messages {
    use super::{start, start_mut};

    extern "C" {
        fn hpaxos_read_message(
            bytes: *const u8,
            len: usize,
            fields: *mut u8,
            fields_len: usize,
        ) -> u32;
        fn hpaxos_reference(
            bytes: *const u8,
            len: usize,
            n: usize,
            id: *mut u8,
            id_len: usize,
        ) -> u32;
        fn hpaxos_write_proposal(
            house: u16,
            bay: u16,
            proposer: u8,
            round: u32,
            value: u32,
            message: *mut u8,
            len: usize,
        ) -> u32;
    }

    pub fn read_message(bytes: &[u8], fields: &mut [u8]) -> u32 {
        unsafe { hpaxos_read_message(start(bytes), bytes.len(), start_mut(fields), fields.len()) }
    }

    pub fn reference(bytes: &[u8], n: usize, id: &mut [u8]) -> u32 {
        unsafe { hpaxos_reference(start(bytes), bytes.len(), n, start_mut(id), id.len()) }
    }

    pub fn write_proposal(
        house: u16,
        bay: u16,
        proposer: u8,
        round: u32,
        value: u32,
        message: &mut [u8],
    ) -> u32 {
        let (to, len) = (start_mut(message), message.len());
        unsafe { hpaxos_write_proposal(house, bay, proposer, round, value, to, len) }
    }
}

#[cfg(feature = "graphs")]
mod graphs {
    use super::start;

    extern "C" {
        fn hpaxos_check_graph(file: *const u8, len: usize) -> u32;
    }

    pub fn check_graph(file: &[u8]) -> u32 {
        unsafe { hpaxos_check_graph(start(file), file.len()) }
    }
}

#[cfg(feature = "rounds")]
mod rounds {
    use super::{start, start_mut};
    use crate::layout::LISTENING;

    extern "C" {
        fn hpaxos_open(
            graph: *const u8,
            graph_len: usize,
            house: u16,
            bay: u16,
            acceptor: u32,
            round: *mut u8,
            round_len: usize,
        ) -> u32;
        fn hpaxos_deliver(
            round: *mut u8,
            round_len: usize,
            message: *const u8,
            message_len: usize,
            reply: *mut u8,
            reply_len: usize,
        ) -> u32;
        fn hpaxos_report(
            round: *const u8,
            round_len: usize,
            learner: u8,
            out: *mut u8,
            out_len: usize,
        ) -> u32;
    }

    /// An acceptor number, or none: a listening round.
    pub fn open(graph: &[u8], house: u16, bay: u16, own: Option<u32>, round: &mut [u8]) -> u32 {
        let acceptor = own.unwrap_or(LISTENING as u32);
        let (to, len) = (start_mut(round), round.len());
        unsafe { hpaxos_open(start(graph), graph.len(), house, bay, acceptor, to, len) }
    }

    pub fn deliver(round: &mut [u8], message: &[u8], reply: &mut [u8]) -> u32 {
        unsafe {
            hpaxos_deliver(
                start_mut(round),
                round.len(),
                start(message),
                message.len(),
                start_mut(reply),
                reply.len(),
            )
        }
    }

    pub fn report(round: &[u8], learner: u8, out: &mut [u8]) -> u32 {
        let (to, len) = (start_mut(out), out.len());
        unsafe { hpaxos_report(start(round), round.len(), learner, to, len) }
    }
}
