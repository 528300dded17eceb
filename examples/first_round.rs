//! The same as first_round.c: one house and bay, one controller, one vent computer. Ends with 0 if the page says agreed, value 70.
//!
//!     rustc -O --edition 2021 examples/first_round.rs -Lcrates/hpaxos/out -lhpaxos -o first_round && ./first_round

// The names of include/hpaxos.h.
const HPAXOS_ACCEPTED: u32 = 0;
const HPAXOS_REPLIED: u32 = 256;
const HPAXOS_DECIDED: u8 = 1;
const HPAXOS_LISTENING: u32 = 256;
const HPAXOS_ROUND_BYTES: usize = 23734;
const HPAXOS_REPLY_BYTES: usize = 4139;
const HPAXOS_REPORT_BYTES: usize = 17;
const HPAXOS_PROPOSAL_BYTES: usize = 17;

extern "C" {
    fn hpaxos_open(graph: *const u8, graph_len: usize, house: u16, bay: u16, acceptor: u32, round: *mut u8, round_len: usize) -> u32;
    fn hpaxos_write_proposal(house: u16, bay: u16, proposer: u8, round: u32, value: u32, message: *mut u8, len: usize) -> u32;
    fn hpaxos_deliver(round: *mut u8, round_len: usize, message: *const u8, message_len: usize, reply: *mut u8, reply_len: usize) -> u32;
    fn hpaxos_report(round: *const u8, round_len: usize, learner: u8, out: *mut u8, out_len: usize) -> u32;
}

/// The trust plan: one acceptor, one learner, who trusts it.
const PLAN: [u8; 11] = [0, 9, 1, 1, 1, 1, 0, 1, 1, 0, 1];

/// A round of house 1, bay 12, for an acceptor number or HPAXOS_LISTENING.
fn open(acceptor: u32) -> Vec<u8> {
    let mut round = vec![0; HPAXOS_ROUND_BYTES];
    let row = unsafe { hpaxos_open(PLAN.as_ptr(), PLAN.len(), 1, 12, acceptor, round.as_mut_ptr(), round.len()) };
    assert_eq!(row, HPAXOS_ACCEPTED, "turned down by row {row}");
    round
}

/// Delivers a message; the reply's bytes, none where there is no reply.
fn deliver(round: &mut [u8], message: &[u8]) -> Vec<u8> {
    let mut reply = vec![0; HPAXOS_REPLY_BYTES];
    let answer = unsafe { hpaxos_deliver(round.as_mut_ptr(), round.len(), message.as_ptr(), message.len(), reply.as_mut_ptr(), reply.len()) };
    assert!(answer == HPAXOS_ACCEPTED || answer >= HPAXOS_REPLIED, "turned down by row {answer}");
    reply.truncate(answer.saturating_sub(HPAXOS_REPLIED) as usize);
    reply
}

fn main() {
    let mut proposal = [0u8; HPAXOS_PROPOSAL_BYTES];
    assert_eq!(unsafe { hpaxos_write_proposal(1, 12, 0, 5, 70, proposal.as_mut_ptr(), proposal.len()) }, HPAXOS_ACCEPTED);
    let mut controller = open(0);
    let first = deliver(&mut controller, &proposal);
    let second = deliver(&mut controller, &first);
    assert!(deliver(&mut controller, &second).is_empty(), "its vote returns, and would only be repeated");

    let mut vent_computer = open(HPAXOS_LISTENING);
    for message in [&proposal[..], &first, &second] {
        assert!(deliver(&mut vent_computer, message).is_empty());
    }
    let mut page = [0u8; HPAXOS_REPORT_BYTES];
    assert_eq!(unsafe { hpaxos_report(vent_computer.as_ptr(), vent_computer.len(), 0, page.as_mut_ptr(), page.len()) }, HPAXOS_ACCEPTED);
    assert_eq!(page[0], HPAXOS_DECIDED, "not agreed");
    let ballot = u64::from_be_bytes(page[1..9].try_into().unwrap());
    println!("agreed: round number {}, value {}", ballot >> 32, ballot as u32);
    assert_eq!((first.len(), second.len(), ballot), (43, 75, (5 << 32) + 70));
}
