//! The calls that are timed.

use super::cases::{Case, Task};
use super::twin::{self, REPORT_LEN};
use crate::contest::Call;
use reference::library;
use reference::message::LONGEST;
use std::hint::black_box;

/// The contestants of a case: the library, the twin and the model.
pub const CONTESTANTS: usize = 3;

/// The library and the twin work everything out anew in each call, while the model's
/// round remembers what the messages mean that it holds. So that the model has the same
/// to do, its call starts from the bytes of the round too, and pushes every message.
pub fn calls(task: Task, case: &Case) -> [Call<'_>; CONTESTANTS] {
    match task {
        Task::Report => reports(case),
        Task::First | Task::Second | Task::Answer => deliveries(case),
    }
}

/// A delivery starts from the same round each time, which is copied for all of them.
fn deliveries(case: &Case) -> [Call<'_>; CONTESTANTS] {
    let Case { bytes, message } = case;
    let (mut first, mut second) = (bytes.clone(), bytes.clone());
    let (mut reply, mut twin_reply) = ([0; LONGEST], [0; LONGEST]);
    [
        Box::new(move || {
            first.copy_from_slice(&bytes[..]);
            black_box(library::deliver(&mut first[..], black_box(message), &mut reply));
        }),
        Box::new(move || {
            second.copy_from_slice(&bytes[..]);
            black_box(twin::deliver(&mut second[..], black_box(message), &mut twin_reply));
        }),
        Box::new(move || {
            black_box(black_box(case).modelled().deliver(message, LONGEST)).ok();
        }),
    ]
}

fn reports(case: &Case) -> [Call<'_>; CONTESTANTS] {
    let bytes = &case.bytes;
    let (mut report, mut twin_report) = ([0; REPORT_LEN], [0; REPORT_LEN]);
    [
        Box::new(move || {
            black_box(library::report(black_box(&bytes[..]), 0, &mut report));
        }),
        Box::new(move || {
            black_box(twin::report(black_box(&bytes[..]), 0, &mut twin_report));
        }),
        Box::new(move || {
            black_box(black_box(case).modelled().report(0)).ok();
        }),
    ]
}
