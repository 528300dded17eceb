//! Rounds: opening, delivery and report, on sample rounds, on random sites, and
//! on rounds that are handed in damaged.

mod agreement;
mod bounds;
mod forgery;
mod judged;
mod liar;
mod neighbours;
mod openings;
mod owns;
mod places;
mod repeats;
mod samples;
mod seat;
mod tampered;
mod traffic;
mod watched;

use crate::tally::Tally;
use crate::Settings;
use agreement::Met;
use neighbours::Neighbours;
use reference::refusal::STRUCK;
use traffic::Checks;
use watched::{Counts, Origin, Referee};

/// How many rounds run on random sites; fewer while the model runs alone.
const ROUNDS: u64 = if cfg!(feature = "rounds") { 20_000 } else { 1_000 };
/// How many openings from random files are tried beside each site.
const OPENINGS: usize = 3;
/// How often each number and each kind of case must be reached.
const LEAST: u64 = if cfg!(feature = "rounds") { 100 } else { 1 };
/// What the lines say of a run without the library.
const ALONE: &str = if cfg!(feature = "rounds") { "" } else { ", the model alone" };

/// What an opening can answer: 0, a row of the file, or 17 behind them.
const OF_OPENING: [usize; 9] = [0, 1, 2, 3, 4, 5, 6, 7, 17];
/// Every number of the table.
const OF_OPENED: [usize; 17] = [0, 1, 2, 3, 4, 5, 6, 7, 8, 9, 10, 11, 12, 14, 15, 16, 17];
/// 5, 6 and 7 are about graph files.
const OF_HANDED_IN: [usize; 14] = [0, 1, 2, 3, 4, 8, 9, 10, 11, 12, 14, 15, 16, 17];

pub fn run(settings: &Settings) -> Tally {
    let mut samples = Referee::new(settings.random(5));
    samples::run(&mut samples);
    samples.tally.line(
        "rounds",
        &format!("document 01's sample rounds and the examples of rows 8 to 17{ALONE}"),
    );
    let mut places = Referee::new(settings.random(7));
    places::run(&mut places);
    places.tally.line(
        "rounds",
        &format!("each number of 128 to 255 as a place of a round handed in{ALONE}"),
    );
    samples.tally.add(&places.tally);
    samples.tally.add(&run_openings(settings));
    samples.tally.add(&run_owns(settings));
    samples.tally.add(&run_sites(settings));
    samples.tally
}

/// Files of every kind into buffers of every length.
fn run_openings(settings: &Settings) -> Tally {
    let mut referee = Referee::new(settings.random(8));
    openings::run(&mut referee);
    let Referee { opened, mut tally, .. } = referee;
    opened.reached.line("rounds", "openings from each kind of file", &OF_OPENING, 1, &mut tally);
    tally.line(
        "rounds",
        &format!("files of each row and accepted ones, into buffers of no bytes, too short and long enough{ALONE}"),
    );
    tally
}

/// Own acceptor numbers, given and handed in.
fn run_owns(settings: &Settings) -> Tally {
    let mut referee = Referee::new(settings.random(9));
    let [given, handed_in] = owns::run(&mut referee);
    let mut tally = referee.tally;
    given.tell(&mut tally, LEAST, "given to an opening");
    handed_in.tell(&mut tally, LEAST, "handed in");
    tally.line(
        "rounds",
        &format!("own acceptor numbers, of which 256 alone stands for none{ALONE}"),
    );
    tally
}

/// Random sites, until enough rounds ran on them.
fn run_sites(settings: &Settings) -> Tally {
    let mut referee = Referee::new(settings.random(6));
    let mut checks = Checks::default();
    let mut sites = 0;
    while referee.rounds < ROUNDS * settings.scale {
        traffic::run_site(&mut referee, &mut checks);
        for _ in 0..OPENINGS {
            traffic::run_opening(&mut referee);
        }
        sites += 1;
    }
    let Referee { opened, handed_in, short, above, only_above, mut tally, rounds, trail, .. } =
        referee;
    tell(&opened, Origin::Opened, &OF_OPENED, &mut tally);
    let which = "openings into buffers that are too short";
    short.line("rounds", which, &OF_OPENING[1..], LEAST, &mut tally);
    tell(&handed_in, Origin::HandedIn, &OF_HANDED_IN, &mut tally);
    println!("rounds: rounds handed in: {above} with an own number above 256, {only_above} of them with no other fault");
    tally.check(only_above >= LEAST, || {
        format!("an own number above 256 as the only fault {only_above} times, not {LEAST}")
    });
    let Met { bound, apart } = checks.met;
    println!("rounds: agreement met {bound} pairs of learners that were bound and had decided, and {apart} that were not bound and ended apart");
    checks.bounds.tell(&mut tally, LEAST);
    let told = format!(
        "{rounds} rounds on {sites} sites, {} handed in of which {} pass row 17{ALONE}",
        handed_in.rounds, handed_in.taken
    );
    tally.line("rounds", &told);
    if cfg!(feature = "rounds") {
        println!("rounds: {}", trail.told());
    }
    tell_neighbours(&mut checks.neighbours);
    tally.add(&checks.neighbours.tally);
    tally
}

/// Says whom both texts caught, and checks that they caught enough.
fn tell_neighbours(neighbours: &mut Neighbours) {
    let Neighbours { tally, rounds, awaiting, shared, forking, acceptors, caught } = neighbours;
    for (what, count) in [
        ("a message awaiting its return", *awaiting),
        ("a message held in another round", *shared),
        ("an acceptor caught", *acceptors),
    ] {
        tally.check(count >= LEAST, || format!("neighbours: {what} {count} times, not {LEAST}"));
    }
    println!("rounds: the texts of 19 November and 4 December: {acceptors} acceptors caught in {forking} rounds of {rounds}, {caught} times over all messages");
    let told = format!(
        "both texts on each message, {awaiting} awaiting return and {shared} held in an earlier round of the site{ALONE}"
    );
    tally.line("rounds", &told);
}

/// Says what the calls on some rounds met, and checks that they met enough.
fn tell(counts: &Counts, origin: Origin, wanted: &[usize], tally: &mut Tally) {
    let which = origin.told();
    counts.reached.line("rounds", which, wanted, LEAST, tally);
    counts.answered.never("rounds", which, STRUCK, tally);
    let Counts { deliveries, accepted, returned, replies, longest, reports, .. } = counts;
    let [undecided, decided, split] = counts.outcomes;
    println!("rounds: {which}: {deliveries} deliveries, {accepted} accepted, {returned} of these returning; {replies} replies of up to {longest} bytes");
    println!("rounds: {which}: {reports} reports: {undecided} undecided, {decided} decided, {split} split");
    for (what, count) in [
        ("message returning", *returned),
        ("undecided", undecided),
        ("decided", decided),
        ("split", split),
    ] {
        tally.check(count >= LEAST, || format!("{which}: {what} {count} times, not {LEAST}"));
    }
    counts.repeats.tell(tally, LEAST, origin);
}
