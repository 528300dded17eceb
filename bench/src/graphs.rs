//! Checking the largest graph file, against a Rust twin that allocates nothing.

use crate::contest::{Case, Contest};
use reference::{graph, library, sites};
use std::hint::black_box;

const MOST: usize = 8;

#[derive(Clone, Copy, Default)]
struct List {
    masks: [u16; MOST],
    count: usize,
}

impl List {
    fn masks(&self) -> &[u16] {
        &self.masks[..self.count]
    }

    fn has_part_of(&self, set: u16) -> bool {
        self.masks().iter().any(|mask| set & mask == *mask)
    }
}

struct Cursor<'a> {
    rest: &'a [u8],
}

impl Cursor<'_> {
    fn byte(&mut self) -> Result<u8, u32> {
        let (&first, rest) = self.rest.split_first().ok_or(1u32)?;
        self.rest = rest;
        Ok(first)
    }

    fn count(&mut self, least: u8, most: u8) -> Result<usize, u32> {
        match self.byte()? {
            count if (least..=most).contains(&count) => Ok(usize::from(count)),
            _ => Err(3),
        }
    }

    fn list(&mut self, least: u8, acceptors: usize) -> Result<List, u32> {
        let mut list = List::default();
        for _ in 0..self.count(least, MOST as u8)? {
            let mask = u16::from_be_bytes([self.byte()?, self.byte()?]);
            if mask == 0 || u32::from(mask) >> acceptors != 0 {
                return Err(5);
            }
            if list.masks().last().is_some_and(|last| mask <= *last) {
                return Err(4);
            }
            if list.has_part_of(mask) {
                return Err(5);
            }
            list.masks[list.count] = mask;
            list.count += 1;
        }
        Ok(list)
    }
}

fn check(file: &[u8]) -> Result<(), u32> {
    let after = file.get(2..).ok_or(1u32)?;
    if usize::from(u16::from_be_bytes([file[0], file[1]])) != after.len() {
        return Err(1);
    }
    let mut cursor = Cursor { rest: after };
    if cursor.byte()? != 1 {
        return Err(2);
    }
    let acceptors = cursor.count(1, 16)?;
    let learners = cursor.count(1, MOST as u8)?;
    let mut quorums = [List::default(); MOST];
    for list in &mut quorums[..learners] {
        *list = cursor.list(1, acceptors)?;
    }
    let mut safe = [[List::default(); MOST]; MOST];
    for (a, b) in (0..learners).flat_map(|a| (a..learners).map(move |b| (a, b))) {
        safe[a][b] = cursor.list(0, acceptors)?;
        safe[b][a] = safe[a][b];
    }
    if !cursor.rest.is_empty() {
        return Err(1);
    }
    let quorums = &quorums[..learners];
    for (a, row) in safe[..learners].iter().enumerate() {
        for (b, edge) in row[..learners].iter().enumerate().skip(a) {
            for q in quorums[a].masks() {
                for r in quorums[b].masks() {
                    if edge.masks().iter().any(|s| s & q & r == 0) {
                        return Err(6);
                    }
                }
            }
        }
    }
    for ab in &safe[..learners] {
        for (b, bc) in safe[..learners].iter().enumerate() {
            for c in 0..learners {
                for s in ab[b].masks() {
                    if bc[c].masks().iter().any(|t| !ab[c].has_part_of(s | t)) {
                        return Err(7);
                    }
                }
            }
        }
    }
    Ok(())
}

fn check_graph(file: &[u8]) -> u32 {
    check(file).err().unwrap_or(0)
}

pub fn case() -> Case {
    let file = graph::write(&sites::largest());
    let name = format!("checking the largest graph, {} bytes", file.len());
    Case::new(name, move |contest| checking(contest, &file))
}

fn checking(contest: &Contest, file: &[u8]) {
    assert_eq!((library::check_graph(file), check_graph(file)), (0, 0), "the contestants differ");
    contest.run(
        || {
            black_box(library::check_graph(black_box(file)));
        },
        vec![(
            "Rust twin",
            Box::new(|| {
                black_box(check_graph(black_box(file)));
            }),
        )],
    );
}
