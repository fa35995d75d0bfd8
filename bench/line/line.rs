//! You request my house, I get your turn: in plain Rust, written for speed.
use crate::markets::{Market, NONE};

/// Who gets which room, and the asks and looks of the run.
pub struct Outcome {
    pub rooms: Vec<usize>,
    pub asks: u64,
    pub looks: u64,
}

// The people who wait, linked by number. The number after all people stands for the end.
struct Line {
    next: Vec<usize>,
    prev: Vec<usize>,
    waits: Vec<bool>,
}

impl Line {
    fn whole(people: usize) -> Self {
        let mut next: Vec<usize> = (1..=people + 1).collect();
        next[people] = 0;
        let mut prev: Vec<usize> = Vec::with_capacity(people + 1);
        prev.push(people);
        prev.extend(0..people);
        Line {
            next,
            prev,
            waits: vec![true; people],
        }
    }

    fn unlink(&mut self, person: usize) {
        let (before, behind) = (self.prev[person], self.next[person]);
        self.next[before] = behind;
        self.prev[behind] = before;
    }

    fn leave(&mut self, person: usize) {
        self.unlink(person);
        self.waits[person] = false;
    }

    fn bring_to_front(&mut self, person: usize, end: usize) {
        self.unlink(person);
        let first = self.next[end];
        self.next[person] = first;
        self.prev[first] = person;
        self.next[end] = person;
        self.prev[person] = end;
    }
}

// A run between two turns.
struct Run<'a> {
    market: &'a Market,
    line: Line,
    asked: Vec<bool>,
    remaining: Vec<bool>,
    rooms: Vec<usize>,
    // Where each person reads on, as a place among all entries.
    cursors: Vec<usize>,
    looks: u64,
}

impl Run<'_> {
    // Reads on to the best room that remains.
    fn wish(&mut self, person: usize) -> Option<usize> {
        let from = self.cursors[person];
        let rest = &self.market.entries[from..self.market.starts[person + 1]];
        let passed = rest.iter().position(|&room| self.remaining[room]);
        let read = passed.unwrap_or(rest.len());
        self.cursors[person] = from + read;
        self.looks += read as u64 + u64::from(passed.is_some());
        passed.map(|place| rest[place])
    }

    fn grant(&mut self, person: usize, room: usize) {
        self.rooms[person] = room;
        if room != NONE {
            self.remaining[room] = false;
        }
        self.line.leave(person);
    }

    // The front of the line, up to the tenant, is a loop: each gets the home of the one before.
    fn close_loop(&mut self, tenant: usize, room: usize, end: usize) {
        let mut given = room;
        loop {
            let member = self.line.next[end];
            self.grant(member, given);
            if member == tenant {
                return;
            }
            given = self.market.homes[member];
        }
    }

    fn turn(&mut self, person: usize, end: usize) {
        self.asked[person] = true;
        let Some(room) = self.wish(person) else {
            self.grant(person, self.market.homes[person]);
            return;
        };
        let tenant = self.market.tenants[room];
        if tenant == NONE || !self.line.waits[tenant] {
            self.grant(person, room);
        } else if self.asked[tenant] {
            self.close_loop(tenant, room, end);
        } else {
            self.asked[tenant] = true;
            self.line.bring_to_front(tenant, end);
        }
    }
}

/// Who gets which room.
pub fn run(market: &Market) -> Outcome {
    let people = market.people();
    let mut run = Run {
        market,
        line: Line::whole(people),
        asked: vec![false; people],
        remaining: vec![true; market.tenants.len()],
        rooms: vec![NONE; people],
        cursors: market.starts[..people].to_vec(),
        looks: 0,
    };
    let mut asks = 0;
    loop {
        let person = run.line.next[people];
        if person == people {
            return Outcome {
                rooms: run.rooms,
                asks,
                looks: run.looks,
            };
        }
        asks += 1;
        run.turn(person, people);
    }
}
