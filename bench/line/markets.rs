//! The markets that are timed. They are those of `crates/trade_bench`, drawn by the same steps.
use crate::generator::Generator;
use std::fmt;

const SEED: u64 = 1;

const SIZES: [usize; 6] = [100, 500, 1000, 2000, 4000, 8000];

// How many rooms each person lists.
const LISTED: [usize; 3] = [5, 20, 40];

const KINDS: [(Kind, &[usize]); 5] = [
    (Kind::AllTenants, &LISTED),
    (Kind::HalfTenants, &LISTED),
    (Kind::NoTenants, &LISTED),
    (Kind::OneList, &[40]),
    (Kind::Chain, &[1]),
];

/// What stands for no room and for nobody. The proved line has an `Option` there, which takes twice the memory.
pub const NONE: usize = usize::MAX;

/// Who lives where, and what is listed.
#[derive(Clone, Copy)]
pub enum Kind {
    /// Everybody lives somewhere, and lists rooms of their own.
    AllTenants,
    /// Each person lives somewhere with a chance of a half, and lists rooms of their own.
    HalfTenants,
    /// Nobody lives anywhere, and each person lists rooms of their own.
    NoTenants,
    /// Nobody lives anywhere, and all list the same rooms.
    OneList,
    /// Each tenant lists the rooms of those who come next, and the last lists a vacant room.
    Chain,
}

impl Kind {
    /// The kind of this name, if there is one.
    pub fn named(name: &str) -> Option<Kind> {
        let mut kinds = KINDS.iter().map(|&(kind, _)| kind);
        kinds.find(|kind| kind.to_string() == name)
    }
}

impl fmt::Display for Kind {
    fn fmt(&self, f: &mut fmt::Formatter<'_>) -> fmt::Result {
        f.write_str(match self {
            Kind::AllTenants => "all_tenants",
            Kind::HalfTenants => "half_tenants",
            Kind::NoTenants => "no_tenants",
            Kind::OneList => "one_list",
            Kind::Chain => "chain",
        })
    }
}

/// How many people there are, how many rooms each lists, and the kind of market.
#[derive(Clone, Copy)]
pub struct Shape {
    pub people: usize,
    pub listed: usize,
    pub kind: Kind,
}

/// All shapes that are run, the smallest first.
pub fn shapes() -> Vec<Shape> {
    let mut shapes = Vec::new();
    for people in SIZES {
        for (kind, lengths) in KINDS {
            for &listed in lengths {
                shapes.push(Shape {
                    people,
                    listed,
                    kind,
                });
            }
        }
    }
    shapes
}

/// Who lives where, and what each person lists: one list after the other, and where each begins.
pub struct Market {
    pub homes: Vec<usize>,
    pub tenants: Vec<usize>,
    pub entries: Vec<usize>,
    pub starts: Vec<usize>,
}

impl Market {
    fn new(rooms: usize, homes: Vec<usize>) -> Self {
        let mut tenants = vec![NONE; rooms];
        for (person, &room) in homes.iter().enumerate() {
            if room != NONE {
                tenants[room] = person;
            }
        }
        Market {
            homes,
            tenants,
            entries: Vec::new(),
            starts: vec![0],
        }
    }

    fn push_list(&mut self, list: &[usize]) {
        self.entries.extend_from_slice(list);
        self.starts.push(self.entries.len());
    }

    pub fn people(&self) -> usize {
        self.homes.len()
    }
}

impl Shape {
    /// The market of this shape, always the same.
    pub fn market(&self) -> Market {
        match self.kind {
            Kind::AllTenants => self.drawn(10),
            Kind::HalfTenants => self.drawn(5),
            Kind::NoTenants => self.drawn(0),
            Kind::OneList => self.one_list(),
            Kind::Chain => self.chain(),
        }
    }

    // Of ten people so many live somewhere, on average, and each lists rooms of their own.
    fn drawn(&self, tenths: usize) -> Market {
        let mut generator = Generator::new(SEED);
        let mut rooms = shuffled(self.people, &mut generator);
        let homes = drawn_homes(&rooms, tenths, &mut generator);
        let mut market = Market::new(self.people, homes);
        for person in 0..self.people {
            let list = list_without(
                market.homes[person],
                self.listed,
                &mut rooms,
                &mut generator,
            );
            market.push_list(&list);
        }
        market
    }

    fn one_list(&self) -> Market {
        let mut generator = Generator::new(SEED);
        let mut rooms: Vec<usize> = (0..self.people).collect();
        let list = list_without(NONE, self.listed, &mut rooms, &mut generator);
        let mut market = Market::new(self.people, vec![NONE; self.people]);
        for _ in 0..self.people {
            market.push_list(&list);
        }
        market
    }

    fn chain(&self) -> Market {
        let mut market = Market::new(self.people + 1, (0..self.people).collect());
        for person in 0..self.people {
            let last = person.saturating_add(self.listed).min(self.people);
            let list: Vec<usize> = (person + 1..=last).collect();
            market.push_list(&list);
        }
        market
    }
}

// All numbers below the count, in a drawn order.
fn shuffled(count: usize, generator: &mut Generator) -> Vec<usize> {
    let mut rooms: Vec<usize> = (0..count).collect();
    for place in 0..rooms.len() {
        swap_on(&mut rooms, place, generator);
    }
    rooms
}

// Of ten people so many live somewhere, on average, each in the room at their own place.
fn drawn_homes(rooms: &[usize], tenths: usize, generator: &mut Generator) -> Vec<usize> {
    let mut homes = Vec::with_capacity(rooms.len());
    for &room in rooms {
        homes.push(if generator.below(10) < tenths {
            room
        } else {
            NONE
        });
    }
    homes
}

// Puts a room that stands at this place or behind it at this place.
fn swap_on(rooms: &mut [usize], place: usize, generator: &mut Generator) {
    let other = place + generator.below(rooms.len() - place);
    rooms.swap(place, other);
}

// So many different rooms that are not the home.
fn list_without(
    home: usize,
    listed: usize,
    rooms: &mut [usize],
    generator: &mut Generator,
) -> Vec<usize> {
    let mut list = Vec::with_capacity(listed);
    for place in 0..rooms.len() {
        if list.len() == listed {
            break;
        }
        swap_on(rooms, place, generator);
        if rooms[place] != home {
            list.push(rooms[place]);
        }
    }
    list
}
