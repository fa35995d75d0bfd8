//! Which markets are run, by the program's arguments.
use crate::markets::{shapes, Kind, Shape};

/// What is written of arguments that are none.
pub const USAGE: &str =
    "usage: [times] [PEOPLE LISTED KIND]; kinds: all_tenants half_tenants no_tenants one_list chain";

/// The markets, and whether they are timed: `times` may come first, and then one market or nothing.
pub fn parse(words: &[String]) -> Option<(Vec<Shape>, bool)> {
    match words {
        [first, rest @ ..] if first == "times" => Some((chosen(rest)?, true)),
        _ => Some((chosen(words)?, false)),
    }
}

fn chosen(words: &[String]) -> Option<Vec<Shape>> {
    match words {
        [] => Some(shapes()),
        [people, listed, kind] => Some(vec![Shape {
            people: people.parse().ok()?,
            listed: listed.parse().ok()?,
            kind: Kind::named(kind)?,
        }]),
        _ => None,
    }
}
