//! Sets of places: "each set is one value with its own operations", here on rising
//! lists.

use super::pool::{places_of, set_number};

/// "Lowest place, 16 for the empty set."
pub fn lowest(set: u16) -> usize {
    places_of(set.into()).first().copied().unwrap_or(16)
}

pub fn size(set: u16) -> usize {
    places_of(set.into()).len()
}

/// "With a place, unchanged for a place above 15."
pub fn with(set: u16, place: u8) -> u16 {
    let mut places = places_of(set.into());
    let place = usize::from(place);
    if place <= 15 && !places.contains(&place) {
        places.push(place);
    }
    set_number(&places) as u16
}

/// "Without a place, unchanged for a place above 15."
pub fn without(set: u16, place: u8) -> u16 {
    let mut places = places_of(set.into());
    places.retain(|&other| other != usize::from(place));
    set_number(&places) as u16
}

/// Whether the set has the place.
pub fn has(set: u16, place: u8) -> bool {
    places_of(set.into()).contains(&place.into())
}
