//! What a case with a long give-up list aims at. The first cases go through all aims, so that few cases fill every cell.

use crate::chance::Chance;
use crate::lists::{self, Span, DISTANCES, ENDS, FAR, FAULTS, LENGTHS, QUARTERS};
use crate::record::{FREE, LEAVING};

#[derive(Clone, Copy, Debug, PartialEq, Eq)]
pub enum Order {
    Ascending,
    Descending,
    Shuffled,
    /// Ascending from an id in the middle, then from the first.
    Turned,
    /// One quarter of the ids after the other.
    ByQuarters,
    /// An id of each quarter in turn.
    Across,
}

const ORDERS: [Order; 8] = [
    Order::Ascending,
    Order::Descending,
    Order::Shuffled,
    Order::Shuffled,
    Order::Shuffled,
    Order::Turned,
    Order::ByQuarters,
    Order::Across,
];

/// What follows on an accepted list.
#[derive(Clone, Copy, Debug, PartialEq, Eq)]
pub enum Then {
    Nothing,
    Counts,
    /// Advances past 15, with a guard posted on a buffer of the list or on another.
    Posted {
        of_the_list: bool,
    },
    HandBack,
    SecondGiveUp,
}

const USES: [Then; 5] = [
    Then::Counts,
    Then::Posted { of_the_list: true },
    Then::Posted { of_the_list: false },
    Then::HandBack,
    Then::SecondGiveUp,
];

#[derive(Clone, Copy, Debug)]
pub struct Aim {
    /// The refusal, if there is to be one, and one that would come later in the list.
    pub refusal: Option<u32>,
    pub later: Option<u32>,
    /// Where the first fault stands.
    pub places: Span,
    /// How far before it the equal entry stands.
    pub distances: Span,
    pub equal_to_first: bool,
    /// One id of these is given up, or is the one at fault.
    pub ids: Span,
    pub state: u8,
    pub lengths: Span,
    pub order: Order,
    pub then: Then,
}

const ANY: Aim = Aim {
    refusal: None,
    later: None,
    places: (0, 256),
    distances: (1, 256),
    equal_to_first: false,
    ids: (1, 256),
    state: FREE,
    lengths: (16, 256),
    order: Order::Shuffled,
    then: Then::Nothing,
};

const EQUAL: Aim = Aim {
    refusal: Some(10),
    ..ANY
};

/// Every aim once, but for the order and the state where these are not the aim.
pub fn all() -> Vec<Aim> {
    let mut all = Vec::new();
    all.extend(LENGTHS.map(|lengths| Aim { lengths, ..ANY }));
    for order in [Order::Ascending, Order::Descending] {
        all.push(Aim { order, ..ANY });
    }
    for number in FAULTS {
        let far = lists::places(number).into_iter().filter(|p| p.0 >= FAR);
        all.extend(far.map(|places| Aim {
            refusal: Some(number),
            places,
            ..ANY
        }));
    }
    all.extend(ENDS.map(|id| Aim {
        ids: (id, id),
        ..EQUAL
    }));
    all.extend(QUARTERS.map(|ids| Aim { ids, ..EQUAL }));
    all.push(Aim {
        equal_to_first: true,
        ..EQUAL
    });
    // The last entry that anything can be equal to.
    all.push(Aim {
        places: (256, 256),
        distances: (1, 1),
        ..EQUAL
    });
    all.extend(DISTANCES.map(|distances| Aim { distances, ..EQUAL }));
    for state in [FREE, LEAVING] {
        all.extend(QUARTERS.map(|ids| Aim {
            refusal: Some(11),
            ids,
            state,
            ..ANY
        }));
    }
    for first in FAULTS {
        all.extend(FAULTS.map(|second| Aim {
            refusal: Some(first),
            later: Some(second),
            ..ANY
        }));
    }
    all.push(Aim {
        refusal: Some(9),
        lengths: (600, 600),
        ..ANY
    });
    // Short ones, so that buffers are left for the other worker and the guard.
    all.extend(USES.map(|then| Aim {
        lengths: (16, 40),
        then,
        ..ANY
    }));
    all.extend(ENDS.map(|id| Aim {
        ids: (id, id),
        lengths: (16, 63),
        ..ANY
    }));
    all
}

/// One of these aims or one that leaves everything open, in any order.
pub fn some(chance: &mut Chance, aims: &[Aim]) -> Aim {
    let mut aim = if chance.percent(60) {
        chance.pick(aims)
    } else {
        anything(chance)
    };
    aim.order = chance.pick(&ORDERS);
    aim.state = chance.pick(&[FREE, LEAVING]);
    if aim.refusal.is_none() && aim.then == Then::Nothing && chance.percent(12) {
        aim.then = chance.pick(&USES);
    }
    aim
}

fn anything(chance: &mut Chance) -> Aim {
    let refusal = chance.pick(&[None, Some(9), Some(10), Some(10), Some(11)]);
    let two = refusal.is_some() && chance.percent(30);
    Aim {
        refusal,
        later: two.then(|| chance.pick(&FAULTS)),
        equal_to_first: chance.percent(10),
        ..ANY
    }
}
