//! Random calls to the dealing desk, mostly such as it does not refuse.

use crate::calls::{Call, Desk, LENT_LIMIT};
use crate::field::Width;
use crate::lists::{bad_size, other_length};
use crate::rng::Rng;
use crate::scenario::{coefficients, legal_size};
use crate::tables::{good_table, put_bad_entry};

/// The longest dealer's list: n, t and the room are numbers of the call too.
const COEFS_LIMIT: usize = LENT_LIMIT - 3;

/// The longest table.
const TABLE_LIMIT: usize = 60;

/// The longest dealer's list beside a table, whose length is a number too.
const COEFS_BESIDE: usize = COEFS_LIMIT - 1 - TABLE_LIMIT;

/// How many of a hundred have each of the faults. They are drawn apart, so
/// several at once come too, and that the first refusal is given shows.
const FAULTS: usize = 13;

/// The desk, about as often with a table as without one; of three, one is wide.
pub fn random_desk_call(rng: &mut Rng) -> Call {
    let width = rng.width();
    if rng.chance(50) {
        return Call::Desk(random_desk(rng, width, COEFS_LIMIT));
    }
    let desk = random_desk(rng, width, COEFS_BESIDE);
    let mut length = desk.n.min(TABLE_LIMIT);
    if rng.chance(FAULTS) {
        length = other_length(rng, length, TABLE_LIMIT);
    }
    let mut table = good_table(rng, width, length);
    if rng.chance(2 * FAULTS) {
        put_bad_entry(rng, width, &mut table);
    }
    Call::DeskWith(desk, table)
}

/// Size, room and list. A wrong size has lists that would suit it, as far as
/// the limits let it, so that the size alone is to blame.
fn random_desk(rng: &mut Rng, width: Width, coefs_limit: usize) -> Desk {
    let (n, t) = if rng.chance(FAULTS) {
        bad_size(rng, width)
    } else {
        legal_size(rng)
    };
    let coefs = (t + 1).saturating_mul(t + 1).min(coefs_limit);
    let room = (2 * n).saturating_mul(t + 1).min(LENT_LIMIT);
    let mut desk = Desk {
        width,
        n,
        t,
        room,
        coefs: coefficients(rng, width, coefs),
    };
    if rng.chance(FAULTS) {
        desk.room = other_length(rng, room, LENT_LIMIT);
    }
    if rng.chance(FAULTS) {
        let length = other_length(rng, coefs, coefs_limit);
        desk.coefs.resize(length, 0);
    }
    if rng.chance(FAULTS) {
        put_too_large(rng, width, &mut desk.coefs);
    }
    desk
}

/// One number of the list from the prime up, or each with some chance. The first
/// and the last place are tried often, for a search may miss its ends.
fn put_too_large(rng: &mut Rng, width: Width, coefs: &mut [u32]) {
    let Some(last) = coefs.len().checked_sub(1) else {
        return;
    };
    let any = rng.below(coefs.len());
    match rng.below(5) {
        0 => coefs[0] = rng.not_sent(width),
        1 => coefs[last] = rng.not_sent(width),
        2 => coefs[any] = rng.pick(&[width.prime() as u32, width.not_sent()]),
        3 => coefs[any] = rng.not_sent(width),
        _ => {
            let percent = rng.between(10, 100);
            for number in coefs {
                if rng.chance(percent) {
                    *number = rng.not_sent(width);
                }
            }
        }
    }
}
