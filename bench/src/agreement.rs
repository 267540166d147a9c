//! Before anything is timed: small random ledgers and lists that are bent at random, so that every refusal of a list, a
//! record and a write comes up. Both sides have to answer alike and to leave the same scratch and output.

use crate::generator::{Route, HOPS};
use crate::inputs::announcement;
use crate::plain::Ledger;
use crate::side::{Seat, Side};
use chance::Chance;
use doors::records::Fields;
use doors::{Counted, Found, Memory};
use std::collections::BTreeSet;

const LEDGERS: usize = 2_000;
const LISTS: usize = 4;
/// What can be answered. 1 and 2 cannot: the slices are whole, and the memory is made from zeros.
const ANSWERS: [u32; 9] = [0, 3, 4, 5, 6, 7, 8, 9, 11];

pub fn check(routes: &[Route], chance: &mut Chance) {
    let mut seen = BTreeSet::new();
    for _ in 0..LEDGERS {
        let slots = 1 + chance.below(200) as usize;
        let out = chance.below(100) as usize;
        let mut ours: Seat<Memory> = Seat::new(slots, out);
        let mut plain: Seat<Ledger> = Seat::new(slots, out);
        for _ in 0..LISTS {
            let list = some_list(routes, chance);
            let address = routes[chance.below(routes.len() as u64) as usize].prefix.some_address(chance);
            let answers = told(&mut ours, &list, address);
            assert_eq!(answers, told(&mut plain, &list, address), "both sides answer {list:?} alike");
            assert!(ours.scratch == plain.scratch && ours.out == plain.out, "both sides write alike");
            seen.extend([answers.0.number, answers.1.number, answers.2.number, answers.3.number]);
        }
    }
    assert_eq!(seen, BTreeSet::from(ANSWERS), "every answer came up");
}

fn told<S: Side>(seat: &mut Seat<S>, list: &[u8], address: u32) -> (Counted, Found, Found, Counted) {
    let updated = seat.side.update(list);
    let found = seat.side.lookup(address);
    let found_in_list = S::lookup_list(list, address);
    seat.scratch.fill(u64::MAX);
    (updated, found, found_in_list, seat.write())
}

/// Records that announce or withdraw a few of the routes; then perhaps a byte is changed, or the end is left out.
fn some_list(routes: &[Route], chance: &mut Chance) -> Vec<u8> {
    let few = &routes[..routes.len().min(10)];
    let mut list = Vec::new();
    for _ in 0..chance.below(20) {
        let mut route = few[chance.below(few.len() as u64) as usize];
        // Any hop, or discard, which the generator gives to no route.
        let any = 1 + chance.below(HOPS) as u16;
        route.hop = *chance.pick(&[route.hop, route.hop, any, 0]);
        list.extend(if chance.happens(0.8) {
            announcement(route)
        } else {
            Fields::withdrawal(route.prefix.address, route.prefix.length).bytes()
        });
    }
    if !list.is_empty() && chance.happens(0.5) {
        let place = chance.below(list.len() as u64) as usize;
        list[place] = chance.below(80) as u8;
    }
    if chance.happens(0.1) {
        list.truncate(chance.below(list.len() as u64 + 1) as usize);
    }
    list
}
