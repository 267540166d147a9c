//! The inputs that works are given, drawn from tables.

use crate::bursts;
use crate::generator::{Prefix, Route, Table};
use crate::work::{Feeds, ListLookups, Lookups, SingleUpdates, Writes, Writing};
use chance::Chance;
use doors::records::{Fields, RECORD};

/// Operations of a turn: enough to be timed well, few enough to be seldom interrupted.
const BATCH: usize = 2_048;
/// Batches of a work.
const BATCHES: usize = 16;
/// Records of lists that a turn of list lookups goes through, about, where a list does not have more.
const LIST_RECORDS: usize = 65_536;
/// Bursts that a table has been through before the one that is timed, so that there are routes to return.
const EARLIER_BURSTS: usize = 7;

pub struct Inputs<'a> {
    /// The table that is held, and where a work cycles through tables, the others of its kind and size.
    pub table: &'a Table,
    pub tables: &'a [Table],
    pub chance: &'a mut Chance,
}

/// The list that announces routes in their order.
pub fn feed_of(routes: &[Route]) -> Vec<u8> {
    routes.iter().flat_map(|route| announcement(*route)).collect()
}

pub fn announcement(route: Route) -> [u8; RECORD] {
    Fields::announcement(route.prefix.address, route.prefix.length, route.hop).bytes()
}

impl Inputs<'_> {
    fn some_route(&mut self) -> Route {
        let routes = self.table.specifics();
        routes[self.chance.below(routes.len() as u64) as usize]
    }

    /// Held routes get another hop, and then their own again.
    pub fn hop_changes(&mut self) -> SingleUpdates {
        self.batches(|inputs| {
            let routes: Vec<Route> = (0..BATCH / 2).map(|_| inputs.some_route()).collect();
            let other = |route: &Route| Route { hop: inputs.table.hops.draw_other(route.hop, inputs.chance), ..*route };
            let changed: Vec<Route> = routes.iter().map(other).collect();
            changed.into_iter().chain(routes).map(announcement).collect()
        })
    }

    /// Held routes are withdrawn and announced again at once.
    pub fn withdrawals_and_announcements(&mut self) -> SingleUpdates {
        self.batches(|inputs| {
            let pair = |_| {
                let route = inputs.some_route();
                let Prefix { address, length } = route.prefix;
                [Fields::withdrawal(address, length).bytes(), announcement(route)]
            };
            (0..BATCH / 2).flat_map(pair).collect()
        })
    }

    fn batches(&mut self, batch: impl Fn(&mut Self) -> Vec<[u8; RECORD]>) -> SingleUpdates {
        SingleUpdates { batches: (0..BATCHES).map(|_| batch(self)).collect() }
    }

    /// The same hop changes, a batch in one list.
    pub fn hop_changes_in_one_list(&mut self) -> Feeds {
        Feeds { lists: self.hop_changes().batches.iter().map(|batch| batch.concat()).collect(), from_empty: false }
    }

    pub fn whole_tables(&self) -> Feeds {
        Feeds { lists: self.tables.iter().map(|table| feed_of(&table.routes)).collect(), from_empty: true }
    }

    pub fn any_addresses(&mut self) -> Lookups {
        self.addresses(|inputs| Prefix::DEFAULT.some_address(inputs.chance))
    }

    /// Addresses inside routes that are held.
    pub fn addresses_inside(&mut self) -> Lookups {
        self.addresses(|inputs| inputs.some_route().prefix.some_address(inputs.chance))
    }

    fn addresses(&mut self, address: impl Fn(&mut Self) -> u32) -> Lookups {
        Lookups { batches: (0..BATCHES).map(|_| (0..BATCH).map(|_| address(self)).collect()).collect() }
    }

    pub fn list_lookups(&mut self) -> ListLookups {
        let list = feed_of(&self.table.routes);
        let calls = (LIST_RECORDS / self.table.routes.len()).max(1);
        let addresses = (0..calls).map(|_| self.some_route().prefix.some_address(self.chance)).collect();
        ListLookups { list, addresses }
    }

    pub fn writes(&self) -> Writes {
        let writing = |table: &Table| Writing { feed: feed_of(&table.routes), burst: None };
        Writes { writings: self.tables.iter().map(writing).collect() }
    }

    pub fn bursts(&mut self, size: usize) -> Writes {
        let writing = |table: &Table| {
            let mut bursts = bursts::draw(table, size, EARLIER_BURSTS + 1, self.chance);
            let burst = bursts.pop();
            Writing { feed: feed_of(&table.routes).into_iter().chain(bursts.concat()).collect(), burst }
        };
        Writes { writings: self.tables.iter().map(writing).collect() }
    }

    /// An announcement that needs one slot more than the table does: one bit more behind a route with nothing below it.
    pub fn one_slot_more(&mut self) -> SingleUpdates {
        let route = loop {
            let Route { prefix: Prefix { address, length }, hop } = self.some_route();
            let below =
                |prefix: Prefix| prefix.length > length && Prefix::of(prefix.address, length).address == address;
            if length < 32 && !self.table.routes.iter().any(|other| below(other.prefix)) {
                break Route { prefix: Prefix { address, length: length + 1 }, hop };
            }
        };
        SingleUpdates { batches: vec![vec![announcement(route)]] }
    }
}
