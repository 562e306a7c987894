//! Merging in any order that takes each other site once: what the receiver knows
//! then, the news, the lowest site's choice, its record and the row it sends are
//! those of the model's own delivery, which takes the sender's entry first.

mod common;

use std::collections::BTreeSet;
use std::fmt;

use model::generate::Rng;
use model::row::STORE_BYTES;
use model::sizes::everyone;
use model::step::Actor;
use model::{one_command, Ask, Command, GroupRecord, Kind, Log, Role, Row};
use model::{Side, Site, Sizes, State, Vector};

use common::{all_willing, prepared, row_to_all, vector, world_with};

const SEED: u64 = 20_261_116;

/// Deliveries for each kind, sender and receiver, and orders that are drawn for
/// each where they are too many to try them all.
const ROUNDS: usize = 100;
const ROUNDS_OF_16: usize = 2;
const SHUFFLES: usize = 6;

/// Numbers of sites, each with how many orders of the others there are.
const FEW: [(usize, usize); 3] = [(3, 2), (4, 6), (5, 24)];

type Order = Vec<usize>;

/// A row's kind, its sender and its receiver.
type Parcel = (Kind, usize, usize);

/// A row, and the site that it is for, as it is before.
struct Delivery {
    sizes: Sizes,
    me: usize,
    held: Site,
    row: Row,
}

/// What comes of a delivery.
#[derive(Debug, PartialEq)]
struct End {
    /// What is known once the row is merged.
    merged: Vector,
    news: usize,
    /// The outcome that the lowest site shows.
    choice: Option<Side>,
    /// The record after the delivery.
    site: Site,
    sent: Option<Row>,
}

impl Delivery {
    /// As the model delivers it.
    fn by_model(&self, store: &mut [u8]) -> End {
        let site = (self.me, self.held);
        let mut world = world_with(self.sizes, site, Some(&self.row), store);
        let list = Command::deliver(0, self.me).bytes();
        assert_eq!(one_command(&mut world, store, Ask::new(&list, 0)), Ok(4));
        let is_sent = world.row_count == 2;
        let mut merged = self.held.vector;
        let news = merged.merge(&self.row.vector, self.me, self.row.sender);
        assert_eq!(world.news, news);
        End {
            merged,
            news,
            choice: merged.outcome(),
            site: world.sites[self.me],
            sent: is_sent.then(|| Row::read(store, 1, self.sizes.n).unwrap()),
        }
    }

    /// Merged in an order; what follows is the model's.
    fn in_order(&self, order: &[usize]) -> End {
        let mut site = self.held;
        let sites = order.iter().copied();
        let news = site.vector.merge_in(&self.row.vector, sites);
        let merged = site.vector;
        let mut actor = Actor::new(&self.sizes, self.me, &mut site);
        let sent = actor.act(Command::deliver(0, self.me), Some(&self.row));
        End {
            merged,
            news,
            choice: merged.outcome(),
            site,
            sent,
        }
    }

    /// Has the receiver no outcome, and are both shown to it?
    fn shows_both(&self, end: &End) -> bool {
        let shows = |side| end.merged.count(State::Terminated(side)) > 0;
        self.held.log.outcome.is_none() && shows(Side::Commit) && shows(Side::Abort)
    }
}

/// Codes of n sites up to a height, so that outcomes are not always there.
fn codes(rng: &mut Rng, n: usize) -> Vec<u8> {
    let height = rng.choose(&[1, 3, 3, 5]);
    (0..n).map(|_| rng.below(height + 1) as u8).collect()
}

/// Any vector of a site in that state.
fn known(rng: &mut Rng, n: usize, me: usize, state: State) -> Vector {
    let mut known = vector(&codes(rng, n));
    known.set(me, state);
    known
}

fn maybe_side(rng: &mut Rng, percent: usize) -> Option<Side> {
    let side = rng.choose(&[Side::Commit, Side::Abort]);
    rng.chance(percent).then_some(side)
}

/// Any record that site `me` of n can have.
fn any_site(rng: &mut Rng, n: usize, me: usize) -> Site {
    let group = maybe_side(rng, 40).map(|side| GroupRecord {
        side,
        vector: known(rng, n, me, State::InGroup(side)),
    });
    let log = Log {
        prepare: rng.chance(60),
        group,
        outcome: maybe_side(rng, 20),
    };
    Site {
        up: true,
        role: rng.choose(&[Role::Subordinate, Role::Coordinator]),
        log,
        vector: known(rng, n, me, log.state()),
    }
}

/// Any row of this kind and sender, for site `me` of n as it may be.
fn any_delivery(rng: &mut Rng, n: usize, (kind, sender, me): Parcel) -> Delivery {
    let willing = rng.draw() as u16 & everyone(n);
    let row = row_to_all(kind, sender, &codes(rng, n));
    Delivery {
        sizes: Sizes::new(n, n - 1, 2, willing),
        me,
        held: any_site(rng, n, me),
        row,
    }
}

/// Every kind of row from every sender, itself too, to every receiver.
fn parcels(n: usize) -> Vec<Parcel> {
    let parcel = |at: usize| {
        let kind = Kind::of(1 + (at / n / n) as u8).expect("one of seven");
        (kind, at % n, at / n % n)
    };
    (0..7 * n * n).map(parcel).collect()
}

/// All sites but one.
fn others(n: usize, me: usize) -> Order {
    (0..n).filter(|&site| site != me).collect()
}

/// All orders of some sites.
fn all_orders(sites: &[usize]) -> Vec<Order> {
    let Some((&first, rest)) = sites.split_first() else {
        return vec![Order::new()];
    };
    let orders = all_orders(rest).into_iter();
    orders.flat_map(|order| put_in(first, &order)).collect()
}

/// An order with a site put at each of its places.
fn put_in(site: usize, order: &[usize]) -> Vec<Order> {
    let put = |at| [&order[..at], &[site], &order[at..]].concat();
    (0..=order.len()).map(put).collect()
}

/// Some orders of some sites.
fn some_orders(rng: &mut Rng, sites: &[usize]) -> Vec<Order> {
    let shuffled = |_| {
        let mut order = sites.to_vec();
        rng.shuffle(&mut order);
        order
    };
    (0..SHUFFLES).map(shuffled).collect()
}

/// How much was tried.
#[derive(Default)]
struct Tried {
    deliveries: usize,
    orders: usize,
    /// Deliveries from the receiver itself.
    own: usize,
    /// Deliveries that raise several entries.
    several: usize,
    /// Deliveries that show both outcomes to a receiver that has none.
    both_shown: usize,
}

impl Tried {
    /// Tries a delivery in these orders.
    fn add(&mut self, delivery: &Delivery, wanted: &End, orders: &[Order]) {
        for order in orders {
            assert_eq!(delivery.in_order(order), *wanted, "{order:?}");
        }
        self.deliveries += 1;
        self.orders += orders.len();
        self.own += usize::from(delivery.row.sender == delivery.me);
        self.several += usize::from(wanted.news > 1);
        self.both_shown += usize::from(delivery.shows_both(wanted));
    }

    /// So many, with as many orders each, and enough of them worth it.
    fn check(&self, n: usize, rounds: usize, orders: usize) {
        println!("{n} sites: {self}");
        assert_eq!(self.deliveries, 7 * n * n * rounds);
        assert_eq!(self.orders, self.deliveries * orders);
        assert_eq!(self.own, 7 * n * rounds);
        assert!(self.several > self.deliveries / 10);
        assert!(self.both_shown > self.deliveries / 100);
    }
}

impl fmt::Display for Tried {
    fn fmt(&self, f: &mut fmt::Formatter) -> fmt::Result {
        write!(f, "{} orders of ", self.orders)?;
        write!(f, "{} deliveries, of which ", self.deliveries)?;
        write!(f, "{} from the receiver itself, ", self.own)?;
        write!(f, "{} raise several entries, ", self.several)?;
        write!(f, "{} show both outcomes to an open site", self.both_shown)
    }
}

/// Deliveries among n sites, each in the orders that are given of its other sites.
fn try_out(n: usize, rounds: usize, orders: fn(&mut Rng, &[usize]) -> Vec<Order>) -> Tried {
    let mut rng = Rng::new(SEED + n as u64);
    let mut store = vec![0; STORE_BYTES];
    let mut tried = Tried::default();
    for parcel in parcels(n).repeat(rounds) {
        let delivery = any_delivery(&mut rng, n, parcel);
        let wanted = delivery.by_model(&mut store);
        let orders = orders(&mut rng, &others(n, delivery.me));
        tried.add(&delivery, &wanted, &orders);
    }
    tried
}

#[test]
fn every_order_of_few_sites_comes_to_the_same() {
    for (n, count) in FEW {
        let tried = try_out(n, ROUNDS, |_, sites| all_orders(sites));
        tried.check(n, ROUNDS, count);
    }
}

#[test]
fn any_order_of_sixteen_sites_comes_to_the_same() {
    let tried = try_out(16, ROUNDS_OF_16, some_orders);
    tried.check(16, ROUNDS_OF_16, SHUFFLES);
}

#[test]
fn all_orders_are_there_once() {
    for (n, count) in FEW {
        let sites = others(n, 1);
        let orders = all_orders(&sites);
        let different = BTreeSet::from_iter(&orders);
        assert_eq!((orders.len(), different.len()), (count, count));
        assert_each_once(&orders, &sites);
    }
}

/// Every order takes each of these sites once, and no other one.
fn assert_each_once(orders: &[Order], sites: &[usize]) {
    for order in orders {
        let mut taken = order.clone();
        taken.sort();
        assert_eq!(taken, sites);
    }
}

/// A row of this kind comes from a sender to site `me`, which is prepared and
/// holds as many codes as there are sites.
fn to_prepared((kind, sender, me): Parcel, held: &[u8], codes: &[u8]) -> Delivery {
    Delivery {
        sizes: all_willing(held.len()),
        me,
        held: prepared(held),
        row: row_to_all(kind, sender, codes),
    }
}

/// Site 1 holds 0 1 0 0, and site 2 tells it 1 0 2 3.
fn three_news() -> Delivery {
    to_prepared((Kind::InGroup, 2, 1), &[0, 1, 0, 0], &[1, 0, 2, 3])
}

#[test]
fn a_site_left_out_is_missed() {
    let delivery = three_news();
    let wanted = delivery.by_model(&mut [0; STORE_BYTES]);
    for (order, codes, news) in [
        (&[2, 0, 3][..], [1, 1, 2, 3], 3),
        (&[0, 3], [1, 1, 0, 3], 2),
        (&[2, 3], [0, 1, 2, 3], 2),
        (&[2, 0], [1, 1, 2, 0], 2),
        (&[2], [0, 1, 2, 0], 1),
        (&[], [0, 1, 0, 0], 0),
    ] {
        let end = delivery.in_order(order);
        assert_eq!((end.merged, end.news), (vector(&codes), news));
        assert_eq!(end == wanted, news == 3);
    }
}

#[test]
fn a_site_left_out_does_not_decide() {
    // Site 1 holds 0 1 0 0, and site 2 tells it that site 0 aborted and itself
    // committed.
    let delivery = to_prepared((Kind::Outcome, 2, 1), &[0, 1, 0, 0], &[5, 0, 4, 0]);
    for (order, side, codes) in [
        (&[2, 0, 3][..], Side::Abort, [5, 5, 4, 0]),
        (&[0, 2, 3], Side::Abort, [5, 5, 4, 0]),
        (&[2, 3], Side::Commit, [0, 4, 4, 0]),
    ] {
        let end = delivery.in_order(order);
        assert_eq!((end.choice, end.site.log.outcome), (Some(side), Some(side)));
        assert_eq!(end.site.vector, vector(&codes));
        assert_eq!(end.sent.unwrap().vector, vector(&codes));
    }
}

#[test]
fn a_site_taken_twice_rises_once() {
    let delivery = three_news();
    let wanted = delivery.by_model(&mut [0; STORE_BYTES]);
    assert_eq!(wanted.news, 3);
    for order in [
        &[2, 2, 0, 3][..],
        &[2, 0, 2, 3],
        &[2, 0, 3, 2],
        &[0, 0, 3, 3, 2, 2],
        &[3, 2, 0, 0, 2, 3],
    ] {
        assert_eq!(delivery.in_order(order), wanted);
    }
}

#[test]
fn a_row_from_the_receiver_itself_tells_of_the_others() {
    // Site 1 holds 1 1 0 3. Its own row, a prepare, tells 2 5 0 4: sites 0 and 3
    // rise, and that it aborted it does not take from a row. So 4 is the one
    // outcome that it knows of.
    let delivery = to_prepared((Kind::Prepare, 1, 1), &[1, 1, 0, 3], &[2, 5, 0, 4]);
    let mut store = [0; STORE_BYTES];
    let end = delivery.by_model(&mut store);
    assert_eq!((end.merged, end.news), (vector(&[2, 1, 0, 4]), 2));
    assert_eq!(end.site.log.outcome, Some(Side::Commit));
    assert_eq!(end.site.vector, vector(&[2, 4, 0, 4]));
    // The vote goes to the sender.
    assert_eq!(store[20..28], [2, 1, 2, 0, 2, 4, 0, 4]);
    // Nothing else told, nothing known: its own entry alone is no news.
    let alone = to_prepared((Kind::Ack, 1, 1), &[1, 1, 0, 3], &[0, 5, 0, 0]);
    let end = alone.by_model(&mut store);
    assert_eq!((end.site, end.news, end.sent), (alone.held, 0, None));
}

#[test]
fn the_lowest_site_decides_though_the_sender_is_taken_first() {
    // Site 0 holds 1 0 0. Site 2 tells it 0 5 4: site 1 aborted, itself committed.
    let delivery = to_prepared((Kind::Join(Side::Commit), 2, 0), &[1, 0, 0], &[0, 5, 4]);
    let mut store = [0; STORE_BYTES];
    let wanted = delivery.by_model(&mut store);
    assert_eq!((wanted.choice, wanted.news), (Some(Side::Abort), 2));
    let log = Log {
        prepare: true,
        group: None,
        outcome: Some(Side::Abort),
    };
    assert_eq!(wanted.site.log, log);
    assert_eq!(wanted.site.vector, vector(&[5, 5, 4]));
    // In-group, from site 0, to site 2.
    assert_eq!(store[20..27], [5, 0, 4, 0, 5, 5, 4]);
    for order in [[2, 1], [1, 2]] {
        assert_eq!(delivery.in_order(&order), wanted);
    }
}
