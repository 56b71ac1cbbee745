//! The closing order: the pairs that some run can bring an instance to, in the order in which planning counts them.

use crate::sets::{Pairs, Ports};
use crate::universe::{Pair, Universe, MAX_PORTS, MAX_STATES, MAX_TYPES};

const ALL_PAIRS: usize = MAX_TYPES * MAX_STATES;

/// A pair of the closing order, and what is known of the way to it from state 0.
#[derive(Clone, Copy, Debug)]
pub struct Listed {
    pub pair: Pair,
    /// The rank of the pair before it on its path; none for state 0.
    pub parent: Option<u8>,
    /// What the pairs on its path require.
    pub demand: Ports,
    /// How many lines create an instance and bring it here.
    pub lines: usize,
}

#[derive(Debug)]
pub struct Closing {
    listed: Vec<Listed>,
    ranks: [Option<u8>; ALL_PAIRS],
    suppliers: [Option<u8>; MAX_PORTS],
}

impl Closing {
    pub fn of(universe: &Universe) -> Self {
        let mut search = Search::new(universe);
        for kind in 0..universe.kinds().len() {
            let pair = Pair {
                kind: kind as u8,
                state: 0,
            };
            search.list(pair, None);
        }
        while let Some(index) = search.ready.first() {
            search.list(Pair::of_index(index), search.parents[usize::from(index)]);
        }
        search.closing
    }

    /// The listed pairs by rank.
    pub fn listed(&self) -> &[Listed] {
        &self.listed
    }

    /// The rank of a pair, if it is listed.
    pub fn rank(&self, pair: Pair) -> Option<u8> {
        self.ranks[usize::from(pair.index())]
    }

    /// The rank of the supplier of a port, if some listed pair provides it.
    pub fn supplier(&self, port: u8) -> Option<u8> {
        self.suppliers[usize::from(port)]
    }
}

/// A closing order that is being made.
struct Search<'u> {
    universe: &'u Universe,
    closing: Closing,
    /// What the listed pairs provide.
    provided: Ports,
    /// The pairs that are listed or have a listed predecessor.
    seen: Pairs,
    /// Unlisted pairs with a listed predecessor, of which all required ports are provided.
    ready: Pairs,
    /// Unlisted pairs with a listed predecessor, of which some required port is not provided.
    waiting: Pairs,
    /// The first listed predecessor of each seen pair but the states 0.
    parents: [Option<u8>; ALL_PAIRS],
}

impl<'u> Search<'u> {
    fn new(universe: &'u Universe) -> Self {
        Self {
            universe,
            closing: Closing {
                listed: Vec::with_capacity(ALL_PAIRS),
                ranks: [None; ALL_PAIRS],
                suppliers: [None; MAX_PORTS],
            },
            provided: Ports::EMPTY,
            // The states 0 are never added: they are listed from the start.
            seen: (0..MAX_TYPES).fold(Pairs::EMPTY, |seen, kind| {
                seen | Pairs::one((MAX_STATES * kind) as u8)
            }),
            ready: Pairs::EMPTY,
            waiting: Pairs::EMPTY,
            parents: [None; ALL_PAIRS],
        }
    }

    /// Puts a pair at the end of the order.
    fn list(&mut self, pair: Pair, parent: Option<u8>) {
        let state = self.universe.state(pair);
        let rank = self.closing.listed.len() as u8;
        let listed = match parent {
            None => Listed {
                pair,
                parent,
                demand: Ports::EMPTY,
                lines: 1,
            },
            Some(before) => {
                let before = &self.closing.listed[usize::from(before)];
                let held = self.universe.state(before.pair).required;
                let bound = (state.required - held).len();
                let unbound = (held - state.required).len();
                Listed {
                    pair,
                    parent,
                    demand: before.demand | state.required,
                    lines: before.lines + (bound + 1 + unbound) as usize,
                }
            }
        };
        self.closing.listed.push(listed);
        self.closing.ranks[usize::from(pair.index())] = Some(rank);
        self.ready.remove(pair.index());
        for successor in state.successors.iter() {
            self.see(
                Pair {
                    state: successor,
                    ..pair
                },
                rank,
            );
        }
        self.provide(state.provided - self.provided, rank);
    }

    /// Takes note of a pair that the pair with this rank has as successor.
    fn see(&mut self, pair: Pair, rank: u8) {
        let index = pair.index();
        if self.seen.contains(index) {
            return;
        }
        self.seen.insert(index);
        self.parents[usize::from(index)] = Some(rank);
        if self.is_supplied(pair) {
            self.ready.insert(index);
        } else {
            self.waiting.insert(index);
        }
    }

    /// Takes note of ports that were not provided before the pair with this rank.
    fn provide(&mut self, ports: Ports, rank: u8) {
        if ports.is_empty() {
            return;
        }
        self.provided |= ports;
        for port in ports.iter() {
            self.closing.suppliers[usize::from(port)] = Some(rank);
        }
        for index in self.waiting.iter() {
            if self.is_supplied(Pair::of_index(index)) {
                self.waiting.remove(index);
                self.ready.insert(index);
            }
        }
    }

    fn is_supplied(&self, pair: Pair) -> bool {
        (self.universe.state(pair).required - self.provided).is_empty()
    }
}
