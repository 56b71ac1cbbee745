//! The rules taken word by word, however slow that is, and random tests of the implementation against them.

use std::collections::{BTreeMap, BTreeSet};

use crate::check::{check, CheckRefusal, LineFault};
use crate::closing::Closing;
use crate::cloud::{Cloud, Limits};
use crate::line;
use crate::order::{Binding, Order};
use crate::plan::{plan, PlanRefusal};
use crate::random::{self, Random};
use crate::rules::Offence;
use crate::universe::{Pair, Universe};

const CASES: usize = 400;

fn pairs(universe: &Universe) -> impl Iterator<Item = Pair> + '_ {
    let kinds = (0u8..).zip(universe.kinds());
    kinds.flat_map(|(kind, states)| {
        (0..states.states().len() as u8).map(move |state| Pair { kind, state })
    })
}

fn leads_to(universe: &Universe, from: Pair, to: Pair) -> bool {
    from.kind == to.kind && universe.state(from).successors.contains(to.state)
}

fn provider_among(universe: &Universe, listed: &[Pair], port: u8) -> Option<usize> {
    let provides = |pair: &Pair| universe.state(*pair).provided.contains(port);
    listed.iter().position(provides)
}

fn closing_order(universe: &Universe) -> Vec<Pair> {
    let mut listed: Vec<Pair> = pairs(universe).filter(|pair| pair.state == 0).collect();
    loop {
        let next = pairs(universe).find(|pair| {
            let mut required = universe.state(*pair).required.iter();
            !listed.contains(pair)
                && listed.iter().any(|from| leads_to(universe, *from, *pair))
                && required.all(|port| provider_among(universe, &listed, port).is_some())
        });
        match next {
            Some(pair) => listed.push(pair),
            None => return listed,
        }
    }
}

fn parent(universe: &Universe, listed: &[Pair], pair: Pair) -> Option<Pair> {
    let before = |from: &&Pair| leads_to(universe, **from, pair);
    let added = pair.state != 0;
    added.then(|| *listed.iter().find(before).unwrap())
}

fn path(universe: &Universe, listed: &[Pair], pair: Pair) -> Vec<Pair> {
    let mut path = match parent(universe, listed, pair) {
        Some(parent) => self::path(universe, listed, parent),
        None => Vec::new(),
    };
    path.push(pair);
    path
}

fn script(universe: &Universe, goal: &[Pair]) -> Option<Vec<Order>> {
    let listed = closing_order(universe);
    let rank = |pair: &Pair| listed.iter().position(|other| other == pair);
    let mut needed: BTreeSet<usize> = goal.iter().map(rank).collect::<Option<_>>()?;
    loop {
        let before = needed.len();
        for rank in needed.clone() {
            for pair in path(universe, &listed, listed[rank]) {
                for port in universe.state(pair).required.iter() {
                    needed.insert(provider_among(universe, &listed, port).unwrap());
                }
            }
        }
        if needed.len() == before {
            break;
        }
    }
    let number = |rank: usize| needed.iter().position(|other| *other == rank).unwrap() as u32;
    let mut orders = Vec::new();
    for &rank in &needed {
        let instance = number(rank);
        let path = path(universe, &listed, listed[rank]);
        orders.push(Order::Create {
            instance,
            kind: path[0].kind.into(),
        });
        for step in path.windows(2) {
            let required = |pair, port| universe.state(pair).required.contains(port);
            let binding = |port| Binding {
                port: u32::from(port),
                provider: number(provider_among(universe, &listed, port).unwrap()),
                requirer: instance,
            };
            let ports = 0..universe.ports();
            let fresh = ports
                .clone()
                .filter(|port| required(step[1], *port) && !required(step[0], *port));
            orders.extend(fresh.map(|port| Order::Bind(binding(port))));
            orders.push(Order::Change {
                instance,
                state: step[1].state.into(),
            });
            let over = ports.filter(|port| required(step[0], *port) && !required(step[1], *port));
            orders.extend(over.map(|port| Order::Unbind(binding(port))));
        }
    }
    Some(orders)
}

#[derive(Clone, Default)]
struct Configuration {
    instances: BTreeMap<u32, Pair>,
    bindings: BTreeSet<(u32, u32, u32)>,
}

impl Configuration {
    fn is_gap_free(&self, universe: &Universe) -> bool {
        self.instances.iter().all(|(number, pair)| {
            universe.state(*pair).required.iter().all(|port| {
                self.bindings.iter().any(|(bound, provider, requirer)| {
                    let provides = |pair: &Pair| universe.state(*pair).provided.contains(port);
                    *bound == port.into()
                        && requirer == number
                        && self.instances.get(provider).is_some_and(provides)
                })
            })
        })
    }

    fn offence(&self, universe: &Universe, order: Order) -> Option<Offence> {
        let stands = |number: &u32| self.instances.contains_key(number);
        let first = |tests: &[(bool, Offence)]| {
            let offends = tests.iter().find(|(offends, _)| *offends);
            offends.map(|(_, offence)| *offence)
        };
        match order {
            Order::Create { instance, kind } => first(&[
                (kind as usize >= universe.kinds().len(), Offence::OutOfRange),
                (stands(&instance), Offence::Standing),
            ]),
            Order::Bind(binding) => {
                let ever = |number, provides: bool| {
                    let Some(pair) = self.instances.get(number) else {
                        return false;
                    };
                    universe.kinds()[usize::from(pair.kind)]
                        .states()
                        .iter()
                        .any(|state| {
                            let ports = if provides {
                                state.provided
                            } else {
                                state.required
                            };
                            ports.iter().any(|port| u32::from(port) == binding.port)
                        })
                };
                let (provider, requirer) = (binding.provider, binding.requirer);
                let unfit =
                    provider == requirer || !ever(&provider, true) || !ever(&requirer, false);
                first(&[
                    (binding.port >= universe.ports().into(), Offence::OutOfRange),
                    (
                        !stands(&provider) || !stands(&requirer),
                        Offence::NotStanding,
                    ),
                    (unfit, Offence::Unfit),
                    (
                        self.bindings.contains(&(binding.port, provider, requirer)),
                        Offence::Bound,
                    ),
                ])
            }
            Order::Change { instance, state } => {
                let leads = |pair: &Pair| {
                    let mut successors = universe.state(*pair).successors.iter();
                    successors.any(|successor| u32::from(successor) == state)
                };
                first(&[
                    (!stands(&instance), Offence::NotStanding),
                    (
                        !self.instances.get(&instance).is_some_and(leads),
                        Offence::NoSuccessor,
                    ),
                ])
            }
            Order::Unbind(binding) => {
                let (provider, requirer) = (binding.provider, binding.requirer);
                first(&[
                    (binding.port >= universe.ports().into(), Offence::OutOfRange),
                    (
                        !stands(&provider) || !stands(&requirer),
                        Offence::NotStanding,
                    ),
                    (
                        !self.bindings.contains(&(binding.port, provider, requirer)),
                        Offence::Unbound,
                    ),
                ])
            }
            Order::Delete { instance } => first(&[
                (!stands(&instance), Offence::NotStanding),
                (
                    self.bindings
                        .iter()
                        .any(|(_, provider, _)| *provider == instance),
                    Offence::Provider,
                ),
            ]),
        }
    }

    fn apply(&mut self, order: Order) {
        match order {
            Order::Create { instance, kind } => {
                let kind = kind as u8;
                self.instances.insert(instance, Pair { kind, state: 0 });
            }
            Order::Bind(Binding {
                port,
                provider,
                requirer,
            }) => {
                self.bindings.insert((port, provider, requirer));
            }
            Order::Change { instance, state } => {
                self.instances.get_mut(&instance).unwrap().state = state as u8;
            }
            Order::Unbind(Binding {
                port,
                provider,
                requirer,
            }) => {
                self.bindings.remove(&(port, provider, requirer));
            }
            Order::Delete { instance } => {
                self.instances.remove(&instance);
                self.bindings
                    .retain(|(_, _, requirer)| *requirer != instance);
            }
        }
    }
}

/// The first fault of a draft of some lines.
fn fault(universe: &Universe, draft: &[u32]) -> Option<(usize, LineFault)> {
    let mut configuration = Configuration::default();
    for (place, line) in draft.iter().enumerate() {
        let Ok(order) = line::decode(*line) else {
            return Some((place, LineFault::NotALine));
        };
        if let Some(offence) = configuration.offence(universe, order) {
            return Some((place, LineFault::Illegal(offence)));
        }
        configuration.apply(order);
        if !configuration.is_gap_free(universe) {
            return Some((place, LineFault::Gap));
        }
        if configuration.bindings.len() > 2048 {
            return Some((place, LineFault::TooManyBindings));
        }
    }
    None
}

fn random_universe(random: &mut Random) -> Universe {
    Universe::read(&random::sketch(random).file()).unwrap()
}

#[test]
fn planning_word_by_word() {
    let mut random = Random::of_seed(1);
    for _ in 0..CASES {
        let universe = random_universe(&mut random);
        let closing = Closing::of(&universe);
        let listed: Vec<Pair> = closing.listed().iter().map(|listed| listed.pair).collect();
        assert_eq!(listed, closing_order(&universe));
        let goal = random::goal(&mut random, &universe, &closing);
        let mut list = vec![0; 11_136];
        let planned = plan(&universe, &goal, &mut list).map(|lines| list[..lines].to_vec());
        if matches!(planned, Err(PlanRefusal::GoalLength | PlanRefusal::NoPair)) {
            continue;
        }
        let goal: Vec<Pair> = goal.iter().map(|line| Pair::of_index(line >> 1)).collect();
        let script = script(&universe, &goal).ok_or(PlanRefusal::OutOfReach);
        let lines = |orders: Vec<Order>| {
            orders
                .into_iter()
                .map(|order| line::encode(order).unwrap())
                .collect()
        };
        assert_eq!(planned, script.map(lines));
        if let Ok(script) = planned {
            assert_eq!(fault(&universe, &script), None);
        }
    }
}

#[test]
fn checks_word_by_word() {
    let mut random = Random::of_seed(2);
    for _ in 0..CASES {
        let universe = random_universe(&mut random);
        let draft = random::draft(&mut random, &universe, &[]);
        if draft.is_empty() {
            continue;
        }
        let host = Cloud::open(&universe, Limits::LARGEST);
        let told = match check(&draft, &host) {
            Ok(_) => None,
            Err(CheckRefusal::AtLine { place, fault }) => Some((place, fault)),
            Err(refusal) => panic!("{refusal:?}"),
        };
        assert_eq!(told, fault(&universe, &draft));
    }
}
