//! What is measured: goals of three sizes, and long drafts of several kinds.

use std::iter::once;

use sengoruwa_bench::line;
use sengoruwa_bench::sets::{Ports, States};
use sengoruwa_bench::sketch::{chain, Sketch};
use sengoruwa_bench::universe::{Pair, State};

/// A goal in its universe.
pub struct Goal {
    pub kind: &'static str,
    pub file: Vec<u8>,
    pub goal: Vec<u8>,
}

/// A draft that passes in its universe.
pub struct Draft {
    pub kind: &'static str,
    pub file: Vec<u8>,
    pub lines: Vec<u32>,
}

pub fn goals() -> [Goal; 3] {
    let harbour = Goal {
        kind: "harbour",
        file: Sketch::harbour().file(),
        goal: vec![goal_line(2, 2)],
    };
    [harbour, middle(), largest()]
}

fn goal_line(kind: u8, state: u8) -> u8 {
    Pair { kind, state }.index() << 1
}

/// 8 types of 4 states and 16 ports. The states 1 and 3 of a type require all ports of the types before it;
/// its states 2 and 3 provide one more each.
fn middle() -> Goal {
    let kinds = (0..8)
        .map(|kind| {
            let before = Ports::below(2 * kind);
            chain(&[
                (Ports::EMPTY, Ports::EMPTY),
                (Ports::EMPTY, before),
                (Ports::one(2 * kind), Ports::EMPTY),
                (Ports::one(2 * kind + 1), before),
            ])
        })
        .collect();
    Goal {
        kind: "middle",
        file: Sketch { ports: 16, kinds }.file(),
        goal: (0..8).map(|kind| goal_line(kind, 3)).collect(),
    }
}

/// 16 types of 8 states and 32 ports. Every other state requires all ports that there are so far: the states 4 to 7
/// of the first 8 types provide one more each, and the goal is two states of each of the others.
fn largest() -> Goal {
    let kinds = (0..16)
        .map(|kind| {
            let before = Ports::below((4 * kind).min(32));
            let states: Vec<(Ports, Ports)> = (0..8)
                .map(|state| {
                    let provided = if kind < 8 && state >= 4 {
                        Ports::one(4 * kind + state - 4)
                    } else {
                        Ports::EMPTY
                    };
                    let required = if state % 2 == 1 { before } else { Ports::EMPTY };
                    (provided, required)
                })
                .collect();
            chain(&states)
        })
        .collect();
    Goal {
        kind: "largest",
        file: Sketch { ports: 32, kinds }.file(),
        goal: (8..16)
            .flat_map(|kind| [goal_line(kind, 6), goal_line(kind, 7)])
            .collect(),
    }
}

pub const SIZES: [usize; 4] = [1024, 4096, 16_384, 32_768];

/// A kind of drafts: its universe, and its first lines for about so many in all, and what follows for ever.
struct Kind {
    name: &'static str,
    universe: fn() -> Sketch,
    lines: fn(usize) -> Lines,
}

type Lines = Box<dyn Iterator<Item = u32>>;

const KINDS: [Kind; 5] = [
    Kind {
        name: "walks",
        universe: ring,
        lines: walks,
    },
    Kind {
        name: "comings, goings",
        universe: many_types,
        lines: comings_and_goings,
    },
    Kind {
        name: "bindings",
        universe: hub,
        lines: bindings,
    },
    Kind {
        name: "redeployments",
        universe: hub,
        lines: redeployments,
    },
    Kind {
        name: "two providers",
        universe: hub,
        lines: two_providers,
    },
];

/// The drafts of all kinds, each in all sizes.
pub fn drafts() -> impl Iterator<Item = Draft> {
    KINDS.iter().flat_map(|kind| {
        SIZES.map(|size| Draft {
            kind: kind.name,
            file: (kind.universe)().file(),
            lines: (kind.lines)(size).take(size).collect(),
        })
    })
}

/// Type 0 provides 8 ports in state 1. Type 1 has 8 states in a ring that is walked both ways; its odd states require 4 ports.
fn ring() -> Sketch {
    let walker = (0..8).map(|state| State {
        provided: Ports::EMPTY,
        required: match state {
            1 | 5 => Ports::below(4),
            3 | 7 => Ports::below(8) - Ports::below(4),
            _ => Ports::EMPTY,
        },
        successors: States::one((state + 1) % 8) | States::one((state + 7) % 8),
    });
    Sketch {
        ports: 8,
        kinds: vec![
            chain(&[
                (Ports::EMPTY, Ports::EMPTY),
                (Ports::below(8), Ports::EMPTY),
            ]),
            walker.collect(),
        ],
    }
}

/// Four instances walk to and fro.
fn walks(_: usize) -> Lines {
    let provider = [line::create(0, 0), line::change(0, 1)];
    let bound = (1..=4).flat_map(|walker| {
        once(line::create(walker, 1)).chain((0..8).map(move |port| line::bind(port, 0, walker)))
    });
    let states = (1..8).chain((0..7).rev());
    let walk = states.flat_map(|state| (1..=4).map(move |walker| line::change(walker, state)));
    Box::new(provider.into_iter().chain(bound).chain(walk.cycle()))
}

fn many_types() -> Sketch {
    Sketch {
        ports: 0,
        kinds: vec![chain(&[(Ports::EMPTY, Ports::EMPTY)]); 16],
    }
}

/// All 256 instances are created, and deleted again.
fn comings_and_goings(_: usize) -> Lines {
    let created = (0..=255).map(|instance| line::create(instance, instance % 16));
    Box::new(created.chain((0..=255).map(line::delete)).cycle())
}

/// Type 0 provides all ports in state 1, and type 1 requires them in state 1.
fn hub() -> Sketch {
    let all = Ports::below(32);
    let kind = |provided, required| {
        let state = |provided, required, successor| State {
            provided,
            required,
            successors: States::one(successor),
        };
        vec![
            state(Ports::EMPTY, Ports::EMPTY, 1),
            state(provided, required, 0),
        ]
    };
    Sketch {
        ports: 32,
        kinds: vec![kind(all, Ports::EMPTY), kind(Ports::EMPTY, all)],
    }
}

/// Providers under the numbers below `count`, in state 1.
fn providers(count: u8) -> impl Iterator<Item = u32> {
    (0..count).flat_map(|provider| [line::create(provider, 0), line::change(provider, 1)])
}

/// Binds a requirer to a provider on all ports.
fn bound(provider: u8, requirer: u8) -> impl Iterator<Item = u32> {
    (0..32).map(move |port| line::bind(port, provider, requirer))
}

/// A requirer that is bound to all providers on all ports, in state 1.
fn deployed(providers: u8, requirer: u8) -> impl Iterator<Item = u32> + Clone {
    let bindings = (0..providers)
        .flat_map(move |provider| (0..32).map(move |port| line::bind(port, provider, requirer)));
    once(line::create(requirer, 1))
        .chain(bindings)
        .chain(once(line::change(requirer, 1)))
}

/// 8 providers, and as many requirers as half of the lines have room for, up to the 2,048 bindings of 8 of them. Then
/// the ports of one requirer and one provider after the other are unbound and bound again.
fn bindings(lines: usize) -> Lines {
    let last = 8 + (lines / 2 / 256).clamp(1, 8) as u8;
    let setup = providers(8).chain((8..last).flat_map(|requirer| deployed(8, requirer)));
    let changes = (8..last).flat_map(|requirer| {
        (0..8).flat_map(move |provider| {
            let ends = (0..32).map(move |port| line::unbind(port, provider, requirer));
            ends.chain(bound(provider, requirer))
        })
    });
    Box::new(setup.chain(cycle(changes)))
}

/// 8 providers, and up to 7 requirers with 256 bindings each, which are deleted and deployed again in turn.
fn redeployments(lines: usize) -> Lines {
    let last = 8 + (lines / 2 / 258).clamp(1, 7) as u8;
    let setup = providers(8).chain((8..last).flat_map(|requirer| deployed(8, requirer)));
    let changes =
        (8..last).flat_map(|requirer| once(line::delete(requirer)).chain(deployed(8, requirer)));
    Box::new(setup.chain(cycle(changes)))
}

/// Two providers, and up to 31 requirers that are bound to both on all ports. Then one provider changes to and fro.
fn two_providers(lines: usize) -> Lines {
    let last = 2 + (lines * 5 / 8 / 66).clamp(1, 31) as u8;
    let setup = providers(2).chain((2..last).flat_map(|requirer| deployed(2, requirer)));
    Box::new(setup.chain([line::change(1, 0), line::change(1, 1)].into_iter().cycle()))
}

/// These lines over and over.
fn cycle(lines: impl Iterator<Item = u32>) -> impl Iterator<Item = u32> {
    lines.collect::<Vec<u32>>().into_iter().cycle()
}
