//! Random universes, goals and drafts, valid and damaged, from a seed.

use crate::check::{opens_gap, MAX_LINES};
use crate::closing::Closing;
use crate::host::Survey;
use crate::line;
use crate::order::{Binding, Order};
use crate::rules;
use crate::sets::{Ports, States};
use crate::sketch::Sketch;
use crate::table::{Table, MAX_BINDINGS};
use crate::universe::{Pair, State, Universe};

/// A generator of numbers that are random enough for tests (splitmix64).
pub struct Random(u64);

impl Random {
    pub fn of_seed(seed: u64) -> Self {
        Self(seed)
    }

    pub fn bits(&mut self) -> u64 {
        self.0 = self.0.wrapping_add(0x9e37_79b9_7f4a_7c15);
        let mut bits = self.0;
        bits = (bits ^ bits >> 30).wrapping_mul(0xbf58_476d_1ce4_e5b9);
        bits = (bits ^ bits >> 27).wrapping_mul(0x94d0_49bb_1331_11eb);
        bits ^ bits >> 31
    }

    pub fn word(&mut self) -> u32 {
        (self.bits() >> 32) as u32
    }

    /// A number below `limit`, which is not 0.
    pub fn below(&mut self, limit: usize) -> usize {
        (self.bits() % limit as u64) as usize
    }

    /// A number from `low` to `high`.
    pub fn between(&mut self, low: usize, high: usize) -> usize {
        low + self.below(high - low + 1)
    }

    /// True once in `often` times.
    pub fn once_in(&mut self, often: usize) -> bool {
        self.below(often) == 0
    }

    pub fn pick<T: Copy>(&mut self, choices: &[T]) -> T {
        choices[self.below(choices.len())]
    }

    /// Some of these ports. The higher the thinness, the fewer.
    fn some_of(&mut self, ports: Ports, thinness: u32) -> Ports {
        (0..thinness).fold(ports, |some, _| some & Ports::from_bits(self.word()))
    }
}

/// How a random universe's ports are spread.
#[derive(Clone, Copy)]
enum Spread {
    /// Anywhere. Much is out of reach.
    Scattered,
    /// Later types require what earlier ones provide. Most is in reach.
    Layered,
    /// The first type provides all ports, and the others require most of them in every other state.
    Hub,
}

pub fn sketch(random: &mut Random) -> Sketch {
    let types = match random.below(4) {
        0 => random.between(1, 2),
        1 => 16,
        _ => random.between(1, 16),
    };
    let ports = match random.below(6) {
        0 => random.between(0, 2),
        1 => 32,
        _ => random.between(0, 32),
    };
    let spread = random.pick(&[
        Spread::Scattered,
        Spread::Scattered,
        Spread::Layered,
        Spread::Layered,
        Spread::Layered,
        Spread::Hub,
    ]);
    spread_sketch(random, types, ports as u8, spread)
}

/// A universe in which any number of bindings can stand.
pub fn hub_sketch(random: &mut Random) -> Sketch {
    let types = random.between(2, 4);
    spread_sketch(random, types, 32, Spread::Hub)
}

fn spread_sketch(random: &mut Random, types: usize, ports: u8, spread: Spread) -> Sketch {
    let most_states = random.pick(&[1, 2, 3, 4, 6, 8, 8, 8]);
    let all = Ports::below(ports);
    let provides = random.between(0, 4) as u32;
    let requires = random.between(0, 4) as u32;
    let ways = random.below(4);
    let mut given = Ports::EMPTY;
    let mut kinds = Vec::with_capacity(types);
    for kind in 0..types {
        let least = usize::from(matches!(spread, Spread::Hub)) + 1;
        let count = random.between(least, most_states.max(least)) as u8;
        let mut states = Vec::with_capacity(count.into());
        for number in 0..count {
            let odd = number % 2 == 1;
            let (provided, required) = match spread {
                Spread::Scattered => (random.some_of(all, provides), random.some_of(all, requires)),
                Spread::Layered => {
                    let fresh = random.some_of(all - given, provides);
                    let again = random.some_of(given, 2 + provides);
                    (fresh | again, random.some_of(given, requires % 3))
                }
                Spread::Hub if kind == 0 => {
                    let all_of_them = odd || count == 1;
                    (random.some_of(all, u32::from(!all_of_them)), Ports::EMPTY)
                }
                Spread::Hub if odd => (Ports::EMPTY, random.some_of(all, requires % 2)),
                Spread::Hub => (Ports::EMPTY, Ports::EMPTY),
            };
            given |= provided;
            states.push(State {
                provided,
                required: if number == 0 { Ports::EMPTY } else { required },
                successors: successors(random, number, count, ways),
            });
        }
        kinds.push(states);
    }
    Sketch { ports, kinds }
}

fn successors(random: &mut Random, number: u8, count: u8, ways: usize) -> States {
    let possible = States::below(count) - States::one(number);
    let some = States::from_bits(random.bits() as u8);
    let next = if number + 1 < count {
        States::one(number + 1)
    } else {
        States::EMPTY
    };
    match ways {
        0 => next,
        1 => next | (some & States::from_bits(random.bits() as u8) & possible),
        2 => some & possible,
        _ => next | States::one(0) & possible,
    }
}

/// A file with something wrong, mostly.
pub fn damaged(random: &mut Random, sketch: &Sketch) -> Vec<u8> {
    let mut file = sketch.file();
    let times = if random.once_in(4) { 2 } else { 1 };
    for _ in 0..times {
        damage(random, sketch, &mut file);
    }
    file
}

fn damage(random: &mut Random, sketch: &Sketch, file: &mut Vec<u8>) {
    match random.below(9) {
        0 => {
            if !file.is_empty() {
                let place = random.below(file.len());
                file[place] ^= 1 << random.below(8);
            }
        }
        1 => file.truncate(random.below(file.len() + 1)),
        2 => file.pop().map_or((), |_| ()),
        3 => {
            for _ in 0..random.between(1, 20) {
                file.push(random.bits() as u8);
            }
        }
        4 => {
            let length = random.below(100);
            *file = (0..length).map(|_| random.bits() as u8).collect();
        }
        5 => damage_header(random, file),
        6 => damage_count(random, sketch, file),
        _ => damage_entry(random, sketch, file),
    }
}

fn damage_header(random: &mut Random, file: &mut [u8]) {
    let Some(bytes) = file.first_chunk_mut() else {
        return;
    };
    let header = u16::from_be_bytes(*bytes);
    let (types, ports) = (random.below(32) as u16, random.below(64) as u16);
    let types = random.pick(&[0, 17, types]);
    let ports = random.pick(&[33, 63, ports]);
    *bytes = match random.below(4) {
        0 => header & 0x07ff | types << 11,
        1 => header & 0xf81f | ports << 5,
        2 => header | 1 << random.below(5),
        _ => random.bits() as u16,
    }
    .to_be_bytes();
}

/// The place of a random type's state count in an undamaged file, and how many states it has.
fn random_kind(random: &mut Random, sketch: &Sketch) -> (usize, usize) {
    let kind = random.below(sketch.kinds.len());
    let before = &sketch.kinds[..kind];
    let place = 2 + before
        .iter()
        .map(|states| 1 + 9 * states.len())
        .sum::<usize>();
    (place, sketch.kinds[kind].len())
}

fn damage_count(random: &mut Random, sketch: &Sketch, file: &mut [u8]) {
    let (place, _) = random_kind(random, sketch);
    if let Some(byte) = file.get_mut(place) {
        *byte = match random.below(3) {
            0 => *byte & 0x0f | random.pick(&[0, 9, 15]) << 4,
            1 => *byte | 1 << random.below(4),
            _ => random.bits() as u8,
        };
    }
}

fn damage_entry(random: &mut Random, sketch: &Sketch, file: &mut [u8]) {
    let (place, count) = random_kind(random, sketch);
    let state = if random.once_in(2) {
        0
    } else {
        random.below(count)
    };
    let Some(entry) = file
        .get_mut(place + 1 + 9 * state..)
        .and_then(|rest| rest.first_chunk_mut::<9>())
    else {
        return;
    };
    match random.below(4) {
        0 => entry[random.below(8)] |= 1 << random.below(8),
        1 => entry[random.between(4, 7)] |= 1 << random.below(8),
        2 => entry[8] |= 1 << random.below(8),
        _ => entry[8] |= 0x80 >> state,
    }
}

/// A goal, mostly of pairs in reach.
pub fn goal(random: &mut Random, universe: &Universe, closing: &Closing) -> Vec<u8> {
    let length = match random.below(8) {
        0 => 16,
        1 => random.between(1, 16),
        _ => random.between(1, 6),
    };
    let mut goal: Vec<u8> = (0..length)
        .map(|_| {
            let pair = if random.once_in(12) {
                let kind = random.below(universe.kinds().len());
                let state = random.below(universe.kinds()[kind].states().len());
                Pair {
                    kind: kind as u8,
                    state: state as u8,
                }
            } else {
                // The later ones have longer scripts.
                let listed = closing.listed();
                let rank = random.below(listed.len()).max(random.below(listed.len()));
                listed[rank].pair
            };
            pair.index() << 1
        })
        .collect();
    match random.below(24) {
        0 => goal.clear(),
        1 => goal.resize(random.between(17, 40), goal[0]),
        2 => goal[random.below(length)] |= 1,
        3 => goal[random.below(length)] = random.bits() as u8,
        4 => goal[random.below(length)] = random.pick(&[0xf0, 0x0e, 0xfe]),
        _ => {}
    }
    goal
}

/// Any draft: scripts and walks as they are, damaged, or gone on with; and noise.
pub fn draft(random: &mut Random, universe: &Universe, script: &[u32]) -> Vec<u32> {
    match random.below(16) {
        0 => noise(random),
        1 if random.once_in(8) => Vec::new(),
        1..=4 if !script.is_empty() => damaged_lines(random, universe, script.to_vec()),
        5 if !script.is_empty() => script.to_vec(),
        2..=8 => {
            let valid = valid_draft(random, universe, script);
            damaged_lines(random, universe, valid)
        }
        9 | 10 => {
            let mut lines = valid_draft(random, universe, script);
            lines.push(any_line(random, universe));
            lines
        }
        11..=13 => careless_draft(random, universe, script),
        _ => valid_draft(random, universe, script),
    }
}

/// A draft that passes: the script, a random walk, or the one after the other.
pub fn valid_draft(random: &mut Random, universe: &Universe, script: &[u32]) -> Vec<u32> {
    walk(random, universe, script).finished()
}

fn walk<'u>(random: &mut Random, universe: &'u Universe, script: &[u32]) -> Walk<'u> {
    let mut walk = Walk::new(universe);
    if random.once_in(3) {
        walk.follow(script);
    }
    if walk.lines.is_empty() || random.once_in(2) {
        walk.stroll(random);
    }
    walk
}

/// A draft that passes up to its last line, which is a change or an unbind and may open a gap.
fn careless_draft(random: &mut Random, universe: &Universe, script: &[u32]) -> Vec<u32> {
    let mut walk = walk(random, universe, script);
    let order = if random.once_in(2) {
        walk.some_change(random)
    } else {
        walk.some_unbind(random)
    };
    walk.lines.extend(order.map(line_of));
    walk.lines
}

/// A draft of very many bindings. One more than may stand is among them, if `one_too_many`.
pub fn crowded_draft(random: &mut Random, universe: &Universe, one_too_many: bool) -> Vec<u32> {
    let mut walk = Walk::new(universe);
    for number in 0..random.between(20, 24) {
        let kind = if number < 9 { 0 } else { 1 };
        walk.give(Order::Create {
            instance: number as u32,
            kind,
        });
        if kind == 0 {
            walk.settle(random);
        }
    }
    let bindings = walk.possible_bindings();
    for binding in &bindings {
        walk.give(Order::Bind(*binding));
    }
    walk.stroll(random);
    if one_too_many {
        for binding in &bindings {
            walk.give(Order::Bind(*binding));
        }
        let standing =
            |binding: &&Binding| rules::legal(&walk.table, Order::Bind(**binding)).is_ok();
        let more = bindings.iter().find(standing);
        walk.lines
            .extend(more.map(|binding| line_of(Order::Bind(*binding))));
    }
    walk.lines
}

/// A draft of as many lines as may be, or about as many.
pub fn long_draft(random: &mut Random, universe: &Universe) -> Vec<u32> {
    let mut walk = Walk::new(universe);
    walk.stroll(random);
    let length = MAX_LINES - 2 + random.below(5);
    let free = (0..256).find(|number| walk.table.instance(*number).is_none());
    while let (Some(instance), true) = (free, walk.lines.len() < length) {
        walk.give(Order::Create { instance, kind: 0 });
        walk.give(Order::Delete { instance });
    }
    walk.lines.truncate(length);
    walk.lines
}

fn noise(random: &mut Random) -> Vec<u32> {
    (0..random.between(1, 20)).map(|_| random.word()).collect()
}

fn damaged_lines(random: &mut Random, universe: &Universe, mut lines: Vec<u32>) -> Vec<u32> {
    if lines.is_empty() {
        return lines;
    }
    let place = random.below(lines.len());
    match random.below(6) {
        0 => {
            let bit = random.below(32);
            lines[place] ^= 1 << random.pick(&[0, bit, bit, bit]);
        }
        1 => lines.truncate(place),
        2 => {
            lines.remove(place);
        }
        3 => lines.insert(place, lines[place]),
        4 => {
            let neighbour = (place + 1) % lines.len();
            lines.swap(place, neighbour);
        }
        _ => lines[place] = any_line(random, universe),
    }
    lines
}

/// A line of random numbers, some of them a little too large.
fn any_line(random: &mut Random, universe: &Universe) -> u32 {
    let numbers = random.pick(&[2, 8, 256]);
    let instance = random.below(numbers) as u32;
    let binding = Binding {
        port: random.below((usize::from(universe.ports()) + 1).min(32)) as u32,
        provider: instance,
        requirer: random.below(numbers) as u32,
    };
    line_of(match random.below(6) {
        0 => Order::Create {
            instance,
            kind: random.below((universe.kinds().len() + 1).min(16)) as u32,
        },
        1 => Order::Bind(binding),
        2 | 3 => Order::Change {
            instance,
            state: random.below(8) as u32,
        },
        4 => Order::Unbind(binding),
        _ => Order::Delete { instance },
    })
}

fn line_of(order: Order) -> u32 {
    line::encode(order).expect("random numbers fit their fields")
}

/// A draft that grows by orders that pass the check.
struct Walk<'u> {
    universe: &'u Universe,
    table: Table<'u>,
    lines: Vec<u32>,
    standing: Vec<u32>,
}

impl<'u> Walk<'u> {
    fn new(universe: &'u Universe) -> Self {
        Self {
            universe,
            table: Table::new(universe),
            lines: Vec::new(),
            standing: Vec::new(),
        }
    }

    /// Takes the order if it passes.
    fn give(&mut self, order: Order) {
        let full = matches!(order, Order::Bind(_)) && self.table.bindings() == MAX_BINDINGS;
        if full || rules::legal(&self.table, order).is_err() || opens_gap(&self.table, order) {
            return;
        }
        self.table.apply(order);
        self.lines.push(line_of(order));
        match order {
            Order::Create { instance, .. } => self.standing.push(instance),
            Order::Delete { instance } => self.standing.retain(|number| *number != instance),
            _ => {}
        }
    }

    fn follow(&mut self, lines: &[u32]) {
        for order in lines.iter().filter_map(|line| line::decode(*line).ok()) {
            self.give(order);
        }
    }

    /// A walk has to have a line, to pass.
    fn finished(mut self) -> Vec<u32> {
        if self.lines.is_empty() {
            self.give(Order::Create {
                instance: 0,
                kind: 0,
            });
        }
        self.lines
    }

    fn stroll(&mut self, random: &mut Random) {
        let moves = match random.below(20) {
            0 => random.between(300, 800),
            1..=8 => random.between(50, 200),
            _ => random.between(1, 50),
        };
        let numbers = random.pick(&[3, 8, 8, 20, 256]);
        let taste = random.below(3);
        for _ in 0..moves {
            match random.below(10 + taste) {
                0 | 1 => self.create(random, numbers),
                2..=4 => self.settle(random),
                5 | 6 => self.bind(random),
                7 => self.unbind(random),
                8 => self.delete(random),
                _ if taste == 0 => self.create(random, numbers),
                _ if taste == 1 => self.settle(random),
                _ => self.bind(random),
            }
        }
    }

    fn create(&mut self, random: &mut Random, numbers: usize) {
        self.give(Order::Create {
            instance: random.below(numbers) as u32,
            kind: random.below(self.universe.kinds().len()) as u32,
        });
    }

    fn any_standing(&self, random: &mut Random) -> Option<(u32, Pair)> {
        if self.standing.is_empty() {
            return None;
        }
        let number = random.pick(&self.standing);
        Some((number, self.table.instance(number)?))
    }

    /// Binds an instance as some successor of its state requires, and changes to that.
    fn settle(&mut self, random: &mut Random) {
        let Some(order @ Order::Change { instance, state }) = self.some_change(random) else {
            return;
        };
        let Some(pair) = self.table.instance(instance) else {
            return;
        };
        let next = Pair {
            state: state as u8,
            ..pair
        };
        for port in self.universe.state(next).required.iter() {
            let provides = |pair| self.universe.state(pair).provided.contains(port);
            if let Some(provider) = self.some_standing(random, provides) {
                self.give(Order::Bind(Binding {
                    port: port.into(),
                    provider,
                    requirer: instance,
                }));
            }
        }
        self.give(order);
    }

    /// A standing instance in a pair as wanted, if there is one.
    fn some_standing(&self, random: &mut Random, wanted: impl Fn(Pair) -> bool) -> Option<u32> {
        let from = random.below(self.standing.len());
        let (before, behind) = self.standing.split_at(from);
        let mut numbers = behind.iter().chain(before);
        numbers
            .find(|number| self.table.instance(**number).is_some_and(&wanted))
            .copied()
    }

    fn bind(&mut self, random: &mut Random) {
        let Some((requirer, pair)) = self.any_standing(random) else {
            return;
        };
        let ports: Vec<u8> = self.universe.kind_of(pair).ever_required().iter().collect();
        if ports.is_empty() {
            return;
        }
        let port = random.pick(&ports);
        let provides = |pair| self.universe.kind_of(pair).ever_provided().contains(port);
        if let Some(provider) = self.some_standing(random, provides) {
            self.give(Order::Bind(Binding {
                port: port.into(),
                provider,
                requirer,
            }));
        }
    }

    /// A change of some instance to a successor of its state.
    fn some_change(&self, random: &mut Random) -> Option<Order> {
        let (instance, pair) = self.any_standing(random)?;
        let successors: Vec<u8> = self.universe.state(pair).successors.iter().collect();
        if successors.is_empty() {
            return None;
        }
        let state = random.pick(&successors).into();
        Some(Order::Change { instance, state })
    }

    /// An unbind of some binding that stands.
    fn some_unbind(&self, random: &mut Random) -> Option<Order> {
        let (requirer, _) = self.any_standing(random)?;
        let suppliers: Vec<(u32, Ports)> = self.table.suppliers(requirer).collect();
        if suppliers.is_empty() {
            return None;
        }
        let (provider, ports) = random.pick(&suppliers);
        let ports: Vec<u8> = ports.iter().collect();
        let port = random.pick(&ports).into();
        Some(Order::Unbind(Binding {
            port,
            provider,
            requirer,
        }))
    }

    fn unbind(&mut self, random: &mut Random) {
        if let Some(order) = self.some_unbind(random) {
            self.give(order);
        }
    }

    fn delete(&mut self, random: &mut Random) {
        if let Some((instance, _)) = self.any_standing(random) {
            self.give(Order::Delete { instance });
        }
    }

    /// The bindings that can stand between what stands.
    fn possible_bindings(&self) -> Vec<Binding> {
        let mut bindings = Vec::new();
        for &requirer in &self.standing {
            for &provider in &self.standing {
                for port in 0..u32::from(self.universe.ports()) {
                    let binding = Binding {
                        port,
                        provider,
                        requirer,
                    };
                    if rules::legal(&self.table, Order::Bind(binding)).is_ok() {
                        bindings.push(binding);
                    }
                }
            }
        }
        bindings
    }
}
