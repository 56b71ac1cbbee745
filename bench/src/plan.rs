//! Planning: the script that reaches a goal.

use crate::closing::Closing;
use crate::line;
use crate::sets::{Pairs, Ports};
use crate::universe::{Pair, State, Universe, MAX_PORTS, MAX_STATES};

pub const MAX_GOAL_LINES: usize = 16;

#[derive(Clone, Copy, PartialEq, Eq, Debug)]
pub enum PlanRefusal {
    GoalLength,
    NoPair,
    OutOfReach,
    Room,
}

impl PlanRefusal {
    pub fn number(self) -> u32 {
        match self {
            Self::GoalLength => 11,
            Self::NoPair => 12,
            Self::OutOfReach => 14,
            Self::Room => 15,
        }
    }
}

/// Writes the goal's script to the start of the list and answers how many lines it has.
pub fn plan(universe: &Universe, goal: &[u8], list: &mut [u32]) -> Result<usize, PlanRefusal> {
    let goal = read_goal(universe, goal)?;
    let closing = Closing::of(universe);
    let needed = needed(&closing, goal).ok_or(PlanRefusal::OutOfReach)?;
    let lines = needed
        .iter()
        .map(|rank| closing.listed()[usize::from(rank)].lines)
        .sum();
    let script = list.get_mut(..lines).ok_or(PlanRefusal::Room)?;
    Writer::new(universe, &closing, script).write(needed);
    Ok(lines)
}

/// The pairs of a goal by their index. A goal line is a byte: type 4 bits, state 3, and a zero bit.
fn read_goal(universe: &Universe, goal: &[u8]) -> Result<Pairs, PlanRefusal> {
    if !(1..=MAX_GOAL_LINES).contains(&goal.len()) {
        return Err(PlanRefusal::GoalLength);
    }
    goal.iter().try_fold(Pairs::EMPTY, |pairs, line| {
        let pair = Pair {
            kind: line >> 4,
            state: line >> 1 & 7,
        };
        if line & 1 == 0 && universe.has(pair) {
            Ok(pairs | Pairs::one(pair.index()))
        } else {
            Err(PlanRefusal::NoPair)
        }
    })
}

/// The needed pairs by their rank, or none if the goal is out of reach.
fn needed(closing: &Closing, goal: Pairs) -> Option<Pairs> {
    let mut needed = Pairs::EMPTY;
    for index in goal.iter() {
        needed.insert(closing.rank(Pair::of_index(index))?);
    }
    // A supplier has a lower rank than the pairs that need it.
    let mut supplied = Ports::EMPTY;
    for (rank, listed) in closing.listed().iter().enumerate().rev() {
        if needed.contains(rank as u8) {
            for port in (listed.demand - supplied).iter() {
                needed.insert(closing.supplier(port)?);
            }
            supplied |= listed.demand;
        }
    }
    Some(needed)
}

/// Writes a script whose number of lines is known, instance by instance.
struct Writer<'a> {
    universe: &'a Universe,
    closing: &'a Closing,
    places: std::slice::IterMut<'a, u32>,
    /// The instance that provides each port, for the ports that are supplied so far.
    suppliers: [u8; MAX_PORTS],
}

impl<'a> Writer<'a> {
    fn new(universe: &'a Universe, closing: &'a Closing, script: &'a mut [u32]) -> Self {
        Self {
            universe,
            closing,
            places: script.iter_mut(),
            suppliers: [0; MAX_PORTS],
        }
    }

    fn write(&mut self, needed: Pairs) {
        for (instance, rank) in (0u8..).zip(needed.iter()) {
            self.build(instance, rank);
        }
    }

    /// Creates the instance of the pair with this rank and brings it to its state.
    fn build(&mut self, instance: u8, rank: u8) {
        let (path, length) = self.path(rank);
        let mut path = path[..length].iter().rev();
        let mut before = State::default();
        if let Some(first) = path.next() {
            self.put(line::create(instance, first.kind));
            before = *self.universe.state(*first);
        }
        for pair in path {
            let next = *self.universe.state(*pair);
            for port in (next.required - before.required).iter() {
                self.put(line::bind(
                    port,
                    self.suppliers[usize::from(port)],
                    instance,
                ));
            }
            self.put(line::change(instance, pair.state));
            for port in (before.required - next.required).iter() {
                self.put(line::unbind(
                    port,
                    self.suppliers[usize::from(port)],
                    instance,
                ));
            }
            before = next;
        }
        for port in before.provided.iter() {
            if self.closing.supplier(port) == Some(rank) {
                self.suppliers[usize::from(port)] = instance;
            }
        }
    }

    /// The pairs of a path from its end, the pair with this rank, back to state 0; and how many they are.
    fn path(&self, rank: u8) -> ([Pair; MAX_STATES], usize) {
        let mut path = [Pair { kind: 0, state: 0 }; MAX_STATES];
        let mut length = 0;
        let mut place = Some(rank);
        while let Some(rank) = place {
            let listed = &self.closing.listed()[usize::from(rank)];
            path[length] = listed.pair;
            length += 1;
            place = listed.parent;
        }
        (path, length)
    }

    fn put(&mut self, line: u32) {
        *self.places.next().expect("the lines were counted") = line;
    }
}
