//! Universes, and reading them from their file.

use crate::sets::{Ports, States};

pub const MAX_TYPES: usize = 16;
pub const MAX_STATES: usize = 8;
pub const MAX_PORTS: usize = 32;

/// One state of a type.
#[derive(Clone, Copy, PartialEq, Eq, Default, Debug)]
pub struct State {
    pub provided: Ports,
    pub required: Ports,
    pub successors: States,
}

/// A type. Its states have no successor that is the state itself or does not exist, and state 0 requires nothing.
#[derive(Clone, Debug)]
pub struct Kind {
    states: [State; MAX_STATES],
    count: u8,
    /// What some state provides.
    ever_provided: Ports,
    /// What some state requires.
    ever_required: Ports,
}

impl Kind {
    pub fn states(&self) -> &[State] {
        &self.states[..usize::from(self.count)]
    }

    pub fn ever_provided(&self) -> Ports {
        self.ever_provided
    }

    pub fn ever_required(&self) -> Ports {
        self.ever_required
    }
}

/// A type with one of its states.
#[derive(Clone, Copy, PartialEq, Eq, Debug)]
pub struct Pair {
    pub kind: u8,
    pub state: u8,
}

impl Pair {
    /// The pair's place among all pairs, by type and then by state.
    pub fn index(self) -> u8 {
        self.kind * MAX_STATES as u8 + self.state
    }

    pub fn of_index(index: u8) -> Self {
        Self {
            kind: index / MAX_STATES as u8,
            state: index % MAX_STATES as u8,
        }
    }
}

#[derive(Clone, Debug)]
pub struct Universe {
    ports: u8,
    kinds: Vec<Kind>,
}

#[derive(Clone, Copy, PartialEq, Eq, Debug)]
pub enum UniverseRefusal {
    Length,
    Count,
    ZeroBit,
    Port,
    Successor,
    InitialState,
}

impl UniverseRefusal {
    pub fn number(self) -> u32 {
        match self {
            Self::Length => 1,
            Self::Count => 2,
            Self::ZeroBit => 3,
            Self::Port => 4,
            Self::Successor => 5,
            Self::InitialState => 6,
        }
    }
}

impl Universe {
    /// Reads a file: the header, and each type. Its first group of fields with an offence refuses it.
    pub fn read(file: &[u8]) -> Result<Self, UniverseRefusal> {
        let mut reader = Reader { rest: file };
        let header = u16::from_be_bytes(reader.take()?);
        let types = usize::from(header >> 11);
        let ports = (header >> 5 & 0x3f) as u8;
        if !(1..=MAX_TYPES).contains(&types) || usize::from(ports) > MAX_PORTS {
            return Err(UniverseRefusal::Count);
        }
        if header & 0x1f != 0 {
            return Err(UniverseRefusal::ZeroBit);
        }
        let mut kinds = Vec::with_capacity(types);
        for _ in 0..types {
            kinds.push(reader.kind(ports)?);
        }
        if !reader.rest.is_empty() {
            return Err(UniverseRefusal::Length);
        }
        Ok(Self { ports, kinds })
    }

    pub fn ports(&self) -> u8 {
        self.ports
    }

    pub fn kinds(&self) -> &[Kind] {
        &self.kinds
    }

    /// What a pair of this universe provides, requires and leads to.
    pub fn state(&self, pair: Pair) -> &State {
        &self.kinds[usize::from(pair.kind)].states[usize::from(pair.state)]
    }

    pub fn kind_of(&self, pair: Pair) -> &Kind {
        &self.kinds[usize::from(pair.kind)]
    }

    pub fn has(&self, pair: Pair) -> bool {
        self.kinds
            .get(usize::from(pair.kind))
            .is_some_and(|kind| pair.state < kind.count)
    }
}

/// The bytes of a file that are not read yet.
struct Reader<'f> {
    rest: &'f [u8],
}

impl Reader<'_> {
    fn take<const N: usize>(&mut self) -> Result<[u8; N], UniverseRefusal> {
        let (group, rest) = self
            .rest
            .split_first_chunk()
            .ok_or(UniverseRefusal::Length)?;
        self.rest = rest;
        Ok(*group)
    }

    fn kind(&mut self, ports: u8) -> Result<Kind, UniverseRefusal> {
        let [byte] = self.take()?;
        let count = byte >> 4;
        if !(1..=MAX_STATES).contains(&usize::from(count)) {
            return Err(UniverseRefusal::Count);
        }
        if byte & 0x0f != 0 {
            return Err(UniverseRefusal::ZeroBit);
        }
        let mut kind = Kind {
            states: [State::default(); MAX_STATES],
            count,
            ever_provided: Ports::EMPTY,
            ever_required: Ports::EMPTY,
        };
        for number in 0..count {
            let state = self.state(number, count, ports)?;
            kind.ever_provided |= state.provided;
            kind.ever_required |= state.required;
            kind.states[usize::from(number)] = state;
        }
        Ok(kind)
    }

    fn state(&mut self, number: u8, count: u8, ports: u8) -> Result<State, UniverseRefusal> {
        let [p0, p1, p2, p3, r0, r1, r2, r3, successors] = self.take()?;
        let state = State {
            provided: Ports::from_bits(u32::from_be_bytes([p0, p1, p2, p3])),
            required: Ports::from_bits(u32::from_be_bytes([r0, r1, r2, r3])),
            successors: States::from_bits(successors),
        };
        let named = state.provided | state.required;
        if !(named - Ports::below(ports)).is_empty() {
            return Err(UniverseRefusal::Port);
        }
        let possible = States::below(count) - States::one(number);
        if !(state.successors - possible).is_empty() {
            return Err(UniverseRefusal::Successor);
        }
        if number == 0 && !state.required.is_empty() {
            return Err(UniverseRefusal::InitialState);
        }
        Ok(state)
    }
}
