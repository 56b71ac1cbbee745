//! Universes that programs and tests make, and their files.

use crate::sets::{Ports, States};
use crate::universe::State;

/// A universe as it is meant to be; nothing holds it to the rules.
#[derive(Clone, Debug)]
pub struct Sketch {
    pub ports: u8,
    pub kinds: Vec<Vec<State>>,
}

impl Sketch {
    pub fn file(&self) -> Vec<u8> {
        let header = (self.kinds.len() as u16) << 11 | u16::from(self.ports) << 5;
        let mut file = header.to_be_bytes().to_vec();
        for states in &self.kinds {
            file.push((states.len() as u8) << 4);
            for state in states {
                file.extend(state.provided.bits().to_be_bytes());
                file.extend(state.required.bits().to_be_bytes());
                file.push(state.successors.bits());
            }
        }
        file
    }

    /// The harbour: lock is port 0 and roster port 1. Type 0 provides the lock in its state 1, type 1 provides the roster
    /// in its state 1 and requires the lock for it, type 2 requires the lock in state 1 and the roster in state 2.
    pub fn harbour() -> Self {
        let nothing = Ports::EMPTY;
        let (lock, roster) = (Ports::one(0), Ports::one(1));
        Self {
            ports: 2,
            kinds: vec![
                chain(&[(nothing, nothing), (lock, nothing)]),
                chain(&[(nothing, nothing), (roster, lock)]),
                chain(&[(nothing, nothing), (nothing, lock), (nothing, roster)]),
            ],
        }
    }
}

/// States of which each has the next as successor, from what they provide and require.
pub fn chain(states: &[(Ports, Ports)]) -> Vec<State> {
    (1u8..)
        .zip(states)
        .map(|(next, &(provided, required))| State {
            provided,
            required,
            successors: if usize::from(next) < states.len() {
                States::one(next)
            } else {
                States::EMPTY
            },
        })
        .collect()
}
