//! What a survey tells, and what a host does besides.

use crate::order::{Binding, Order};
use crate::rules::Offence;
use crate::sets::Ports;
use crate::universe::{Pair, Universe};

/// The highest number under which an instance can stand in a survey.
pub const MAX_INSTANCE: u32 = 255;

/// A universe and what stands, told by questions. A number out of range has nothing under it.
///
/// Two questions can be answered by the others. Who keeps bindings by their ends answers them faster.
pub trait Survey {
    fn universe(&self) -> &Universe;

    /// What stands under a number.
    fn instance(&self, number: u32) -> Option<Pair>;

    /// Whether a binding stands.
    fn binding(&self, binding: Binding) -> bool;

    /// How many instances stand.
    fn instances(&self) -> u32;

    /// How many bindings stand.
    fn bindings(&self) -> u32;

    /// The providers bound to a requirer, and on which ports.
    fn suppliers(&self, requirer: u32) -> impl Iterator<Item = (u32, Ports)> {
        (0..=MAX_INSTANCE).filter_map(move |provider| {
            let bound = (0..self.universe().ports()).filter(|port| {
                self.binding(Binding {
                    port: (*port).into(),
                    provider,
                    requirer,
                })
            });
            let ports = bound.fold(Ports::EMPTY, |ports, port| ports | Ports::one(port));
            (!ports.is_empty()).then_some((provider, ports))
        })
    }

    /// Whether an instance is the provider of a binding.
    fn is_provider(&self, number: u32) -> bool {
        (0..=MAX_INSTANCE).any(|requirer| {
            self.suppliers(requirer)
                .any(|(provider, _)| provider == number)
        })
    }

    /// Whether nothing stands.
    fn is_empty(&self) -> bool {
        self.instances() == 0 && self.bindings() == 0
    }
}

/// A survey that takes orders.
pub trait Host: Survey {
    /// How many of the coming orders it puts off.
    fn waits(&self) -> u32;

    /// What waits never pass.
    fn longest_wait(&self) -> u32;

    /// Whether it refuses changes and unbinds that leave a gap.
    fn watchful(&self) -> bool;

    fn creation_allowance(&self) -> u32;

    fn binding_allowance(&self) -> u32;

    /// 0 at the bottom, and in a layer one more than below it, up to 255.
    fn height(&self) -> u8;

    fn order(&mut self, order: Order) -> Result<(), Refusal>;
}

/// Why a host did not do an order, and the height of the layer that says so.
#[derive(Clone, Copy, PartialEq, Eq, Debug)]
pub struct Refusal {
    pub reason: Reason,
    pub height: u8,
}

#[derive(Clone, Copy, PartialEq, Eq, Debug)]
pub enum Reason {
    Busy,
    Illegal(Offence),
    Gap,
    Full,
}

impl Reason {
    pub fn number(self) -> u32 {
        match self {
            Self::Busy => 21,
            Self::Illegal(offence) => offence.number(),
            Self::Gap => 30,
            Self::Full => 31,
        }
    }
}
