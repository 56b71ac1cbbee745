//! Which orders are legal where.

use crate::host::{Survey, MAX_INSTANCE};
use crate::order::{Binding, Order};
use crate::universe::MAX_STATES;

#[derive(Clone, Copy, PartialEq, Eq, Debug)]
pub enum Offence {
    OutOfRange,
    Standing,
    NotStanding,
    Unfit,
    Bound,
    Unbound,
    NoSuccessor,
    Provider,
}

impl Offence {
    pub fn number(self) -> u32 {
        match self {
            Self::OutOfRange => 22,
            Self::Standing => 23,
            Self::NotStanding => 24,
            Self::Unfit => 25,
            Self::Bound => 26,
            Self::Unbound => 27,
            Self::NoSuccessor => 28,
            Self::Provider => 29,
        }
    }
}

/// Whether an order is legal, or else its first offence.
// Inlined, as what else is done with one order is: so the matches on it become one.
#[inline(always)]
pub fn legal(survey: &impl Survey, order: Order) -> Result<(), Offence> {
    match order {
        Order::Create { instance, kind } => {
            let types = survey.universe().kinds().len();
            refuse(
                instance > MAX_INSTANCE || kind as usize >= types,
                Offence::OutOfRange,
            )?;
            refuse(survey.instance(instance).is_some(), Offence::Standing)
        }
        Order::Bind(binding) => {
            in_range(survey, binding)?;
            let provider = survey.instance(binding.provider);
            let requirer = survey.instance(binding.requirer);
            let (Some(provider), Some(requirer)) = (provider, requirer) else {
                return Err(Offence::NotStanding);
            };
            let universe = survey.universe();
            let port = binding.port as u8;
            let fit = binding.provider != binding.requirer
                && universe.kind_of(provider).ever_provided().contains(port)
                && universe.kind_of(requirer).ever_required().contains(port);
            refuse(!fit, Offence::Unfit)?;
            refuse(survey.binding(binding), Offence::Bound)
        }
        Order::Change { instance, state } => {
            let in_range = instance <= MAX_INSTANCE && (state as usize) < MAX_STATES;
            refuse(!in_range, Offence::OutOfRange)?;
            let pair = survey.instance(instance).ok_or(Offence::NotStanding)?;
            let successors = survey.universe().state(pair).successors;
            refuse(!successors.contains(state as u8), Offence::NoSuccessor)
        }
        Order::Unbind(binding) => {
            in_range(survey, binding)?;
            let stands = |number| survey.instance(number).is_some();
            let both = stands(binding.provider) && stands(binding.requirer);
            refuse(!both, Offence::NotStanding)?;
            refuse(!survey.binding(binding), Offence::Unbound)
        }
        Order::Delete { instance } => {
            refuse(instance > MAX_INSTANCE, Offence::OutOfRange)?;
            refuse(survey.instance(instance).is_none(), Offence::NotStanding)?;
            refuse(survey.is_provider(instance), Offence::Provider)
        }
    }
}

fn in_range(survey: &impl Survey, binding: Binding) -> Result<(), Offence> {
    let in_range = binding.provider <= MAX_INSTANCE
        && binding.requirer <= MAX_INSTANCE
        && binding.port < survey.universe().ports().into();
    refuse(!in_range, Offence::OutOfRange)
}

fn refuse(offends: bool, offence: Offence) -> Result<(), Offence> {
    if offends {
        Err(offence)
    } else {
        Ok(())
    }
}
