//! Gaps: required ports for which no bound provider provides now.

use crate::host::{Survey, MAX_INSTANCE};
use crate::order::{Binding, Order};
use crate::sets::Ports;
use crate::universe::{Pair, Universe};

/// The ports at which an instance, which stands in this pair, has a gap.
#[inline(always)]
pub fn gaps_of(survey: &impl Survey, number: u32, pair: Pair) -> Ports {
    let universe = survey.universe();
    let mut open = universe.state(pair).required;
    if open.is_empty() {
        return open;
    }
    for (provider, ports) in survey.suppliers(number) {
        if let Some(pair) = survey.instance(provider) {
            open -= ports & universe.state(pair).provided;
            if open.is_empty() {
                break;
            }
        }
    }
    open
}

/// Whether an instance stands under a number and has a gap.
#[inline(always)]
pub fn has_gap(survey: &impl Survey, number: u32) -> bool {
    survey
        .instance(number)
        .is_some_and(|pair| !gaps_of(survey, number, pair).is_empty())
}

/// Whether any instance has a gap.
pub fn any_gap(survey: &impl Survey) -> bool {
    (0..=MAX_INSTANCE)
        .filter_map(|number| Some((number, survey.instance(number)?)))
        .take(survey.instances() as usize)
        .any(|(number, pair)| !gaps_of(survey, number, pair).is_empty())
}

/// What would stand after a legal change or unbind; after other orders, what stands already.
pub struct After<'s, S> {
    before: &'s S,
    order: Order,
}

impl<'s, S: Survey> After<'s, S> {
    pub fn new(before: &'s S, order: Order) -> Self {
        Self { before, order }
    }
}

impl<S: Survey> Survey for After<'_, S> {
    fn universe(&self) -> &Universe {
        self.before.universe()
    }

    fn instance(&self, number: u32) -> Option<Pair> {
        let pair = self.before.instance(number)?;
        match self.order {
            Order::Change { instance, state } if instance == number => Some(Pair {
                state: state as u8,
                ..pair
            }),
            _ => Some(pair),
        }
    }

    fn binding(&self, binding: Binding) -> bool {
        self.order != Order::Unbind(binding) && self.before.binding(binding)
    }

    fn instances(&self) -> u32 {
        self.before.instances()
    }

    fn bindings(&self) -> u32 {
        self.before.bindings() - u32::from(matches!(self.order, Order::Unbind(_)))
    }

    fn suppliers(&self, requirer: u32) -> impl Iterator<Item = (u32, Ports)> {
        self.before
            .suppliers(requirer)
            .map(move |(provider, ports)| match self.order {
                Order::Unbind(ended)
                    if (ended.provider, ended.requirer) == (provider, requirer) =>
                {
                    (provider, ports - Ports::one(ended.port as u8))
                }
                _ => (provider, ports),
            })
    }
}
