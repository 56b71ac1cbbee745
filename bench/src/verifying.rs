//! The verifying layer: it goes over any host, and refuses changes and unbinds that leave a gap.

use crate::gaps::{any_gap, After};
use crate::host::{Host, Reason, Refusal, Survey};
use crate::order::{Binding, Order};
use crate::rules;
use crate::sets::Ports;
use crate::universe::{Pair, Universe};

pub struct Verifying<B> {
    below: B,
}

impl<B: Host> Verifying<B> {
    pub fn over(below: B) -> Self {
        Self { below }
    }

    /// Whether an order is refused here. What the host below puts off or finds an offence in is left to it.
    #[inline(always)]
    fn stops(&self, order: Order) -> bool {
        matches!(order, Order::Change { .. } | Order::Unbind(_))
            && self.below.waits() == 0
            && rules::legal(&self.below, order).is_ok()
            && any_gap(&After::new(&self.below, order))
    }
}

impl<B: Host> Survey for Verifying<B> {
    fn universe(&self) -> &Universe {
        self.below.universe()
    }

    fn instance(&self, number: u32) -> Option<Pair> {
        self.below.instance(number)
    }

    fn binding(&self, binding: Binding) -> bool {
        self.below.binding(binding)
    }

    fn instances(&self) -> u32 {
        self.below.instances()
    }

    fn bindings(&self) -> u32 {
        self.below.bindings()
    }

    fn suppliers(&self, requirer: u32) -> impl Iterator<Item = (u32, Ports)> {
        self.below.suppliers(requirer)
    }

    fn is_provider(&self, number: u32) -> bool {
        self.below.is_provider(number)
    }
}

impl<B: Host> Host for Verifying<B> {
    fn waits(&self) -> u32 {
        self.below.waits()
    }

    fn longest_wait(&self) -> u32 {
        self.below.longest_wait()
    }

    fn watchful(&self) -> bool {
        true
    }

    fn creation_allowance(&self) -> u32 {
        self.below.creation_allowance()
    }

    fn binding_allowance(&self) -> u32 {
        self.below.binding_allowance()
    }

    fn height(&self) -> u8 {
        self.below.height().saturating_add(1)
    }

    #[inline(always)]
    fn order(&mut self, order: Order) -> Result<(), Refusal> {
        if self.stops(order) {
            return Err(Refusal {
                reason: Reason::Gap,
                height: self.height(),
            });
        }
        self.below.order(order)
    }
}
