//! The simulated cloud: a table with limits that puts off each order for a while.

use crate::host::{Host, Reason, Refusal, Survey};
use crate::order::{Binding, Order};
use crate::rules;
use crate::sets::Ports;
use crate::table::{Table, MAX_BINDINGS, MAX_INSTANCES};
use crate::universe::{Pair, Universe};

pub const MAX_DELAY: u32 = 8;

/// What a cloud is opened with. What is larger than the largest counts as the largest.
#[derive(Clone, Copy, Debug)]
pub struct Limits {
    pub instances: u32,
    pub bindings: u32,
    pub delay: u32,
}

impl Limits {
    pub const LARGEST: Self = Self {
        instances: MAX_INSTANCES,
        bindings: MAX_BINDINGS,
        delay: MAX_DELAY,
    };

    fn held(self) -> Self {
        Self {
            instances: self.instances.min(MAX_INSTANCES),
            bindings: self.bindings.min(MAX_BINDINGS),
            delay: self.delay.min(MAX_DELAY),
        }
    }
}

pub struct Cloud<'u> {
    table: Table<'u>,
    limits: Limits,
    waits: u32,
}

impl<'u> Cloud<'u> {
    /// A cloud in which nothing stands.
    pub fn open(universe: &'u Universe, limits: Limits) -> Self {
        let limits = limits.held();
        Self {
            table: Table::new(universe),
            limits,
            waits: limits.delay,
        }
    }

    #[inline(always)]
    fn decide(&self, order: Order) -> Result<(), Reason> {
        rules::legal(&self.table, order).map_err(Reason::Illegal)?;
        let allowance = match order {
            Order::Create { .. } => self.creation_allowance(),
            Order::Bind(_) => self.binding_allowance(),
            _ => return Ok(()),
        };
        if allowance == 0 {
            return Err(Reason::Full);
        }
        Ok(())
    }
}

impl Survey for Cloud<'_> {
    fn universe(&self) -> &Universe {
        self.table.universe()
    }

    fn instance(&self, number: u32) -> Option<Pair> {
        self.table.instance(number)
    }

    fn binding(&self, binding: Binding) -> bool {
        self.table.binding(binding)
    }

    fn instances(&self) -> u32 {
        self.table.instances()
    }

    fn bindings(&self) -> u32 {
        self.table.bindings()
    }

    fn suppliers(&self, requirer: u32) -> impl Iterator<Item = (u32, Ports)> {
        self.table.suppliers(requirer)
    }

    fn is_provider(&self, number: u32) -> bool {
        self.table.is_provider(number)
    }
}

impl Host for Cloud<'_> {
    fn waits(&self) -> u32 {
        self.waits
    }

    fn longest_wait(&self) -> u32 {
        self.limits.delay
    }

    fn watchful(&self) -> bool {
        false
    }

    fn creation_allowance(&self) -> u32 {
        self.limits.instances - self.table.instances()
    }

    fn binding_allowance(&self) -> u32 {
        self.limits.bindings - self.table.bindings()
    }

    fn height(&self) -> u8 {
        0
    }

    #[inline(always)]
    fn order(&mut self, order: Order) -> Result<(), Refusal> {
        let refused = |reason| Refusal { reason, height: 0 };
        if self.waits > 0 {
            self.waits -= 1;
            return Err(refused(Reason::Busy));
        }
        self.waits = self.limits.delay;
        self.decide(order).map_err(refused)?;
        self.table.apply(order);
        Ok(())
    }
}
