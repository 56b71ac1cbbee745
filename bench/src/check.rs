//! The check of a draft: it is replayed from empty, up to its first bad line.

use crate::gaps::{has_gap, After};
use crate::host::Survey;
use crate::line::{self, NotALine};
use crate::order::Order;
use crate::rules::{self, Offence};
use crate::sets::Ports;
use crate::table::{Table, MAX_BINDINGS};
use crate::universe::Universe;

pub const MAX_LINES: usize = 32_768;

/// Lines that have passed the check, which alone makes it.
#[derive(Clone, Copy, Debug)]
pub struct CheckedPlan<'d> {
    lines: &'d [u32],
}

impl<'d> CheckedPlan<'d> {
    pub fn lines(&self) -> &'d [u32] {
        self.lines
    }
}

#[derive(Clone, Copy, PartialEq, Eq, Debug)]
pub enum CheckRefusal {
    Length,
    NotEmpty,
    AtLine { place: usize, fault: LineFault },
}

#[derive(Clone, Copy, PartialEq, Eq, Debug)]
pub enum LineFault {
    NotALine,
    Illegal(Offence),
    Gap,
    TooManyBindings,
}

impl CheckRefusal {
    pub fn number(self) -> u32 {
        match self {
            Self::Length => 41,
            Self::NotEmpty => 42,
            Self::AtLine { fault, .. } => fault.number(),
        }
    }
}

impl LineFault {
    pub fn number(self) -> u32 {
        match self {
            Self::NotALine => NotALine::NUMBER,
            Self::Illegal(_) => 44,
            Self::Gap => 45,
            Self::TooManyBindings => 46,
        }
    }
}

impl From<NotALine> for LineFault {
    fn from(_: NotALine) -> Self {
        Self::NotALine
    }
}

impl From<Offence> for LineFault {
    fn from(offence: Offence) -> Self {
        Self::Illegal(offence)
    }
}

/// Checks a draft for an empty host.
pub fn check<'d>(draft: &'d [u32], host: &impl Survey) -> Result<CheckedPlan<'d>, CheckRefusal> {
    if !(1..=MAX_LINES).contains(&draft.len()) {
        return Err(CheckRefusal::Length);
    }
    if !host.is_empty() {
        return Err(CheckRefusal::NotEmpty);
    }
    replay(host.universe(), draft)?;
    Ok(CheckedPlan { lines: draft })
}

fn replay(universe: &Universe, draft: &[u32]) -> Result<(), CheckRefusal> {
    let mut table = Table::new(universe);
    for (place, &line) in draft.iter().enumerate() {
        let order = judge(&table, line).map_err(|fault| CheckRefusal::AtLine { place, fault })?;
        table.apply(order);
    }
    Ok(())
}

/// The order of a line that may come next, on a table without gaps.
#[inline(always)]
fn judge(table: &Table, line: u32) -> Result<Order, LineFault> {
    let order = line::decode(line)?;
    rules::legal(table, order)?;
    if opens_gap(table, order) {
        return Err(LineFault::Gap);
    }
    if matches!(order, Order::Bind(_)) && table.bindings() >= MAX_BINDINGS {
        return Err(LineFault::TooManyBindings);
    }
    Ok(order)
}

/// Whether a legal order opens a gap on a table that has none.
/// A change can do so at the instance and at those bound to it, an unbind at its requirer, and others nowhere.
#[inline(always)]
pub fn opens_gap(table: &Table, order: Order) -> bool {
    let after = After::new(table, order);
    match order {
        Order::Change { instance, .. } => {
            let lost = provided(table, instance) - provided(&after, instance);
            has_gap(&after, instance)
                || !lost.is_empty()
                    && table
                        .requirers(instance)
                        .any(|number| has_gap(&after, number))
        }
        Order::Unbind(binding) => has_gap(&after, binding.requirer),
        Order::Create { .. } | Order::Bind(_) | Order::Delete { .. } => false,
    }
}

/// What an instance provides now.
fn provided(survey: &impl Survey, number: u32) -> Ports {
    match survey.instance(number) {
        Some(pair) => survey.universe().state(pair).provided,
        None => Ports::EMPTY,
    }
}
