//! A run of a checked plan over a host, from start over steps to finish.

use crate::check::CheckedPlan;
use crate::host::{Host, Refusal, Survey};
use crate::line;
use crate::order::Order;

/// A started run.
#[derive(Debug)]
pub struct Running<'d> {
    lines: &'d [u32],
    place: usize,
}

/// What a started run owes to its finish.
#[derive(Debug)]
#[must_use = "a started run has to be finished"]
pub struct Ticket {
    leases: u64,
}

#[derive(Clone, Copy, PartialEq, Eq, Debug)]
pub enum StartRefusal {
    NotEmpty,
}

impl StartRefusal {
    pub fn number(self) -> u32 {
        match self {
            Self::NotEmpty => 51,
        }
    }
}

#[derive(Clone, Copy, PartialEq, Eq, Debug)]
pub enum StepFault {
    NoLine,
    Refused {
        place: usize,
        order: Order,
        refusal: Refusal,
    },
}

impl StepFault {
    pub fn number(self) -> u32 {
        match self {
            Self::NoLine => 52,
            Self::Refused { refusal, .. } => refusal.reason.number(),
        }
    }
}

#[derive(Clone, Copy, PartialEq, Eq, Debug)]
pub struct Finished {
    pub place: usize,
    pub leases: u64,
}

pub fn start<'d>(
    plan: CheckedPlan<'d>,
    host: &impl Survey,
) -> Result<(Running<'d>, Ticket), StartRefusal> {
    if !host.is_empty() {
        return Err(StartRefusal::NotEmpty);
    }
    let running = Running {
        lines: plan.lines(),
        place: 0,
    };
    Ok((running, Ticket { leases: 0 }))
}

/// Gives the host the order of the line at the place. If it is done, the place moves by one.
#[inline(always)]
pub fn step(
    running: &mut Running,
    ticket: &mut Ticket,
    host: &mut impl Host,
) -> Result<(), StepFault> {
    let place = running.place;
    let line = running.lines.get(place).ok_or(StepFault::NoLine)?;
    let order = line::decode(*line).expect("checked lines tell orders");
    let before = host.bindings();
    host.order(order).map_err(|refusal| StepFault::Refused {
        place,
        order,
        refusal,
    })?;
    running.place += 1;
    match order {
        Order::Bind(_) => ticket.leases = ticket.leases.saturating_add(1),
        Order::Unbind(_) => ticket.leases = ticket.leases.saturating_sub(1),
        Order::Delete { .. } => {
            let ended = before.saturating_sub(host.bindings());
            ticket.leases = ticket.leases.saturating_sub(ended.into());
        }
        Order::Create { .. } | Order::Change { .. } => {}
    }
    Ok(())
}

/// Takes the ticket back, at any place.
pub fn finish(running: Running, ticket: Ticket) -> Finished {
    Finished {
        place: running.place,
        leases: ticket.leases,
    }
}
