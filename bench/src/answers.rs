//! The four calls, answered by the independent implementation.

use crate::calls::{Calls, Ended, Fault, Report, Settings, ENTRIES, STANDING};
use crate::check::{check, CheckRefusal, LineFault};
use crate::cloud::{Cloud, Limits};
use crate::host::Host;
use crate::plan::{plan, PlanRefusal};
use crate::run::{finish, start, step, StartRefusal, StepFault};
use crate::universe::{Pair, Universe, UniverseRefusal, MAX_TYPES};
use crate::verifying::Verifying;

pub struct Independent;

/// Any refusal of a call.
enum Refused {
    Universe(UniverseRefusal),
    Plan(PlanRefusal),
    Check(CheckRefusal),
    Start(StartRefusal),
}

impl Refused {
    fn number(self) -> u32 {
        match self {
            Self::Universe(refusal) => refusal.number(),
            Self::Plan(refusal) => refusal.number(),
            Self::Check(refusal) => refusal.number(),
            Self::Start(refusal) => refusal.number(),
        }
    }

    fn fault(&self) -> Fault {
        match *self {
            Self::Check(CheckRefusal::AtLine { place, fault }) => Fault {
                place: place as u64,
                offence: match fault {
                    LineFault::Illegal(offence) => offence.number().into(),
                    _ => 0,
                },
            },
            _ => Fault::default(),
        }
    }
}

impl From<UniverseRefusal> for Refused {
    fn from(refusal: UniverseRefusal) -> Self {
        Self::Universe(refusal)
    }
}

impl From<PlanRefusal> for Refused {
    fn from(refusal: PlanRefusal) -> Self {
        Self::Plan(refusal)
    }
}

impl From<CheckRefusal> for Refused {
    fn from(refusal: CheckRefusal) -> Self {
        Self::Check(refusal)
    }
}

impl From<StartRefusal> for Refused {
    fn from(refusal: StartRefusal) -> Self {
        Self::Start(refusal)
    }
}

impl Calls for Independent {
    fn read(file: &[u8], entries: &mut [u32]) -> u32 {
        match Universe::read(file) {
            Ok(universe) => {
                write_entries(&universe, entries);
                0
            }
            Err(refusal) => refusal.number(),
        }
    }

    fn plan(file: &[u8], goal: &[u8], list: &mut [u32], lines: &mut u64) -> u32 {
        match read_and_plan(file, goal, list) {
            Ok(written) => {
                *lines = written as u64;
                0
            }
            Err(refused) => refused.number(),
        }
    }

    fn check(file: &[u8], draft: &[u32], fault: &mut Fault) -> u32 {
        *fault = Fault::default();
        match read_and_check(file, draft) {
            Ok(()) => 0,
            Err(refused) => {
                *fault = refused.fault();
                refused.number()
            }
        }
    }

    fn run(file: &[u8], draft: &[u32], settings: &Settings, report: Report) -> u32 {
        *report.fault = Fault::default();
        *report.ended = Ended::default();
        match read_and_run(file, draft, settings, report.steps, report.standing) {
            Ok(ended) => {
                *report.ended = ended;
                0
            }
            Err(refused) => {
                *report.fault = refused.fault();
                refused.number()
            }
        }
    }
}

fn write_entries(universe: &Universe, entries: &mut [u32]) {
    let mut all = [0; ENTRIES];
    all[0] = universe.kinds().len() as u32;
    all[1] = universe.ports().into();
    for (number, kind) in (0u8..).zip(universe.kinds()) {
        all[2 + usize::from(number)] = kind.states().len() as u32;
        for (state, entry) in (0u8..).zip(kind.states()) {
            let pair = Pair {
                kind: number,
                state,
            };
            let place = 2 + MAX_TYPES + 3 * usize::from(pair.index());
            all[place] = entry.provided.bits();
            all[place + 1] = entry.required.bits();
            all[place + 2] = entry.successors.bits().into();
        }
    }
    let length = entries.len().min(ENTRIES);
    entries[..length].copy_from_slice(&all[..length]);
}

fn read_and_plan(file: &[u8], goal: &[u8], list: &mut [u32]) -> Result<usize, Refused> {
    let universe = Universe::read(file)?;
    Ok(plan(&universe, goal, list)?)
}

fn read_and_check(file: &[u8], draft: &[u32]) -> Result<(), Refused> {
    let universe = Universe::read(file)?;
    let host = Cloud::open(&universe, Limits::LARGEST);
    check(draft, &host)?;
    Ok(())
}

fn read_and_run(
    file: &[u8],
    draft: &[u32],
    settings: &Settings,
    steps: &mut [u32],
    standing: &mut [u32],
) -> Result<Ended, Refused> {
    let universe = Universe::read(file)?;
    let limits = Limits {
        instances: settings.instances,
        bindings: settings.bindings,
        delay: settings.delay,
    };
    let cloud = Cloud::open(&universe, limits);
    match settings.layers {
        0 => run_on(cloud, draft, steps, standing),
        1 => run_on(Verifying::over(cloud), draft, steps, standing),
        _ => {
            let layers = Verifying::over(Verifying::over(cloud));
            run_on(layers, draft, steps, standing)
        }
    }
}

fn run_on(
    mut host: impl Host,
    draft: &[u32],
    steps: &mut [u32],
    standing: &mut [u32],
) -> Result<Ended, Refused> {
    let plan = check(draft, &host)?;
    let (mut running, mut ticket) = start(plan, &host)?;
    for answer in steps {
        *answer = step(&mut running, &mut ticket, &mut host).map_or_else(step_number, |()| 0);
    }
    let finished = finish(running, ticket);
    for (number, place) in (0..STANDING as u32).zip(standing) {
        *place = host
            .instance(number)
            .map_or(0, |pair| 1 + u32::from(pair.index()));
    }
    Ok(Ended {
        place: finished.place as u64,
        leases: finished.leases,
        instances: host.instances().into(),
        bindings: host.bindings().into(),
        waits: host.waits().into(),
        creations: host.creation_allowance().into(),
        binds: host.binding_allowance().into(),
    })
}

fn step_number(fault: StepFault) -> u32 {
    match fault {
        StepFault::NoLine => fault.number(),
        StepFault::Refused { refusal, .. } => 256 * u32::from(refusal.height) + fault.number(),
    }
}
