//! The comparison: random cases, answered by both sides.

use std::collections::BTreeMap;

use sengoruwa_bench::answers::Independent;
use sengoruwa_bench::calls::{Calls, Ended, Fault, Report, Settings, ENTRIES, STANDING};
use sengoruwa_bench::check::MAX_LINES;
use sengoruwa_bench::closing::Closing;
use sengoruwa_bench::plan::plan;
use sengoruwa_bench::random::{self, Random};
use sengoruwa_bench::universe::Universe;

use crate::library::Library;

/// Places that every script fits in.
const ROOM: usize = 11_136;

/// The most steps of a random run, so that long drafts with long delays take no hours.
const MOST_STEPS: usize = 70_000;

/// A call with what goes in. `noise` is what the places hold that the call may write to.
struct Call {
    file: Vec<u8>,
    noise: u32,
    what: What,
}

enum What {
    Read {
        room: usize,
    },
    Plan {
        goal: Vec<u8>,
        room: usize,
    },
    Check {
        draft: Vec<u32>,
    },
    Run {
        draft: Vec<u32>,
        settings: Settings,
        steps: usize,
        standing: usize,
    },
}

/// What came of a call, with all places that it may write to.
#[derive(PartialEq, Debug)]
enum Answer {
    Read {
        refusal: u32,
        entries: Vec<u32>,
    },
    Plan {
        refusal: u32,
        lines: u64,
        list: Vec<u32>,
    },
    Check {
        refusal: u32,
        fault: Fault,
    },
    Run {
        refusal: u32,
        fault: Fault,
        ended: Ended,
        steps: Vec<u32>,
        standing: Vec<u32>,
    },
}

impl Call {
    fn answer<Side: Calls>(&self) -> Answer {
        let file = &self.file;
        let mut fault = Fault {
            place: self.noise.into(),
            offence: self.noise.into(),
        };
        match &self.what {
            What::Read { room } => {
                let mut entries = self.noisy(*room);
                let refusal = Side::read(file, &mut entries);
                Answer::Read { refusal, entries }
            }
            What::Plan { goal, room } => {
                let mut list = self.noisy(*room);
                let mut lines = self.noise.into();
                let refusal = Side::plan(file, goal, &mut list, &mut lines);
                Answer::Plan {
                    refusal,
                    lines,
                    list,
                }
            }
            What::Check { draft } => {
                let refusal = Side::check(file, draft, &mut fault);
                Answer::Check { refusal, fault }
            }
            What::Run {
                draft,
                settings,
                steps,
                standing,
            } => {
                let mut steps = self.noisy(*steps);
                let mut standing = self.noisy(*standing);
                let noise = self.noise.into();
                let mut ended = Ended {
                    place: noise,
                    leases: noise,
                    instances: noise,
                    bindings: noise,
                    waits: noise,
                    creations: noise,
                    binds: noise,
                };
                let report = Report {
                    steps: &mut steps,
                    standing: &mut standing,
                    fault: &mut fault,
                    ended: &mut ended,
                };
                let refusal = Side::run(file, draft, settings, report);
                Answer::Run {
                    refusal,
                    fault,
                    ended,
                    steps,
                    standing,
                }
            }
        }
    }

    fn noisy(&self, length: usize) -> Vec<u32> {
        (0..length as u32)
            .map(|place| self.noise.wrapping_add(place.wrapping_mul(0x9e37_79b9)))
            .collect()
    }

    fn print(&self) {
        println!("  file {}", hex(&self.file));
        match &self.what {
            What::Read { room } => println!("  read into {room} places"),
            What::Plan { goal, room } => println!("  plan {} into {room} places", hex(goal)),
            What::Check { draft } => println!("  check {}", hex_lines(draft)),
            What::Run {
                draft,
                settings,
                steps,
                standing,
            } => {
                println!("  run {}", hex_lines(draft));
                println!("  {settings:?}, {steps} steps, {standing} places for what stands");
            }
        }
        println!("  places held {:08x} and so on", self.noise);
    }
}

impl Answer {
    fn print(&self, side: &str) {
        match self {
            Self::Read { refusal, entries } => {
                println!("  {side}: {refusal}, entries {}", hex_lines(entries));
            }
            Self::Plan {
                refusal,
                lines,
                list,
            } => println!(
                "  {side}: {refusal}, {lines} lines, list {}",
                hex_lines(list)
            ),
            Self::Check { refusal, fault } => println!("  {side}: {refusal}, {fault:?}"),
            Self::Run {
                refusal,
                fault,
                ended,
                steps,
                standing,
            } => {
                println!("  {side}: {refusal}, {fault:?}, {ended:?}");
                println!("    steps {}", hex_lines(steps));
                println!("    standing {}", hex_lines(standing));
            }
        }
    }
}

fn hex(bytes: &[u8]) -> String {
    bytes.iter().map(|byte| format!("{byte:02x}")).collect()
}

fn hex_lines(lines: &[u32]) -> String {
    let words: Vec<String> = lines.iter().map(|line| format!("{line:08x}")).collect();
    words.join(" ")
}

/// The calls of one case: a universe, two goals, some drafts and runs.
fn case(random: &mut Random) -> Vec<Call> {
    let crowded = random.once_in(60);
    let sketch = if crowded {
        random::hub_sketch(random)
    } else {
        random::sketch(random)
    };
    let sound = sketch.file();
    let file = if !crowded && random.once_in(4) {
        random::damaged(random, &sketch)
    } else {
        sound.clone()
    };
    // Where a damaged file has no universe, goals and drafts are made for the sound one.
    let universe = Universe::read(&file).or_else(|_| Universe::read(&sound));
    let universe = universe.expect("sketches keep the rules");
    let closing = Closing::of(&universe);

    let mut what = vec![What::Read {
        room: if random.once_in(2) {
            ENTRIES
        } else {
            random.below(ENTRIES + 10)
        },
    }];
    let mut script = Vec::new();
    for _ in 0..2 {
        let goal = random::goal(random, &universe, &closing);
        let mut list = vec![0; ROOM];
        if let Ok(lines) = plan(&universe, &goal, &mut list) {
            list.truncate(lines);
            script = list;
        }
        let room = match random.below(8) {
            0 => random.below(20),
            1 => ROOM,
            2 => script.len(),
            _ => (script.len() + random.below(7)).saturating_sub(3),
        };
        what.push(What::Plan { goal, room });
    }
    for _ in 0..3 {
        let draft = if crowded {
            let one_too_many = random.once_in(2);
            random::crowded_draft(random, &universe, one_too_many)
        } else if random.once_in(1500) {
            random::long_draft(random, &universe)
        } else {
            random::draft(random, &universe, &script)
        };
        what.push(What::Check { draft });
    }
    for _ in 0..2 {
        let draft = match random.below(8) {
            0 => random::draft(random, &universe, &script),
            1 if crowded => random::crowded_draft(random, &universe, false),
            _ if random.once_in(1500) => random::long_draft(random, &universe),
            _ => random::valid_draft(random, &universe, &script),
        };
        what.push(random_run(random, draft));
    }
    what.into_iter()
        .map(|what| Call {
            file: file.clone(),
            noise: random.word(),
            what,
        })
        .collect()
}

fn random_run(random: &mut Random, draft: Vec<u32>) -> What {
    let limit = |random: &mut Random, largest: u32| match random.below(8) {
        0 => random.pick(&[0, largest - 1, largest + 1, u32::MAX]),
        1..=3 => random.below(16) as u32,
        4 => random.below(1000) as u32,
        _ => largest,
    };
    let settings = Settings {
        instances: limit(random, 256),
        bindings: limit(random, 2048),
        delay: match random.below(16) {
            0 => u32::MAX,
            1..=7 => 0,
            _ => random.below(11) as u32,
        },
        layers: random.pick(&[0, 1, 1, 2, 2, 3, u32::MAX]),
    };
    let all = draft.len() * (settings.delay.min(8) as usize + 1);
    let steps = match random.below(6) {
        0 => random.below(all + 1),
        1 => all,
        _ => (all + random.below(9)).saturating_sub(4),
    };
    let standing = if random.once_in(2) {
        STANDING
    } else {
        random.below(STANDING + 10)
    };
    What::Run {
        draft,
        settings,
        steps: steps.min(MOST_STEPS),
        standing,
    }
}

/// How often each number was answered.
#[derive(Default)]
struct Tally {
    read: BTreeMap<u32, u64>,
    plan: BTreeMap<u32, u64>,
    check: BTreeMap<u32, u64>,
    offences: BTreeMap<u32, u64>,
    /// Drafts of more lines than the check takes, and of just as many.
    too_long: u64,
    longest: u64,
    run: BTreeMap<u32, u64>,
    steps: BTreeMap<u32, u64>,
    /// Runs that came to the end of their lines, and runs that some step was refused as full in.
    ended: u64,
    full: u64,
}

impl Tally {
    fn count(&mut self, call: &Call, answer: &Answer) {
        match answer {
            Answer::Read { refusal, .. } => add(&mut self.read, *refusal),
            Answer::Plan { refusal, .. } => add(&mut self.plan, *refusal),
            Answer::Check { refusal, fault } => {
                add(&mut self.check, *refusal);
                if *refusal == 44 {
                    add(&mut self.offences, fault.offence as u32);
                }
                if let What::Check { draft } = &call.what {
                    self.too_long += u64::from(draft.len() > MAX_LINES);
                    self.longest += u64::from(draft.len() == MAX_LINES);
                }
            }
            Answer::Run {
                refusal,
                ended,
                steps,
                ..
            } => {
                add(&mut self.run, *refusal);
                if *refusal == 0 {
                    for step in steps {
                        add(&mut self.steps, *step);
                    }
                    self.full += u64::from(steps.contains(&31));
                    if let What::Run { draft, .. } = &call.what {
                        self.ended += u64::from(ended.place == draft.len() as u64);
                    }
                }
            }
        }
    }

    fn print(&self) {
        println!("How often each number was answered (0: done):");
        for (name, numbers) in [
            ("read", &self.read),
            ("plan", &self.plan),
            ("check", &self.check),
            ("  44 with", &self.offences),
            ("run", &self.run),
            ("  steps", &self.steps),
        ] {
            let told: Vec<String> = numbers
                .iter()
                .map(|(number, times)| format!("{number}: {times}"))
                .collect();
            println!("{name:<10} {}", told.join(", "));
        }
        println!(
            "drafts of more than {MAX_LINES} lines: {}, of {MAX_LINES} lines: {}",
            self.too_long, self.longest
        );
        println!(
            "runs that came to their end: {}, runs on a host that was full: {}",
            self.ended, self.full
        );
    }
}

fn add(numbers: &mut BTreeMap<u32, u64>, number: u32) {
    *numbers.entry(number).or_default() += 1;
}

/// Compares the sides on random cases and answers how many they disagree on.
pub fn compare(cases: u64, seed: u64) -> u64 {
    println!("Comparing on {cases} random cases, seed {seed}");
    let mut random = Random::of_seed(seed);
    let mut tally = Tally::default();
    let mut disagreements = 0;
    for number in 0..cases {
        let mut agreed = true;
        for call in case(&mut random) {
            let rust = call.answer::<Independent>();
            let library = call.answer::<Library>();
            tally.count(&call, &rust);
            if agreed && library != rust {
                agreed = false;
                disagreements += 1;
                if disagreements == 1 {
                    println!("The first disagreement, in case {number}:");
                    call.print();
                    library.print("library");
                    rust.print("Rust");
                }
            }
        }
    }
    tally.print();
    println!("{cases} cases, {disagreements} disagreements");
    disagreements
}
