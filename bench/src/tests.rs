//! Tests of the independent implementation by itself, on cases that were worked out by hand.

use crate::answers::Independent;
use crate::calls::{Calls, Ended, Fault, Report, Settings};
use crate::check::{check, CheckRefusal, LineFault};
use crate::cloud::{Cloud, Limits};
use crate::gaps::any_gap;
use crate::host::{Host, Reason, Refusal, Survey};
use crate::line::{self, decode, encode, NotALine};
use crate::order::{Binding, Order};
use crate::rules::Offence;
use crate::sets::{Ports, States};
use crate::sketch::{chain, Sketch};
use crate::universe::{Pair, Universe, UniverseRefusal};
use crate::verifying::Verifying;

/// Orders in their written form, with blanks between them: `c z t`, `b p z1 z2`, `s z q`, `u p z1 z2`, `d z`.
fn orders(text: &str) -> Vec<Order> {
    text.split(", ").map(order).collect()
}

fn order(text: &str) -> Order {
    let (letter, numbers) = text.split_at(1);
    let numbers: Vec<u32> = numbers
        .split_whitespace()
        .map(|number| number.parse().unwrap())
        .collect();
    match (letter, numbers[..].as_ref()) {
        ("c", &[instance, kind]) => Order::Create { instance, kind },
        ("s", &[instance, state]) => Order::Change { instance, state },
        ("d", &[instance]) => Order::Delete { instance },
        ("b", &[port, provider, requirer]) => Order::Bind(Binding {
            port,
            provider,
            requirer,
        }),
        ("u", &[port, provider, requirer]) => Order::Unbind(Binding {
            port,
            provider,
            requirer,
        }),
        _ => panic!("no order: {text}"),
    }
}

fn lines(text: &str) -> Vec<u32> {
    orders(text)
        .into_iter()
        .map(|order| encode(order).unwrap())
        .collect()
}

const SCRIPT: &str =
    "c 0 0, s 0 1, c 1 1, b 0 0 1, s 1 1, c 2 2, b 0 0 2, s 2 1, b 1 1 2, s 2 2, u 0 0 2";

fn plan(file: &[u8], goal: &[u8], room: usize) -> Result<Vec<u32>, u32> {
    let mut list = vec![7; room];
    let mut lines = 99;
    match Independent::plan(file, goal, &mut list, &mut lines) {
        0 => {
            assert!(list[lines as usize..].iter().all(|place| *place == 7));
            list.truncate(lines as usize);
            Ok(list)
        }
        refusal => {
            assert_eq!(lines, 99);
            assert!(list.iter().all(|place| *place == 7));
            Err(refusal)
        }
    }
}

/// A universe of one type whose state 1 follows state 0, and provides and requires the same port.
fn closed_circle() -> Vec<u8> {
    let port = Ports::one(0);
    Sketch {
        ports: 1,
        kinds: vec![chain(&[(Ports::EMPTY, Ports::EMPTY), (port, port)])],
    }
    .file()
}

struct Ran {
    steps: Vec<u32>,
    standing: Vec<u32>,
    ended: Ended,
}

fn run(file: &[u8], draft: &[u32], settings: Settings, steps: usize) -> Ran {
    let mut ran = Ran {
        steps: vec![0; steps],
        standing: vec![0; 4],
        ended: Ended::default(),
    };
    let mut fault = Fault::default();
    let report = Report {
        steps: &mut ran.steps,
        standing: &mut ran.standing,
        fault: &mut fault,
        ended: &mut ran.ended,
    };
    assert_eq!(Independent::run(file, draft, &settings, report), 0);
    ran
}

const LARGEST: Settings = Settings {
    instances: 256,
    bindings: 2048,
    delay: 0,
    layers: 0,
};

#[test]
fn harbour_file() {
    let file = Sketch::harbour().file();
    assert_eq!(file.len(), 68);
    assert_eq!(file[..3], [0x18, 0x40, 0x20]);
    let universe = Universe::read(&file).unwrap();
    assert_eq!((universe.kinds().len(), universe.ports()), (3, 2));
    let state = universe.state(Pair { kind: 1, state: 1 });
    assert_eq!(state.provided, Ports::one(1));
    assert_eq!(state.required, Ports::one(0));
    let state = universe.state(Pair { kind: 2, state: 1 });
    assert_eq!(state.successors, States::one(2));
}

#[test]
fn damaged_files() {
    let file = Sketch::harbour().file();
    let refusal = |file: &[u8]| Universe::read(file).unwrap_err().number();
    let with = |place: usize, byte: u8| {
        let mut file = file.clone();
        file[place] = byte;
        refusal(&file)
    };
    assert_eq!(refusal(&file[..67]), 1);
    assert_eq!(refusal(&[&file[..], &[0]].concat()), 1);
    assert_eq!(refusal(&[]), 1);
    assert_eq!(refusal(&[0x88]), 1);
    assert_eq!(refusal(&[0x88, 0x40]), 2);
    assert_eq!(refusal(&[0x1c, 0x20]), 2);
    assert_eq!(with(0, 0x00), 2);
    assert_eq!(with(1, 0x41), 3);
    assert_eq!(with(2, 0x00), 2);
    assert_eq!(with(2, 0x90), 2);
    assert_eq!(with(2, 0x9f), 2);
    assert_eq!(with(2, 0x28), 3);
    assert_eq!(with(3, 0x20), 4);
    assert_eq!(with(7, 0x20), 4);
    assert_eq!(with(7, 0x80), 6);
    assert_eq!(with(11, 0x80), 5);
    assert_eq!(with(11, 0x20), 5);
    assert_eq!(
        Universe::read(&[0x18]).unwrap_err(),
        UniverseRefusal::Length
    );
}

#[test]
fn entries_as_far_as_there_are_places() {
    let file = Sketch::harbour().file();
    let mut entries = [9; 405];
    assert_eq!(Independent::read(&file, &mut entries), 0);
    assert_eq!(entries[..6], [3, 2, 2, 2, 3, 0]);
    assert_eq!(entries[18..24], [0, 0, 0x40, 0x8000_0000, 0, 0]);
    assert_eq!(entries[45..48], [0x4000_0000, 0x8000_0000, 0]);
    assert_eq!(
        entries[66..75],
        [0, 0, 0x40, 0, 0x8000_0000, 0x20, 0, 0x4000_0000, 0][..]
    );
    assert_eq!(entries[401..], [0, 9, 9, 9]);
    let mut entries = [9; 2];
    assert_eq!(Independent::read(&file, &mut entries[..1]), 0);
    assert_eq!(entries, [3, 9]);
    assert_eq!(Independent::read(&file[..67], &mut entries), 1);
    assert_eq!(entries, [3, 9]);
}

#[test]
fn script_lines() {
    assert_eq!(encode(order("c 1 1")), Ok(0x2020_0010));
    assert_eq!(encode(order("b 1 1 2")), Ok(0x4020_4100));
    assert_eq!(encode(order("u 0 0 2")), Ok(0x8000_4000));
    assert_eq!(decode(0x2020_0011), Err(NotALine));
    assert_eq!(decode(0), Err(NotALine));
    for text in [
        "c 256 0",
        "c 0 16",
        "b 32 0 1",
        "b 0 256 1",
        "b 0 0 256",
        "s 0 8",
        "d 256",
    ] {
        assert_eq!(encode(order(text)), Err(NotALine), "{text}");
    }
    for order in orders("c 255 15, b 31 255 254, s 7 7, u 30 1 0, d 255") {
        assert_eq!(decode(encode(order).unwrap()), Ok(order));
    }
    assert_eq!(decode(line::create(4, 5)), Ok(order("c 4 5")));
    assert_eq!(decode(line::bind(1, 2, 3)), Ok(order("b 1 2 3")));
    assert_eq!(decode(line::change(4, 5)), Ok(order("s 4 5")));
    assert_eq!(decode(line::unbind(1, 2, 3)), Ok(order("u 1 2 3")));
    assert_eq!(decode(line::delete(4)), Ok(order("d 4")));
}

/// A bit that an operation has no use for is refused, and no other.
#[test]
fn unused_bits() {
    let used = [
        (1, 0x1fe0_00f0),
        (2, 0x1fff_ff00),
        (3, 0x1fe0_000e),
        (4, 0x1fff_ff00),
        (5, 0x1fe0_0000),
    ];
    for operation in 0..8u32 {
        let bits = used.iter().find(|(number, _)| *number == operation);
        for bit in 0..29 {
            let is_order = bits.is_some_and(|(_, bits)| bits >> bit & 1 == 1);
            assert_eq!(decode(operation << 29 | 1 << bit).is_ok(), is_order);
        }
    }
}

#[test]
fn planning() {
    let harbour = Sketch::harbour().file();
    assert_eq!(plan(&harbour, &[0x24], 20), Ok(lines(SCRIPT)));
    assert_eq!(plan(&harbour, &[0x24], 11), Ok(lines(SCRIPT)));
    assert_eq!(plan(&harbour, &[0x24], 10), Err(15));
    assert_eq!(plan(&harbour, &[0x24, 0x24], 11), Ok(lines(SCRIPT)));
    for byte in [0x25, 0x26, 0x34] {
        assert_eq!(plan(&harbour, &[byte], 11), Err(12));
    }
    assert_eq!(plan(&harbour, &[], 11), Err(11));
    assert_eq!(plan(&harbour, &[0x24; 17], 11), Err(11));
    assert_eq!(plan(&harbour, &[0x24; 16], 11), Ok(lines(SCRIPT)));
    assert_eq!(plan(&harbour[..67], &[], 11), Err(1));
    assert_eq!(plan(&closed_circle(), &[0x02], 11), Err(14));
    assert_eq!(plan(&closed_circle(), &[0x02, 0x10], 11), Err(12));
    assert_eq!(plan(&closed_circle(), &[0x00], 11), Ok(lines("c 0 0")));
}

#[test]
fn checks() {
    let harbour = Sketch::harbour().file();
    let answer = |draft: &[u32]| {
        let mut fault = Fault {
            place: 5,
            offence: 5,
        };
        let refusal = Independent::check(&harbour, draft, &mut fault);
        (refusal, fault.place, fault.offence)
    };
    let told = |text: &str| answer(&lines(text));
    assert_eq!(told(SCRIPT), (0, 0, 0));
    assert_eq!(told("c 0 0, c 1 1, b 0 0 1, s 1 1"), (45, 3, 0));
    assert_eq!(answer(&[]), (41, 0, 0));
    assert_eq!(answer(&[0; 32_769]), (41, 0, 0));
    assert_eq!(answer(&[0; 32_768]), (43, 0, 0));
    assert_eq!(told("c 0 3"), (44, 0, 22));
    assert_eq!(told("c 0 0, b 2 0 0"), (44, 1, 22));
    assert_eq!(told("c 0 0, c 0 1"), (44, 1, 23));
    assert_eq!(told("s 0 7"), (44, 0, 24));
    assert_eq!(told("c 0 0, b 0 0 1"), (44, 1, 24));
    assert_eq!(told("c 1 1, b 0 0 1"), (44, 1, 24));
    assert_eq!(told("d 3"), (44, 0, 24));
    assert_eq!(told("c 0 0, b 0 0 0"), (44, 1, 25));
    assert_eq!(told("c 0 0, c 1 1, b 0 1 0"), (44, 2, 25));
    assert_eq!(told("c 0 0, c 1 1, b 0 0 1, b 0 0 1"), (44, 3, 26));
    assert_eq!(told("c 0 0, c 1 1, u 0 0 1"), (44, 2, 27));
    assert_eq!(told("c 0 0, s 0 7"), (44, 1, 28));
    assert_eq!(told("c 0 0, c 1 1, b 0 0 1, d 0"), (44, 3, 29));
    // A provider that stops providing, and an end of a binding that covers a port.
    let bound = "c 0 0, s 0 1, c 1 1, b 0 0 1, s 1 1";
    assert_eq!(told(&format!("{bound}, u 0 0 1")), (45, 5, 0));
    assert_eq!(
        told(&format!("{bound}, c 3 0, s 3 1, b 0 3 1, u 0 0 1")),
        (0, 0, 0)
    );
    assert_eq!(
        told(&format!("{bound}, c 3 0, b 0 3 1, u 0 0 1")),
        (45, 7, 0)
    );
    assert_eq!(told(&format!("{bound}, d 1, d 0")), (0, 0, 0));
}

/// 8 providers and 9 requirers of all ports: the 2,049th binding is one too many.
#[test]
fn too_many_bindings() {
    let all = Ports::below(32);
    let file = Sketch {
        ports: 32,
        kinds: vec![
            chain(&[(all, Ports::EMPTY)]),
            chain(&[(Ports::EMPTY, Ports::EMPTY), (Ports::EMPTY, all)]),
        ],
    }
    .file();
    let creates = (0..8)
        .map(|provider| line::create(provider, 0))
        .chain((8..17).map(|requirer| line::create(requirer, 1)));
    let binds = (8..17).flat_map(|requirer| {
        (0..8)
            .flat_map(move |provider| (0..32).map(move |port| line::bind(port, provider, requirer)))
    });
    let draft: Vec<u32> = creates.chain(binds).collect();
    let mut fault = Fault::default();
    assert_eq!(
        Independent::check(&file, &draft[..17 + 2048], &mut fault),
        0
    );
    assert_eq!(Independent::check(&file, &draft, &mut fault), 46);
    assert_eq!(fault.place, 17 + 2048);
}

#[test]
fn runs() {
    let harbour = Sketch::harbour().file();
    let draft = lines(SCRIPT);
    for layers in 0..4 {
        let settings = Settings {
            delay: 2,
            layers,
            ..LARGEST
        };
        let ran = run(&harbour, &draft, settings, 34);
        for (number, answer) in ran.steps[..33].iter().enumerate() {
            assert_eq!(*answer, if number % 3 == 2 { 0 } else { 21 });
        }
        assert_eq!(ran.steps[33], 52);
        assert_eq!(ran.standing, [2, 10, 19, 0]);
        let ended = Ended {
            place: 11,
            leases: 2,
            instances: 3,
            bindings: 2,
            waits: 2,
            creations: 253,
            binds: 2046,
        };
        assert_eq!(ran.ended, ended);
    }
    let settings = Settings {
        instances: 2,
        ..LARGEST
    };
    let ran = run(&harbour, &draft, settings, 8);
    assert_eq!(ran.steps, [0, 0, 0, 0, 0, 31, 31, 31]);
    assert_eq!((ran.ended.place, ran.ended.creations), (5, 0));
}

#[test]
fn what_starts_full_is_refused() {
    let file = Sketch::harbour().file();
    let universe = Universe::read(&file).unwrap();
    let draft = lines(SCRIPT);
    let limits = Limits {
        delay: 0,
        ..Limits::LARGEST
    };
    let mut host = Cloud::open(&universe, limits);
    let plan = check(&draft, &host).unwrap();
    host.order(order("c 0 0")).unwrap();
    assert_eq!(check(&draft, &host).unwrap_err(), CheckRefusal::NotEmpty);
    assert_eq!(crate::run::start(plan, &host).unwrap_err().number(), 51);
    let refusal = check(&[0], &Cloud::open(&universe, limits)).unwrap_err();
    let fault = LineFault::NotALine;
    assert_eq!(refusal, CheckRefusal::AtLine { place: 0, fault });
}

/// The outermost of two layers refuses a gap; the cloud answers all else.
#[test]
fn layers() {
    let file = Sketch::harbour().file();
    let universe = Universe::read(&file).unwrap();
    let limits = Limits {
        delay: 1,
        ..Limits::LARGEST
    };
    let mut host = Verifying::over(Verifying::over(Cloud::open(&universe, limits)));
    let mut give = |order: Order| {
        let busy = Refusal {
            reason: Reason::Busy,
            height: 0,
        };
        while host.waits() > 0 {
            assert_eq!(host.order(order), Err(busy));
        }
        let answer = host.order(order);
        assert!(!any_gap(&host));
        answer
    };
    let refused = |reason, height| Err(Refusal { reason, height });
    for order in orders("c 0 0, c 1 1, b 0 0 1") {
        assert_eq!(give(order), Ok(()));
    }
    assert_eq!(give(order("s 1 1")), refused(Reason::Gap, 2));
    assert_eq!(give(order("s 0 1")), Ok(()));
    assert_eq!(give(order("s 1 1")), Ok(()));
    assert_eq!(give(order("u 0 0 1")), refused(Reason::Gap, 2));
    for (text, offence) in [
        ("u 1 0 1", Offence::Unbound),
        ("u 0 0 256", Offence::OutOfRange),
        ("s 1 0", Offence::NoSuccessor),
        ("d 0", Offence::Provider),
        ("c 4294967295 0", Offence::OutOfRange),
    ] {
        assert_eq!(
            give(order(text)),
            refused(Reason::Illegal(offence), 0),
            "{text}"
        );
    }
    assert_eq!(give(order("d 1")), Ok(()));
    assert_eq!((host.instances(), host.bindings()), (1, 0));
    assert_eq!(
        (host.height(), host.watchful(), host.longest_wait()),
        (2, true, 1)
    );
}

/// The questions that a survey can answer by others are answered the same by the cloud.
#[test]
fn derived_questions() {
    struct Plain<S>(S);
    impl<S: Survey> Survey for Plain<S> {
        fn universe(&self) -> &Universe {
            self.0.universe()
        }
        fn instance(&self, number: u32) -> Option<Pair> {
            self.0.instance(number)
        }
        fn binding(&self, binding: Binding) -> bool {
            self.0.binding(binding)
        }
        fn instances(&self) -> u32 {
            self.0.instances()
        }
        fn bindings(&self) -> u32 {
            self.0.bindings()
        }
    }
    let file = Sketch::harbour().file();
    let universe = Universe::read(&file).unwrap();
    let limits = Limits {
        delay: 0,
        ..Limits::LARGEST
    };
    let mut host = Plain(Cloud::open(&universe, limits));
    for order in orders(SCRIPT) {
        host.0.order(order).unwrap();
        for number in 0..4 {
            assert!(host.suppliers(number).eq(host.0.suppliers(number)));
            assert_eq!(host.is_provider(number), host.0.is_provider(number));
        }
    }
}
