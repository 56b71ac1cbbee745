//! Script lines: an order in 32 bits.
//! From the highest bit: operation 3, first instance 8, second instance 8, port 5, type 4, state 3, and a zero bit.

use crate::order::{Binding, Order};

const CREATE: u32 = 1;
const BIND: u32 = 2;
const CHANGE: u32 = 3;
const UNBIND: u32 = 4;
const DELETE: u32 = 5;

/// A field of a line.
#[derive(Clone, Copy)]
struct Field {
    shift: u32,
    bits: u32,
}

impl Field {
    const fn mask(self) -> u32 {
        self.largest() << self.shift
    }

    const fn largest(self) -> u32 {
        (1 << self.bits) - 1
    }

    const fn of(self, line: u32) -> u32 {
        line >> self.shift & self.largest()
    }

    /// A number that fits the field, in its place.
    const fn hold(self, number: u32) -> u32 {
        number << self.shift
    }

    /// A number in its place, if it fits the field.
    fn fit(self, number: u32) -> Result<u32, NotALine> {
        if number <= self.largest() {
            Ok(self.hold(number))
        } else {
            Err(NotALine)
        }
    }
}

const OPERATION: Field = Field { shift: 29, bits: 3 };
const FIRST: Field = Field { shift: 21, bits: 8 };
const SECOND: Field = Field { shift: 13, bits: 8 };
const PORT: Field = Field { shift: 8, bits: 5 };
const KIND: Field = Field { shift: 4, bits: 4 };
const STATE: Field = Field { shift: 1, bits: 3 };

/// The bits that a line of each operation may have.
const CREATE_BITS: u32 = OPERATION.mask() | FIRST.mask() | KIND.mask();
const BINDING_BITS: u32 = OPERATION.mask() | FIRST.mask() | SECOND.mask() | PORT.mask();
const CHANGE_BITS: u32 = OPERATION.mask() | FIRST.mask() | STATE.mask();
const DELETE_BITS: u32 = OPERATION.mask() | FIRST.mask();

/// A line that tells no order, or an order that no line can tell.
#[derive(Clone, Copy, PartialEq, Eq, Debug)]
pub struct NotALine;

impl NotALine {
    pub const NUMBER: u32 = 43;
}

/// The order that a line tells.
#[inline(always)]
pub fn decode(line: u32) -> Result<Order, NotALine> {
    let within = |bits: u32| line & !bits == 0;
    let instance = FIRST.of(line);
    let binding = Binding {
        port: PORT.of(line),
        provider: instance,
        requirer: SECOND.of(line),
    };
    match OPERATION.of(line) {
        CREATE if within(CREATE_BITS) => Ok(Order::Create {
            instance,
            kind: KIND.of(line),
        }),
        BIND if within(BINDING_BITS) => Ok(Order::Bind(binding)),
        CHANGE if within(CHANGE_BITS) => Ok(Order::Change {
            instance,
            state: STATE.of(line),
        }),
        UNBIND if within(BINDING_BITS) => Ok(Order::Unbind(binding)),
        DELETE if within(DELETE_BITS) => Ok(Order::Delete { instance }),
        _ => Err(NotALine),
    }
}

/// The line that tells an order, if its numbers are not too large.
pub fn encode(order: Order) -> Result<u32, NotALine> {
    let fields = match order {
        Order::Create { instance, kind } => {
            OPERATION.hold(CREATE) | FIRST.fit(instance)? | KIND.fit(kind)?
        }
        Order::Bind(binding) => OPERATION.hold(BIND) | fit(binding)?,
        Order::Change { instance, state } => {
            OPERATION.hold(CHANGE) | FIRST.fit(instance)? | STATE.fit(state)?
        }
        Order::Unbind(binding) => OPERATION.hold(UNBIND) | fit(binding)?,
        Order::Delete { instance } => OPERATION.hold(DELETE) | FIRST.fit(instance)?,
    };
    Ok(fields)
}

fn fit(binding: Binding) -> Result<u32, NotALine> {
    Ok(FIRST.fit(binding.provider)? | SECOND.fit(binding.requirer)? | PORT.fit(binding.port)?)
}

/// The line of a create. Here and below, ports, types and states have to fit their fields.
pub fn create(instance: u8, kind: u8) -> u32 {
    OPERATION.hold(CREATE) | FIRST.hold(instance.into()) | KIND.hold(kind.into())
}

pub fn bind(port: u8, provider: u8, requirer: u8) -> u32 {
    OPERATION.hold(BIND) | between(port, provider, requirer)
}

pub fn change(instance: u8, state: u8) -> u32 {
    OPERATION.hold(CHANGE) | FIRST.hold(instance.into()) | STATE.hold(state.into())
}

pub fn unbind(port: u8, provider: u8, requirer: u8) -> u32 {
    OPERATION.hold(UNBIND) | between(port, provider, requirer)
}

pub fn delete(instance: u8) -> u32 {
    OPERATION.hold(DELETE) | FIRST.hold(instance.into())
}

fn between(port: u8, provider: u8, requirer: u8) -> u32 {
    FIRST.hold(provider.into()) | SECOND.hold(requirer.into()) | PORT.hold(port.into())
}
