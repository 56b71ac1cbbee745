//! Orders. Their numbers may be out of range; the rules refuse such orders.

#[derive(Clone, Copy, PartialEq, Eq, Debug)]
pub struct Binding {
    pub port: u32,
    pub provider: u32,
    pub requirer: u32,
}

#[derive(Clone, Copy, PartialEq, Eq, Debug)]
pub enum Order {
    Create { instance: u32, kind: u32 },
    Bind(Binding),
    Change { instance: u32, state: u32 },
    Unbind(Binding),
    Delete { instance: u32 },
}
