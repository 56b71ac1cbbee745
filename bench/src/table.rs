//! The table of what stands: instances by number, and bindings by their requirer.

use crate::host::Survey;
use crate::order::{Binding, Order};
use crate::sets::{Numbers, Ports};
use crate::universe::{Pair, Universe};

pub const MAX_INSTANCES: u32 = 256;
pub const MAX_BINDINGS: u32 = 2048;

pub struct Table<'u> {
    universe: &'u Universe,
    /// By instance number, as far as instances have been created.
    slots: Vec<Slot>,
    instances: u32,
    bindings: u32,
}

/// What stands under one number.
#[derive(Clone, Default)]
struct Slot {
    pair: Option<Pair>,
    /// What is bound to it as the requirer, ascending by provider.
    links: Vec<Link>,
    /// The instances to which it is bound as the provider.
    requirers: Numbers,
}

/// The bindings of a requirer with one provider.
#[derive(Clone, Copy)]
struct Link {
    provider: u8,
    ports: Ports,
}

impl Slot {
    /// The place of the link with a provider, or where it would be.
    fn link(&self, provider: u32) -> Result<usize, usize> {
        self.links
            .binary_search_by_key(&provider, |link| link.provider.into())
    }
}

impl<'u> Table<'u> {
    /// A table in which nothing stands.
    pub fn new(universe: &'u Universe) -> Self {
        Self {
            universe,
            slots: Vec::new(),
            instances: 0,
            bindings: 0,
        }
    }

    /// The instances to which one is bound as the provider.
    pub fn requirers(&self, provider: u32) -> impl Iterator<Item = u32> {
        let requirers = self.slot(provider).map(|slot| slot.requirers);
        requirers.unwrap_or_default().iter().map(u32::from)
    }

    /// Takes a legal order.
    #[inline(always)]
    pub fn apply(&mut self, order: Order) {
        match order {
            Order::Create { instance, kind } => self.create(instance as usize, kind as u8),
            Order::Bind(binding) => self.bind(binding),
            Order::Change { instance, state } => {
                if let Some(pair) = &mut self.slots[instance as usize].pair {
                    pair.state = state as u8;
                }
            }
            Order::Unbind(binding) => self.unbind(binding),
            Order::Delete { instance } => self.delete(instance as u8),
        }
    }

    fn create(&mut self, instance: usize, kind: u8) {
        if instance >= self.slots.len() {
            self.slots.resize_with(instance + 1, Slot::default);
        }
        self.slots[instance].pair = Some(Pair { kind, state: 0 });
        self.instances += 1;
    }

    fn bind(&mut self, binding: Binding) {
        let port = Ports::one(binding.port as u8);
        let requirer = &mut self.slots[binding.requirer as usize];
        match requirer.link(binding.provider) {
            Ok(place) => requirer.links[place].ports |= port,
            Err(place) => {
                let link = Link {
                    provider: binding.provider as u8,
                    ports: port,
                };
                requirer.links.insert(place, link);
                let provider = &mut self.slots[binding.provider as usize];
                provider.requirers.insert(binding.requirer as u8);
            }
        }
        self.bindings += 1;
    }

    fn unbind(&mut self, binding: Binding) {
        let requirer = &mut self.slots[binding.requirer as usize];
        let Ok(place) = requirer.link(binding.provider) else {
            return;
        };
        let ports = &mut requirer.links[place].ports;
        ports.remove(binding.port as u8);
        if ports.is_empty() {
            requirer.links.remove(place);
            let provider = &mut self.slots[binding.provider as usize];
            provider.requirers.remove(binding.requirer as u8);
        }
        self.bindings -= 1;
    }

    fn delete(&mut self, instance: u8) {
        let slot = &mut self.slots[usize::from(instance)];
        slot.pair = None;
        self.instances -= 1;
        // The links are put back empty, so that their memory is kept for the next instance of this number.
        let mut links = std::mem::take(&mut slot.links);
        for link in links.drain(..) {
            self.bindings -= link.ports.len();
            self.slots[usize::from(link.provider)]
                .requirers
                .remove(instance);
        }
        self.slots[usize::from(instance)].links = links;
    }

    fn slot(&self, number: u32) -> Option<&Slot> {
        self.slots.get(number as usize)
    }
}

impl Survey for Table<'_> {
    fn universe(&self) -> &Universe {
        self.universe
    }

    fn instance(&self, number: u32) -> Option<Pair> {
        self.slot(number)?.pair
    }

    fn binding(&self, binding: Binding) -> bool {
        self.slot(binding.requirer).is_some_and(|requirer| {
            requirer
                .link(binding.provider)
                .is_ok_and(|place| requirer.links[place].ports.contains(binding.port as u8))
        })
    }

    fn instances(&self) -> u32 {
        self.instances
    }

    fn bindings(&self) -> u32 {
        self.bindings
    }

    fn suppliers(&self, requirer: u32) -> impl Iterator<Item = (u32, Ports)> {
        let links: &[Link] = self.slot(requirer).map_or(&[], |slot| &slot.links);
        links.iter().map(|link| (link.provider.into(), link.ports))
    }

    fn is_provider(&self, number: u32) -> bool {
        self.slot(number)
            .is_some_and(|slot| !slot.requirers.is_empty())
    }
}
