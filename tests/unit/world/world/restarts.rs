//! Routers that start again. After every step the neighbour told of what is no longer awaited of it, and of what is held and was
//! never awaited; in the end all are Full, and above a floor nothing collides.

use super::collisions::collide;
use super::super::given::NO_FLOOR;
use super::super::worlds::{routers_of, start, three_on_a_network, two_on_a_link};
use ospf_base::{ALL_D_ROUTERS, ALL_SPF_ROUTERS, Addr, Instance, RouterId};
use ospf_neighbour::NeighbourState;
use ospf_world::{World, WorldEvent};
use std::alloc::Global;
use std::test::Fail;

// A world, each step of which is looked at.
#[derive(Drop)]
struct Watched {
    world: World,
    routers: Vec<RouterId>,
    // How many datagrams the rounds have passed on.
    passed: usize,
    // Every instance that was ever installed, issued or acknowledged.
    instances: Vec<Instance>,
    // How many instances were no longer awaited, and how many were held that some neighbour was to hear of.
    left: u32,
    brought: u32,
}

type Awaited = Vec<(RouterId, Instance)>;

// The router that the event names.
fn named_by(event: &WorldEvent) -> RouterId {
    match event {
        WorldEvent::Start { router, .. } => *router,
        WorldEvent::Stop { router } => *router,
        WorldEvent::Tick { router } => *router,
        WorldEvent::LinkUp { router, .. } => *router,
        WorldEvent::LinkDown { router, .. } => *router,
        WorldEvent::Deliver { router, .. } => *router,
    }
}

// Whether the one is of the other's key, and not older.
fn covers(one: &Instance, other: &Instance) -> bool {
    let is_later = one.number > other.number;
    let is_none_older = one.number == other.number && one.sum >= other.sum;
    one.key == other.key && (is_later || is_none_older)
}

impl Watched {
    fn of(world: World, alloc: Global) -> Result<Watched, Fail> {
        let routers = routers_of(&world, alloc)?;
        Ok(Watched {
            world,
            routers,
            passed: 0,
            instances: Vec::new(alloc),
            left: 0,
            brought: 0,
        })
    }

    fn awaits(&self, router: RouterId, neighbour: RouterId, instance: &Instance) -> bool {
        match self.world.router(router) {
            Ok(running) => running.awaits(0, neighbour, instance),
            Err(_) => false,
        }
    }

    // What a router awaits of its neighbours.
    fn awaited(&self, router: RouterId, alloc: Global) -> Result<Awaited, Fail> {
        let mut all = Vec::new(alloc);
        for neighbour in self.routers.iter().filter(|other| **other != router) {
            for instance in &self.instances {
                if self.awaits(router, *neighbour, instance) {
                    all.push((*neighbour, *instance))?;
                }
            }
        }
        Ok(all)
    }

    // Whether a router told of an instance, or of a later one of its key.
    fn has_told_of(&self, router: RouterId, instance: &Instance) -> bool {
        let mut held = self.world.held().iter();
        held.any(|holding| holding.router == router && covers(&holding.instance, instance))
    }

    fn is_exchanging(&self, router: RouterId, neighbour: RouterId) -> bool {
        let Ok(running) = self.world.router(router) else {
            return false;
        };
        let mut known = running.neighbours(0).iter();
        known.any(|known| known.router() == neighbour && known.state().is_exchanging())
    }

    // What a router brought since the log of holdings was so long; other instances are noted.
    fn brought_since(
        &mut self,
        held: usize,
        router: RouterId,
        alloc: Global,
    ) -> Result<Vec<Instance>, Fail> {
        let mut brought = Vec::new(alloc);
        for holding in &self.world.held()[held..] {
            if !self
                .instances
                .iter()
                .any(|known| *known == holding.instance)
            {
                self.instances.push(holding.instance)?;
            }
            if holding.router == router {
                brought.push(holding.instance)?;
            }
        }
        Ok(brought)
    }

    // What was awaited before a step that brought these, and is no longer: the neighbour told of it, a later one came, or the
    // neighbour is below Exchange.
    fn look_at_left(
        &mut self,
        router: RouterId,
        before: &Awaited,
        brought: &[Instance],
    ) -> Result<(), Fail> {
        for (neighbour, instance) in before {
            if self.awaits(router, *neighbour, instance) {
                continue;
            }
            let is_replaced = brought
                .iter()
                .any(|new| new != instance && covers(new, instance));
            let is_told = self.has_told_of(*neighbour, instance);
            if !is_told && !is_replaced && self.is_exchanging(router, *neighbour) {
                return Err(Fail::from("no longer awaited"));
            }
            self.left += 1;
        }
        Ok(())
    }

    // What was brought and is listed: a neighbour that is exchanging is awaited to acknowledge it, or told of it.
    fn look_at_brought(
        &mut self,
        router: RouterId,
        brought: &[Instance],
        alloc: Global,
    ) -> Result<(), Fail> {
        if brought.is_empty() {
            return Ok(());
        }
        let listing = self.world.router(router)?.listing(alloc)?;
        for instance in brought {
            let mut listed = listing.lsas().iter();
            if listed.any(|lsa| lsa.view().instance() == *instance) {
                self.look_at_listed(router, instance)?;
            }
        }
        Ok(())
    }

    fn look_at_listed(&mut self, router: RouterId, instance: &Instance) -> Result<(), Fail> {
        for neighbour in &self.routers {
            if self.is_exchanging(router, *neighbour) {
                let is_told = self.has_told_of(*neighbour, instance);
                if !is_told && !self.awaits(router, *neighbour, instance) {
                    return Err(Fail::from("never awaited"));
                }
                self.brought += 1;
            }
        }
        Ok(())
    }

    fn step(&mut self, event: WorldEvent, alloc: Global) -> Result<(), Fail> {
        let router = named_by(&event);
        let before = self.awaited(router, alloc)?;
        let held = self.world.held().len();
        self.world.step(event, alloc)?;
        let brought = self.brought_since(held, router, alloc)?;
        if self.world.router(router).is_ok() {
            self.look_at_left(router, &before, &brought)?;
            self.look_at_brought(router, &brought, alloc)?;
        }
        Ok(())
    }

    // The next datagram comes in wherever it leads. Whether there was one.
    fn pass_one(&mut self, alloc: Global) -> Result<bool, Fail> {
        let datagram = self.passed;
        let Some(sent) = self.world.datagrams().get(datagram) else {
            return Ok(false);
        };
        let (sender, destination) = (sent.router, sent.sent.destination);
        self.passed += 1;
        for place in 0..self.routers.len() {
            let router = self.routers[place];
            let runs = router != sender && self.world.router(router).is_ok();
            if runs && self.leads_to(destination, place) {
                let link = 0;
                self.step(
                    WorldEvent::Deliver {
                        datagram,
                        router,
                        link,
                    },
                    alloc,
                )?;
            }
        }
        Ok(true)
    }

    // Whether a datagram to this address is for the interface of the router at a place.
    fn leads_to(&self, destination: Addr, place: usize) -> bool {
        let config = self.world.slots()[place].config();
        destination == ALL_SPF_ROUTERS
            || destination == ALL_D_ROUTERS
            || config.interfaces[0].address.address == destination
    }

    // A second passes at each router that runs, and what is sent comes in.
    fn round(&mut self, alloc: Global) -> Result<(), Fail> {
        for place in 0..self.routers.len() {
            let router = self.routers[place];
            if self.world.router(router).is_ok() {
                self.step(WorldEvent::Tick { router }, alloc)?;
            }
        }
        for _ in 0..10_000u32 {
            if !self.pass_one(alloc)? {
                return Ok(());
            }
        }
        Err(Fail::from("no end"))
    }

    // All start, and then their links go up.
    fn begin(&mut self, alloc: Global) -> Result<(), Fail> {
        for place in 0..self.routers.len() {
            let dd_start = (place as u32 + 1) * 100;
            self.step(start(self.routers[place], dd_start), alloc)?;
        }
        for place in 0..self.routers.len() {
            let router = self.routers[place];
            self.step(WorldEvent::LinkUp { router, link: 0 }, alloc)?;
        }
        Ok(())
    }

    // A router stops and starts again, above what its floor was or above none.
    fn restart(&mut self, router: RouterId, has_floor: bool, alloc: Global) -> Result<(), Fail> {
        let own = self.world.router(router)?.floor();
        let floor = if has_floor { own } else { NO_FLOOR };
        let dd_start = 900;
        self.step(WorldEvent::Stop { router }, alloc)?;
        self.step(
            WorldEvent::Start {
                router,
                dd_start,
                floor,
            },
            alloc,
        )?;
        self.step(WorldEvent::LinkUp { router, link: 0 }, alloc)
    }

    // Whether every router has all others as Full neighbours.
    fn all_are_full(&self) -> Result<bool, Fail> {
        let others = self.routers.len() - 1;
        for router in &self.routers {
            let known = self.world.router(*router)?.neighbours(0);
            let full = known
                .iter()
                .filter(|known| known.state() == NeighbourState::Full);
            if known.len() != others || full.count() != others {
                return Ok(false);
            }
        }
        Ok(true)
    }
}

// When a router starts again, which one, and whether above its own floor.
#[derive(Clone, Copy, Debug)]
struct Restart {
    before: u32,
    place: usize,
    has_floor: bool,
}

// An area that runs for so many rounds, with a restart, and settles. How often something was looked at.
fn run(world: World, rounds: u32, restart: Restart, alloc: Global) -> Result<(u32, u32), Fail> {
    let mut area = Watched::of(world, alloc)?;
    area.begin(alloc)?;
    for round in 0..rounds {
        if round == restart.before {
            area.restart(area.routers[restart.place], restart.has_floor, alloc)?;
        }
        area.round(alloc)?;
    }
    if !area.all_are_full()? {
        return Err(Fail::from("not all Full"));
    }
    if restart.has_floor && collide(area.world.issued()) {
        return Err(Fail::from("a collision"));
    }
    Ok((area.left, area.brought))
}

#[test]
fn one_of_two_starts_again_before_each_second(rt: HostRuntime) -> Result<(), Fail> {
    let alloc = rt.alloc();
    for before in 0..20 {
        for (place, has_floor) in [(0, false), (1, false), (0, true), (1, true)] {
            let restart = Restart {
                before,
                place,
                has_floor,
            };
            let (left, brought) = run(two_on_a_link(alloc)?, 60, restart, alloc)?;
            assert!(rt; left > 0 && brought > 0, "{restart:?}");
        }
    }
    Ok(())
}

// Before some of its seconds: the routers have heard each other, elect, describe, and have settled. A network elects after 40 seconds
// (section 9.4).
#[test]
fn one_of_three_starts_again_before_a_second(rt: HostRuntime) -> Result<(), Fail> {
    let alloc = rt.alloc();
    for before in [10, 39, 41, 119] {
        for place in 0..3usize {
            for has_floor in [false, true] {
                let restart = Restart {
                    before,
                    place,
                    has_floor,
                };
                let (left, brought) = run(three_on_a_network(alloc)?, 220, restart, alloc)?;
                assert!(rt; left > 0 && brought > 0, "{restart:?}");
            }
        }
    }
    Ok(())
}
