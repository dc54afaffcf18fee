//! Worlds in which no router runs yet, for the tests of worlds and of drivers.

use super::given::{CONFIG, NO_FLOOR};
use ospf_base::RouterId;
use ospf_config::Config;
use ospf_world::{World, WorldEvent};
use std::alloc::Global;
use std::test::Fail;

// The router at the other end of the link of the one that tests are given.
pub(crate) const OTHER: &str =
    "router_id = \"2.2.2.2\"\narea = \"0.0.0.0\"\n[[interface]]\nkind = \"point-to-point\"\naddress = \"10.0.0.2/30\"\ncost = 10\n";

// Three routers on a broadcast network; the last one is not to be a Designated Router.
const THREE: [&str; 3] = [
    "router_id = \"1.1.1.1\"\narea = \"0.0.0.0\"\n[[interface]]\nkind = \"broadcast\"\naddress = \"10.1.0.1/24\"\ncost = 10\n",
    "router_id = \"2.2.2.2\"\narea = \"0.0.0.0\"\n[[interface]]\nkind = \"broadcast\"\naddress = \"10.1.0.2/24\"\ncost = 10\n",
    "router_id = \"3.3.3.3\"\narea = \"0.0.0.0\"\n[[interface]]\nkind = \"broadcast\"\naddress = \"10.1.0.3/24\"\ncost = 10\npriority = 0\n",
];

pub(crate) fn world_of(configs: &[&str], alloc: Global) -> Result<World, Fail> {
    let mut read = Vec::with_capacity(alloc, configs.len())?;
    for text in configs {
        read.push(Config::from_text(alloc, text)?)?;
    }
    Ok(World::new(read, alloc)?)
}

pub(crate) fn two_on_a_link(alloc: Global) -> Result<World, Fail> {
    world_of(&[CONFIG, OTHER], alloc)
}

pub(crate) fn three_on_a_network(alloc: Global) -> Result<World, Fail> {
    world_of(&THREE, alloc)
}

// The routers of a world, running or not.
pub(crate) fn routers_of(world: &World, alloc: Global) -> Result<Vec<RouterId>, Fail> {
    let mut routers = Vec::new(alloc);
    for slot in world.slots() {
        routers.push(slot.config().router_id)?;
    }
    Ok(routers)
}

// A start above no floor.
pub(crate) fn start(router: RouterId, dd_start: u32) -> WorldEvent {
    WorldEvent::Start {
        router,
        dd_start,
        floor: NO_FLOOR,
    }
}

// The two on a link start, and both ends of it go up.
pub(crate) fn two_that_run(alloc: Global) -> Result<World, Fail> {
    let mut world = two_on_a_link(alloc)?;
    for (place, router) in routers_of(&world, alloc)?.into_iter().enumerate() {
        let dd_start = if place == 0 { 100 } else { 200 };
        world.step(start(router, dd_start), alloc)?;
        world.step(WorldEvent::LinkUp { router, link: 0 }, alloc)?;
    }
    Ok(world)
}
