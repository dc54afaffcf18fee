//! Two LSAs of one instance with different contents: to a sum the bytes 00 and ff are equal (section 12.1.7), so costs 255 and 65280
//! are, and networks 10.0.9.0 and 10.255.9.0.

use super::super::given::{FIRST, NO_FLOOR, SECOND};
use super::super::worlds::world_of;
use ospf_lsa::LsaView;
use ospf_packet::{Body, Packet};
use ospf_world::{Issued, World, WorldEvent};
use std::alloc::Global;
use std::test::Fail;

const THREE_LINKS: &str =
    "router_id = \"1.1.1.1\"\narea = \"0.0.0.0\"\n[[interface]]\nkind = \"point-to-point\"\naddress = \"10.1.0.1/30\"\ncost = 10\n[[interface]]\nkind = \"point-to-point\"\naddress = \"10.0.9.1/24\"\ncost = 255\n[[interface]]\nkind = \"point-to-point\"\naddress = \"10.255.9.1/24\"\ncost = 65280\n";

const NEIGHBOUR: &str =
    "router_id = \"2.2.2.2\"\narea = \"0.0.0.0\"\n[[interface]]\nkind = \"point-to-point\"\naddress = \"10.1.0.2/30\"\ncost = 10\n";

// All of an LSA but its age.
fn contents<'a>(lsa: &LsaView<'a>) -> &'a [u8] {
    &lsa.as_bytes()[2..]
}

fn is_collision(one: &LsaView<'_>, other: &LsaView<'_>) -> bool {
    one.instance() == other.instance() && contents(one) != contents(other)
}

// Whether two LSAs that were issued collide.
pub(crate) fn collide(issued: &[Issued]) -> bool {
    let mut all = issued.iter();
    all.any(|one| {
        let mut others = issued.iter();
        others.any(|other| is_collision(&one.lsa.view(), &other.lsa.view()))
    })
}

// Whether its run is low: its numbers began below one that had been issued for its key when it began.
fn is_low(issued: &[Issued], entry: &Issued) -> bool {
    let key = entry.lsa.view().key();
    let mut before = issued[..entry.run.name].iter();
    before.any(|earlier| {
        let instance = earlier.lsa.view().instance();
        instance.key == key && entry.run.base < instance.number
    })
}

// Whether the contents of the one were issued, and later those of the other in another run, which is low.
fn is_issued_again(issued: &[Issued], one: &LsaView<'_>, other: &LsaView<'_>) -> bool {
    let mut entries = issued.iter().enumerate();
    entries.any(|(place, second)| {
        let mut earlier = issued[..place].iter();
        let is_of_another_run = earlier.any(|first| {
            contents(&first.lsa.view()) == contents(one) && first.run != second.run
        });
        let is_other = contents(&second.lsa.view()) == contents(other);
        is_other && is_of_another_run && is_low(issued, second)
    })
}

// The LSAs of the Updates that were ever sent.
fn sent_lsas(world: &World, alloc: Global) -> Result<Vec<LsaView<'_>>, Fail> {
    let mut all = Vec::new(alloc);
    for datagram in world.datagrams() {
        if let Body::Update(lsas) = Packet::read(&datagram.sent.bytes)?.body {
            for bytes in lsas {
                all.push(LsaView::read(bytes)?)?;
            }
        }
    }
    Ok(all)
}

// How many pairs of those that were sent collide; of each its originator issued both, the second in a low run.
fn count_collisions(world: &World, alloc: Global) -> Result<usize, Fail> {
    let (sent, issued) = (sent_lsas(world, alloc)?, world.issued());
    let mut count = 0;
    for (place, one) in sent.iter().enumerate() {
        for other in &sent[..place] {
            if is_collision(one, other) {
                if !is_issued_again(issued, one, other) && !is_issued_again(issued, other, one) {
                    return Err(Fail::from("it was not issued again"));
                }
                count += 1;
            }
        }
    }
    Ok(count)
}

// Both routers start with these floors, and two links of the first one go up.
fn begin(
    world: &mut World,
    floors: [i32; 2],
    links: [usize; 2],
    alloc: Global,
) -> Result<(), Fail> {
    let dd_start = 1;
    for (router, floor) in [(FIRST, floors[0]), (SECOND, floors[1])] {
        world.step(
            WorldEvent::Start {
                router,
                dd_start,
                floor,
            },
            alloc,
        )?;
    }
    for (router, link) in [(FIRST, links[0]), (FIRST, links[1]), (SECOND, 0)] {
        world.step(WorldEvent::LinkUp { router, link }, alloc)?;
    }
    Ok(())
}

// Whether both list the same two LSAs, but for their ages.
fn agree(world: &World, alloc: Global) -> Result<bool, Fail> {
    let one = world.router(FIRST)?.listing(alloc)?;
    let other = world.router(SECOND)?.listing(alloc)?;
    let ([a, b], [c, d]) = (one.lsas(), other.lsas()) else {
        return Ok(false);
    };
    let of_first = contents(&a.view()) == contents(&c.view());
    Ok(of_first && contents(&b.view()) == contents(&d.view()))
}

// So many seconds, after which the routers agree.
fn settle(world: &mut World, alloc: Global) -> Result<(), Fail> {
    for _ in 0..30u32 {
        world.round(alloc)?;
    }
    if !agree(world, alloc)? {
        return Err(Fail::from("they do not agree"));
    }
    Ok(())
}

// Both routers agree, stop, and start again with another link of the first one up: above no floor, or each above its own.
// Beside the world, how many LSAs had been issued by then.
fn started_again(has_floor: bool, alloc: Global) -> Result<(World, usize), Fail> {
    let mut world = world_of(&[THREE_LINKS, NEIGHBOUR], alloc)?;
    begin(&mut world, [NO_FLOOR, NO_FLOOR], [0, 1], alloc)?;
    settle(&mut world, alloc)?;
    let issued = world.issued().len();
    let own = [world.router(FIRST)?.floor(), world.router(SECOND)?.floor()];
    let floors = if has_floor { own } else { [NO_FLOOR, NO_FLOOR] };
    world.step(WorldEvent::Stop { router: FIRST }, alloc)?;
    world.step(WorldEvent::Stop { router: SECOND }, alloc)?;
    begin(&mut world, floors, [0, 2], alloc)?;
    settle(&mut world, alloc)?;
    Ok((world, issued))
}

// Without a floor the second runs are low, and the LSAs that collide were issued in both.
#[test]
fn lsas_of_one_instance_differ_where_both_were_issued(rt: HostRuntime) -> Result<(), Fail> {
    let alloc = rt.alloc();
    let (world, before) = started_again(false, alloc)?;
    assert!(rt; collide(world.issued()));
    assert!(rt; count_collisions(&world, alloc)? > 0);
    for (place, entry) in world.issued().iter().enumerate() {
        let name = if place < before { 0 } else { before };
        assert_eq!(rt;
            (entry.run.name, entry.run.base),
            (name, NO_FLOOR),
            "{place}"
        );
        assert_eq!(rt; is_low(world.issued(), entry), name > 0, "{place}");
    }
    Ok(())
}

#[test]
fn nothing_differs_above_the_floor(rt: HostRuntime) -> Result<(), Fail> {
    let alloc = rt.alloc();
    let (world, before) = started_again(true, alloc)?;
    assert!(rt; !collide(world.issued()));
    assert_eq!(rt; count_collisions(&world, alloc)?, 0);
    for (place, entry) in world.issued().iter().enumerate() {
        assert!(rt; !is_low(world.issued(), entry), "{place}");
        assert_eq!(rt; entry.run.base > NO_FLOOR, place >= before, "{place}");
    }
    Ok(())
}
