//! Each cause that a datagram is dropped for.

use super::wired::{LOCAL, OWN, iface_at};
use ospf_base::{ALL_D_ROUTERS, ALL_SPF_ROUTERS, Addr, AreaId, InterfaceKind, RouterId};
use ospf_neighbour::iface::{Iface, IfaceState};
use ospf_neighbour::{NbrEvent, Neighbour};
use ospf_packet::{BodyValue, Description, Hello, PacketValue, write_packet};
use ospf_router::step::{Dropped, receive};
use std::alloc::Global;
use std::test::Fail;

const AREA: AreaId = AreaId(0);

// The interface's address, that of a neighbour in 2-Way, and one that no neighbour has.
const HERE: Addr = Addr(0x0a00_0001);

const THERE: Addr = Addr(0x0a00_0002);

const NEW: Addr = Addr(0x0a00_0003);

fn iface(kind: InterfaceKind, state: IfaceState) -> Iface {
    iface_at(HERE, kind, state)
}

// Router 2 in 2-Way, at its address.
fn neighbour(alloc: Global) -> Neighbour {
    let mut neighbour = Neighbour::new(alloc, RouterId(2), THERE);
    let _ = neighbour.event(NbrEvent::HelloReceived, 40);
    let _ = neighbour.event(NbrEvent::TwoWayReceived(false), 40);
    neighbour
}

// The packets that come.
#[derive(Clone, Copy, Debug, PartialEq, Eq)]
enum Comes {
    // A Hello of this HelloInterval.
    Hello(u16),
    // A first Database Description of this MTU.
    Description(u16),
    Request,
}

fn body(comes: Comes, alloc: Global) -> BodyValue {
    match comes {
        Comes::Hello(interval) => {
            let hello = Hello {
                mask: 0xffff_ff00,
                hello_interval: interval,
                options: 2,
                priority: 1,
                dead_interval: 40,
                designated: Addr::NOWHERE,
                backup: Addr::NOWHERE,
            };
            BodyValue::Hello(hello, Vec::new(alloc))
        }
        Comes::Description(mtu) => {
            let description = Description {
                mtu,
                options: 2,
                flags: 7,
                number: 5,
            };
            BodyValue::Description(description, Vec::new(alloc))
        }
        Comes::Request => BodyValue::Request(Vec::new(alloc)),
    }
}

// Why a packet of a router is dropped, which has one neighbour.
fn dropped(
    link: &Iface,
    router: u32,
    area: AreaId,
    comes: Comes,
    source: Addr,
    destination: Addr,
    alloc: Global,
) -> Result<Option<Dropped>, Fail> {
    let value = PacketValue {
        router: RouterId(router),
        area,
        body: body(comes, alloc),
    };
    let mut bytes = Vec::new(alloc);
    write_packet(&value, &mut bytes)?;
    let neighbours = [neighbour(alloc)];
    match receive(&bytes, source, destination, link, &neighbours, AREA, LOCAL) {
        Ok(packet) => {
            if packet.router.0 != router {
                return Err("another router".into());
            }
            Ok(None)
        }
        Err(dropped) => Ok(Some(dropped)),
    }
}

// On a broadcast link.
#[test]
fn each_cause_once(rt: HostRuntime) -> Result<(), Fail> {
    let alloc = rt.alloc();
    let link = iface(InterfaceKind::Broadcast, IfaceState::DrOther);
    let to = ALL_SPF_ROUTERS;
    let hello = Comes::Hello(10);
    for (router, area, comes, source, destination, cause) in [
        (2, AREA, hello, THERE, to, None),
        (3, AREA, hello, NEW, HERE, None),
        (2, AreaId(1), hello, THERE, to, Some(Dropped::Area)),
        (1, AREA, hello, THERE, to, Some(Dropped::OwnPacket)),
        (
            2,
            AREA,
            hello,
            THERE,
            ALL_D_ROUTERS,
            Some(Dropped::Destination),
        ),
        (2, AREA, hello, Addr(0x0b00_0002), to, Some(Dropped::Subnet)),
        (
            2,
            AREA,
            Comes::Hello(11),
            THERE,
            to,
            Some(Dropped::HelloMismatch),
        ),
        (
            3,
            AREA,
            Comes::Request,
            NEW,
            HERE,
            Some(Dropped::NoNeighbour),
        ),
        (3, AREA, hello, THERE, to, Some(Dropped::WrongRouter)),
        (2, AREA, hello, NEW, to, Some(Dropped::WrongRouter)),
        (
            3,
            AREA,
            Comes::Request,
            THERE,
            HERE,
            Some(Dropped::WrongRouter),
        ),
        (2, AREA, Comes::Request, THERE, HERE, Some(Dropped::State)),
        (
            2,
            AREA,
            Comes::Description(1500),
            THERE,
            HERE,
            Some(Dropped::State),
        ),
    ] {
        let told = dropped(&link, router, area, comes, source, destination, alloc)?;
        assert_eq!(rt; told, cause);
    }
    Ok(())
}

// A link that is down takes nothing, the Designated Router takes what is for it, and a point-to-point link has one neighbour
// whatever its address.
#[test]
fn links_differ(rt: HostRuntime) -> Result<(), Fail> {
    let alloc = rt.alloc();
    let hello = Comes::Hello(10);
    let down = iface(InterfaceKind::Broadcast, IfaceState::Down);
    let told = dropped(&down, 2, AREA, hello, THERE, ALL_SPF_ROUTERS, alloc)?;
    assert_eq!(rt; told, Some(Dropped::Packet));
    let designated = iface(InterfaceKind::Broadcast, IfaceState::Dr);
    let told = dropped(&designated, 2, AREA, hello, THERE, ALL_D_ROUTERS, alloc)?;
    assert_eq!(rt; told, None);
    let ends = iface(InterfaceKind::PointToPoint, IfaceState::PointToPoint);
    let told = dropped(
        &ends,
        2,
        AREA,
        hello,
        Addr(0x0b00_0002),
        ALL_SPF_ROUTERS,
        alloc,
    )?;
    assert_eq!(rt; told, None);
    let told = dropped(&ends, 3, AREA, hello, NEW, ALL_SPF_ROUTERS, alloc)?;
    assert_eq!(rt; told, Some(Dropped::WrongRouter));
    Ok(())
}

// In Init a Database Description is taken, but for one over the MTU.
#[test]
fn descriptions_in_init(rt: HostRuntime) -> Result<(), Fail> {
    let alloc = rt.alloc();
    let link = iface(InterfaceKind::PointToPoint, IfaceState::PointToPoint);
    let mut heard = Neighbour::new(alloc, RouterId(2), THERE);
    let _ = heard.event(NbrEvent::HelloReceived, 40);
    let neighbours = [heard];
    for (mtu, cause) in [(1500, None), (1501, Some(Dropped::State))] {
        let value = PacketValue {
            router: RouterId(2),
            area: AREA,
            body: body(Comes::Description(mtu), alloc),
        };
        let mut bytes = Vec::new(alloc);
        write_packet(&value, &mut bytes)?;
        let told = receive(&bytes, THERE, HERE, &link, &neighbours, AREA, LOCAL).err();
        assert_eq!(rt; told, cause);
    }
    Ok(())
}

#[test]
fn drops_are_printed(rt: HostRuntime) -> Result<(), Fail> {
    let alloc = rt.alloc();
    let link = iface(InterfaceKind::PointToPoint, IfaceState::PointToPoint);
    let told = receive(b"no packet", THERE, HERE, &link, &[], AREA, LOCAL).err();
    assert_eq!(rt; told, Some(Dropped::Packet));
    for (dropped, text) in [
        (Dropped::Packet, "R1 Packet"),
        (Dropped::Area, "R2 Area"),
        (Dropped::OwnPacket, "R3 OwnPacket"),
        (Dropped::Destination, "R4 Destination"),
        (Dropped::Subnet, "R5 Subnet"),
        (Dropped::HelloMismatch, "R6 HelloMismatch"),
        (Dropped::NoNeighbour, "R7 NoNeighbour"),
        (Dropped::WrongRouter, "R8 WrongRouter"),
        (Dropped::State, "R9 State"),
    ] {
        let printed = format!(in alloc; "{dropped}")?;
        assert_eq!(rt; printed.as_str(), text);
    }
    Ok(())
}

// So many neighbours, of the Router IDs from 2 on, at addresses from 10.0.1.2 on.
fn neighbours(alloc: Global, count: u32) -> Result<Vec<Neighbour>, Fail> {
    let mut neighbours = Vec::new(alloc);
    for place in 0..count {
        let router = place.wrapping_add(2);
        let address = Addr(router.wrapping_add(0x0a00_0100));
        neighbours.push(Neighbour::new(alloc, RouterId(router), address))?;
    }
    Ok(neighbours)
}

// The first Hello of 10.0.0.1.
const HELLO: &[u8; 44] =
    b"\x02\x01\x00\x2c\x01\x01\x01\x01\x00\x00\x00\x00\xf9\xa0\x00\x00\x00\x00\x00\x00\x00\x00\x00\x00\xff\xff\xff\xfc\x00\x0a\x02\x01\x00\x00\x00\x28\x00\x00\x00\x00\x00\x00\x00\x00";

// It makes a neighbour where there are fewer than 255, is dropped where there are 255, and is the router's own where it comes
// back.
#[test]
fn a_first_hello(rt: HostRuntime) -> Result<(), Fail> {
    let alloc = rt.alloc();
    let mut link = iface(InterfaceKind::Broadcast, IfaceState::DrOther);
    link.settings.address = THERE;
    link.settings.mask = 0xffff_fffc;
    for (own, count, cause) in [
        (OWN, 254, None),
        (OWN, 255, Some(Dropped::State)),
        (RouterId(0x0101_0101), 255, Some(Dropped::OwnPacket)),
    ] {
        link.settings.router = own;
        let others = neighbours(alloc, count)?;
        let told = receive(HELLO, HERE, ALL_SPF_ROUTERS, &link, &others, AREA, LOCAL).err();
        assert_eq!(rt; told, cause);
    }
    Ok(())
}
