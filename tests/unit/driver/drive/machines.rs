//! A driver of what is a router by rules of its own.

use super::super::given::{CONFIG, NO_FLOOR};
use ospf_config::Config;
use ospf_drive::{DriveFault, Machine, MemoryWire, Scripted, Wire, drive};
use ospf_fib::Fib;
use ospf_router::{Event, Router, StartFault, Step, Stopped};
use std::alloc::{AllocError, Global};
use std::sync::Wait;
use std::test::Fail;

// How many seconds pass: half of HelloInterval.
const PASSING: usize = 5;

// A router that takes each second twice, and puts out what it does the second time.
#[derive(Drop)]
struct Hurried {
    router: Router,
}

impl Machine for Hurried {
    ghost use Rattle.std.specs.Prelude.{⊤};

    ghost value = { λ h. h.router };

    ghost rules = { record { steps = λ e before t after. ⊤; stops = λ e r. ⊤ } };

    fn start(config: &Config, dd_start: u32, floor: i32, alloc: Global) -> Result<Hurried, StartFault> {
        let router = Router::start(config, dd_start, floor, alloc)?;
        Ok(Hurried { router })
    }

    fn step(&mut self, event: Event<'_>, alloc: Global) -> Result<Step, Stopped> {
        if let Event::Tick = event {
            self.router.step(Event::Tick, alloc)?;
        }
        self.router.step(event, alloc)
    }

    fn router(&self) -> &Router {
        &self.router
    }

    fn into_router(self) -> Router {
        self.router
    }
}

// The link goes up, and some seconds pass.
fn script(alloc: Global) -> Result<Vec<Scripted>, AllocError> {
    let mut arrivals = Vec::with_capacity(alloc, PASSING + 2)?;
    arrivals.push(Scripted::LinkUp { link: 0 })?;
    for _ in 0..PASSING {
        arrivals.push(Scripted::Tick)?;
    }
    arrivals.push(Scripted::End)?;
    Ok(arrivals)
}

// How its driver ends, and how many datagrams went out.
fn driven<M: Machine + Drop, R: Wait>(rt: &R, mut machine: M, alloc: Global) -> Result<(Result<bool, DriveFault>, usize), Fail> {
    let (mut writer, _seats) = Fib::open(alloc, rt, 1)?;
    let mut wire = MemoryWire::new(alloc, script(alloc)?, None, None);
    let told = drive(rt, alloc, &mut machine, &mut wire, &mut writer);
    Ok((told.map(|told| told.is_some()), wire.sent().len()))
}

// A Hello goes out as the link goes up, and the next one after HelloInterval, which is 10.
#[test]
fn a_machine_goes_on_by_rules_of_its_own(rt: HostRuntime) -> Result<(), Fail> {
    let alloc = rt.alloc();
    let config = Config::from_text(alloc, CONFIG)?;
    let router = Router::start(&config, 1, NO_FLOOR, alloc)?;
    assert_eq!(rt; driven(&rt, router, alloc)?, (Ok(true), 1));
    let hurried = Hurried::start(&config, 1, NO_FLOOR, alloc)?;
    assert_eq!(rt; driven(&rt, hurried, alloc)?, (Ok(true), 2));
    Ok(())
}
