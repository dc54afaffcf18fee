//! Who watches a simulation: it is told of each event, and how far the lines have come.

use super::given::CONFIG;
use ospf_files::{NamedFile, Status};
use ospf_sim::{EventWatch, Watch, World, WorldEvent, WorldFault, sim_text};
use std::alloc::{AllocError, Global};
use std::process::Abort;
use std::test::Fail;

// What was told, how often.
#[derive(Clone, Copy, Debug, PartialEq, Eq)]
struct Told {
    starts: u32,
    ticks: u32,
    others: u32,
    refused: u32,
    over: u32,
    rounds: u32,
    draws: u32,
    lines: u32,
}

const NOTHING: Told = Told {
    starts: 0,
    ticks: 0,
    others: 0,
    refused: 0,
    over: 0,
    rounds: 0,
    draws: 0,
    lines: 0,
};

impl EventWatch for Told {
    fn comes(&mut self, _world: &World, event: &WorldEvent) {
        let count = match event {
            WorldEvent::Start { .. } => &mut self.starts,
            WorldEvent::Tick { .. } => &mut self.ticks,
            _ => &mut self.others,
        };
        *count = count.saturating_add(1);
    }

    fn came(&mut self, _world: &World, _event: &WorldEvent, answer: &Result<(), WorldFault>) {
        if answer.is_err() {
            self.refused = self.refused.saturating_add(1);
        }
        self.over = self.over.saturating_add(1);
    }
}

impl Watch for Told {
    fn begins_round(&mut self, _done: u64, _count: u64) {
        self.rounds = self.rounds.saturating_add(1);
    }

    fn draws_events(&mut self, _done: u64, _count: u64) {
        self.draws = self.draws.saturating_add(1);
    }

    fn ends_line(&mut self) {
        self.lines = self.lines.saturating_add(1);
    }
}

// What is told of a script in a network of one router, whose lines can all be read.
fn told_of(rt: &impl Abort, alloc: Global, script: &str) -> Result<Told, AllocError> {
    let script = NamedFile {
        name: String::from_str(alloc, "script")?,
        bytes: Some(script.as_bytes().to_vec(alloc)?),
    };
    let files = [NamedFile {
        name: String::from_str(alloc, "a.toml")?,
        bytes: Some(CONFIG.as_bytes().to_vec(alloc)?),
    }];
    let (mut out, mut err) = (Vec::new(alloc), Vec::new(alloc));
    let mut told = NOTHING;
    let simulated = sim_text(alloc, &script, &files, false, &mut out, &mut err, &mut told);
    assert_eq!(rt; simulated.status, Status::Done);
    Ok(told)
}

// One that runs alone: what it sends is offered to nobody. The line that is blank, and the comment, are no commands.
#[test]
fn rounds_and_refusals(rt: HostRuntime) -> Result<(), Fail> {
    let script = "# a comment\n\nstart all\ntick 9.9.9.9\nround 3\nloss 50 1\nround 2\nbatch 4\n";
    let told = told_of(&rt, rt.alloc(), script)?;
    let expected = Told {
        starts: 1,
        ticks: 10,
        refused: 1,
        over: 11,
        rounds: 9,
        lines: 6,
        ..NOTHING
    };
    assert_eq!(rt; told, expected);
    Ok(())
}

// What only asks is told of no event; of events by chance each is told, and a draw of some at a time.
#[test]
fn draws_and_questions(rt: HostRuntime) -> Result<(), Fail> {
    let alloc = rt.alloc();
    let asked = told_of(&rt, alloc, "say hello\nlabel on\nexpect agree\ntable 1.1.1.1\n")?;
    assert_eq!(rt; asked, Told { lines: 4, ..NOTHING });
    let drawn = told_of(&rt, alloc, "random 5 10001\n")?;
    assert_eq!(rt; (drawn.draws, drawn.rounds, drawn.lines), (2, 0, 1));
    assert_eq!(rt; drawn.over, drawn.starts + drawn.ticks + drawn.others);
    assert!(rt; drawn.over <= 10_001 && 0 < drawn.over);
    Ok(())
}
