//! Six panels on a ring with two links across it, and a host that moves their messages: `cargo run --example swarm`.
//!
//! A link of the ring takes two milliseconds, one across it seven. Panel 1 broadcasts a reading each second; the host prints who shows it
//! and when, and how many messages crossed links for it. The first reading goes over every link, and by that the panels find out which
//! links make a tree. The next crosses the five links of the tree once each; the other links carry its identifier. Then a link of the tree
//! breaks: the panel behind it learns of the reading from an announcement and asks for it.
use std::cmp::Reverse;
use std::collections::{BTreeMap, BinaryHeap};

use plumtree::{Action, Error, Event, Limits, Message, Panel, Settings};

const PANELS: u64 = 6;
/// Two ends, and how many milliseconds a message takes.
const LINKS: [(u64, u64, u64); 8] = [(1, 2, 2), (2, 3, 2), (3, 4, 2), (4, 5, 2), (5, 6, 2), (6, 1, 2), (1, 4, 7), (2, 5, 7)];

/// What is to happen: at a time, in this order, to this panel, this event.
type Due = Reverse<(u64, u64, u64, Vec<u8>)>;

struct Swarm {
    panels: BTreeMap<u64, Panel>,
    due: BinaryHeap<Due>,
    order: u64,
    shown: Vec<String>,
    payloads: u32,
    others: u32,
}

impl Swarm {
    fn new() -> Result<Swarm, Error> {
        let mut panels = BTreeMap::new();
        for me in 1..=PANELS {
            panels.insert(me, Panel::new(Settings::of_panel(me), Limits::SMALL)?);
        }
        Ok(Swarm { panels, due: BinaryHeap::new(), order: 0, shown: Vec::new(), payloads: 0, others: 0 })
    }

    /// An event that a panel is told at a time.
    fn plan(&mut self, at: u64, panel: u64, event: &Event) {
        self.order += 1;
        self.due.push(Reverse((at, self.order, panel, event.to_bytes())));
    }

    /// One event told, and its actions carried out.
    fn tell(&mut self, at: u64, me: u64, event: &[u8]) -> Result<(), Error> {
        let mut output = [0; 40_960];
        let panel = self.panels.get_mut(&me).expect("a panel");
        for action in panel.event_bytes(at, event, &[], &mut output)? {
            match action {
                Action::Send { peer, taken: true, message, bytes } => {
                    match message {
                        Message::Gossip { .. } => self.payloads += 1,
                        _ => self.others += 1,
                    }
                    self.plan(at + delay(me, peer), peer, &Event::ReceivedBytes { peer: me, bytes });
                }
                Action::Send { taken: false, .. } => {}
                Action::Schedule { delay, timer } => self.plan(at + delay, me, &Event::Timer(timer)),
                Action::Emit { peer, .. } => self.shown.push(format!("{me} from {peer} at {at}")),
                // A panel with a screen greys the curve of this identifier.
                Action::Forgotten { .. } => {}
            }
        }
        Ok(())
    }

    /// All that is due before this time, in its order.
    fn run(&mut self, until: u64) -> Result<(), Error> {
        while self.due.peek().is_some_and(|Reverse(next)| next.0 < until) {
            let Some(Reverse((at, _, panel, event))) = self.due.pop() else { break };
            self.tell(at, panel, &event)?;
        }
        Ok(())
    }
}

/// How long a message takes between two panels.
fn delay(a: u64, b: u64) -> u64 {
    let link = LINKS.iter().find(|l| (l.0, l.1) == (a, b) || (l.1, l.0) == (a, b));
    link.expect("a link").2
}

fn simulate() -> Result<Vec<String>, Error> {
    let mut swarm = Swarm::new()?;
    // Each planned neighbour is told up at once. Here the links are there from the start; one that was not would have room 0 until it is.
    for (a, b, _) in LINKS {
        swarm.plan(0, a, &Event::Up(b));
        swarm.plan(0, b, &Event::Up(a));
    }
    let mut lines = Vec::new();
    for (at, content) in [(1000, "burner 3: 1452 C"), (2000, "burner 3: 1455 C"), (3000, "burner 3: 1449 C"), (4000, "burner 3: 1451 C")] {
        if at == 3000 {
            // Down at both ends, since this link does not come back. One that will has room 0 until it does, and is not told down.
            swarm.plan(at, 3, &Event::Down(4));
            swarm.plan(at, 4, &Event::Down(3));
            lines.push("the link between 3 and 4 breaks".to_string());
        }
        swarm.plan(at, 1, &Event::Broadcast(content.as_bytes()));
        swarm.run(at + 1000)?;
        lines.push(format!("{content}: {}", swarm.shown.join(", ")));
        lines.push(format!("    {} payloads, {} other messages", swarm.payloads, swarm.others));
        swarm.shown.clear();
        (swarm.payloads, swarm.others) = (0, 0);
    }
    Ok(lines)
}

fn main() -> Result<(), Error> {
    for line in simulate()? {
        println!("{line}");
    }
    Ok(())
}

#[cfg(test)]
mod tests {
    #[test]
    fn a_tree_and_a_break() {
        let lines = [
            "burner 3: 1452 C: 2 from 1 at 1002, 6 from 1 at 1002, 3 from 2 at 1004, 5 from 6 at 1004, 4 from 3 at 1006",
            "    11 payloads, 6 other messages",
            "burner 3: 1455 C: 2 from 1 at 2002, 6 from 1 at 2002, 3 from 2 at 2004, 5 from 6 at 2004, 4 from 3 at 2006",
            "    5 payloads, 6 other messages",
            "the link between 3 and 4 breaks",
            "burner 3: 1449 C: 2 from 1 at 3002, 6 from 1 at 3002, 3 from 2 at 3004, 5 from 6 at 3004, 4 from 5 at 3095",
            "    5 payloads, 6 other messages",
            "burner 3: 1451 C: 2 from 1 at 4002, 6 from 1 at 4002, 3 from 2 at 4004, 5 from 6 at 4004, 4 from 5 at 4006",
            "    5 payloads, 4 other messages",
        ];
        assert_eq!(super::simulate().unwrap(), lines);
    }
}
