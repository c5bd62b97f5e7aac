//! A relayer's loop over made-up observations. It leaves out what has a fault, and goes on where the planner is killed.
use ibcplan::{Error, Follower, Outcome, Planner, Table, Turn, table};
use std::{env, path::Path};

fn time(minute: u64) -> String {
    format!("2025-03-01T12:{minute:02}:00Z")
}

/// Two chains, and a client on the hub that tracks the zone, updated when its consensus state is three minutes old.
fn setup() -> Table {
    let client = table! {
        id: "zone-on-hub", host: "hub", of: "zone", period_ns: 600_000_000_000u64, drift_ns: 10_000_000_000u64,
        refresh_ns: 180_000_000_000u64, fee: [100, 1, 1], gas: [100, 1, 1], limits: [1_000_000, 100, 0],
    };
    table! { version: 3, chain: [table! { id: "hub" }, table! { id: "zone" }], client: [client] }
}

/// What is observed in a minute: a set and a stored consensus state, then headers; one of them has a wrong vote.
fn observed(minute: u64) -> Vec<Table> {
    let key = "bd41528ee123bb3f91ae011c7ba91831832ff4b844689b9f8521ad2b3fdaf0cd";
    let set = table! { kind: "set", chain: "zone", name: "only", validators: [(key, 10)] };
    let block = |kind: &str, height| table! { kind: kind, height: height, time: time(minute), next: "only" };
    let header = |height, vote| block("header", height).with("chain", "zone").with("set", "only").with("votes", vote);
    match minute {
        0 => vec![set, block("stored", 1).with("client", "zone-on-hub")],
        4 => vec![header(99, "X"), header(5, "C")],
        _ => vec![header(minute + 1, "C")],
    }
}

/// The answer to a turn, without the events that have a fault.
fn answer(follower: &mut Follower, minute: u64, mut event: Vec<Table>, settle: &[Table]) -> Result<Turn, Error> {
    let turn = table! { from: time(minute), until: time(minute + 1), settle: settle.to_vec() };
    loop {
        match follower.answer_or_restart(turn.clone().with("event", event.clone())) {
            Err(Error::Fault(fault)) if fault.event().is_some() => {
                println!("{fault}");
                event.remove(fault.event().unwrap_or_default());
            }
            answer => return answer,
        }
    }
}

fn main() -> Result<(), Box<dyn std::error::Error>> {
    let words: Vec<String> = env::args().collect();
    let mut follower = Planner::new(&words[1]).follow(setup(), Some(Path::new(&words[2])))?;
    for minute in 0..8 {
        if minute == 6 {
            follower.stopper().stop()?; // as the system may, at any moment
        }
        let turn = answer(&mut follower, minute, observed(minute), &[])?;
        let Outcome::Plan(plan) = &turn.clients[0].outcome else { continue };
        plan.updates.iter().for_each(|update| println!("send {}, by {}", update.height, update.trusted));
        // here the transactions are sent, and all are taken
        let taken = turn.batches().map(|(client, batch)| batch.settlement(client, batch.transactions.len()));
        answer(&mut follower, minute, Vec::new(), &taken.collect::<Vec<_>>())?;
    }
    Ok(())
}
