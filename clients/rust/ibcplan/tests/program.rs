//! The crate over the project's examples. `IBCPLAN` names the program; without it nothing is tried.
use ibcplan::{Error, Follower, Goal, Kind, Outcome, Planner, Sending, Table, Turn, Verdict, table};
use std::path::{Path, PathBuf};
use std::time::Duration;
use std::{env, fs, process, thread};

fn planner() -> Option<Planner> {
    env::var_os("IBCPLAN").map(Planner::new)
}

fn example(name: &str) -> String {
    let path = Path::new(env!("CARGO_MANIFEST_DIR")).join("../../../examples").join(name);
    fs::read_to_string(&path).unwrap_or_else(|error| panic!("{}: {error}", path.display()))
}

/// The path of a journal that isn't there yet.
fn journal(name: &str) -> PathBuf {
    let path = env::temp_dir().join(format!("ibcplan-test-{}-{name}", process::id()));
    let _ = fs::remove_file(&path);
    path
}

fn turns() -> Vec<String> {
    example("follow/turns.txt").split_terminator("---\n").map(str::to_owned).collect()
}

fn fault_of<T: std::fmt::Debug>(answer: Result<T, Error>) -> (u64, String, String) {
    match answer {
        Err(Error::Fault(fault)) => (fault.number, fault.name, fault.path),
        other => panic!("no fault: {other:?}"),
    }
}

fn fault(number: u64, name: &str, path: &str) -> (u64, String, String) {
    (number, name.to_owned(), path.to_owned())
}

#[test]
fn scripts_are_planned() {
    let Some(planner) = planner() else { return };
    let report = planner.plan(example("two_clients.toml")).unwrap();
    assert_eq!((report.format, report.turns.len()), (1, 4));
    assert!(report.clients.iter().all(|client| client.expiry.as_ref().is_some_and(|expiry| expiry.live)));
    assert_eq!(report, planner.clone().with_workers(3).plan(example("two_clients.toml")).unwrap());
    let report = planner.plan(example("packets.toml")).unwrap();
    let Outcome::Plan(plan) = &report.turns[0].clients[0].outcome else { panic!("{report:?}") };
    assert_eq!((plan.goal, plan.total.fee, plan.messages[0].kind), (Goal::AtLeast(105), 109, Kind::Receive));
    let Sending::Batch(batch) = &plan.sending else { panic!("{plan:?}") };
    assert_eq!((batch.number, batch.proof, batch.transactions[0].gas), (1, 106, 434_000));
    let waiting = planner.plan(example("waiting.toml")).unwrap();
    assert_eq!(waiting.format, 3);
    let next = |turn: &Turn| turn.clients.iter().any(|c| matches!(&c.outcome, Outcome::Idle { next: Some(_) }));
    assert!(waiting.turns.iter().any(next));
    let lost = planner.plan(example("lost_client.toml")).unwrap();
    assert!(lost.turns.iter().any(|turn| !turn.refused.is_empty()));
}

#[test]
fn every_example_is_read() {
    let Some(planner) = planner() else { return };
    let folder = Path::new(env!("CARGO_MANIFEST_DIR")).join("../../../examples");
    let mut scripts: Vec<_> = fs::read_dir(folder).unwrap().map(|entry| entry.unwrap().path()).collect();
    scripts.retain(|path| path.extension().is_some_and(|end| end == "toml"));
    assert!(scripts.len() > 8);
    for script in scripts {
        let text = fs::read_to_string(&script).unwrap();
        planner.plan(&text).unwrap();
        assert!(planner.explain(&text).unwrap().get("turns").is_some());
    }
}

#[test]
fn faults_have_types() {
    let Some(planner) = planner() else { return };
    assert_eq!(fault_of(planner.plan("version = 9")), fault(1005, "BadVersion", "version"));
    assert_eq!(fault_of(planner.plan("version =")), fault(1001, "NotToml", "-"));
    assert_eq!(fault_of(planner.plan(table! { version: 3, chain: [table! { id: "a b" }] })).2, "chain[0].id");
    assert_eq!(fault_of(planner.plan(Table::new().with("a\u{7f}\u{1f600} \" ---\n", 1))).0, 1003);
    assert_eq!(fault_of(planner.follow("version = 9", None)), fault(1005, "BadVersion", "version"));
    assert!(matches!(planner.clone().with_workers(65).plan("version = 1"), Err(Error::Misused(_))));
    assert!(matches!(planner.follow("version = 1", Some(Path::new("/dev/null"))), Err(Error::Misused(_))));
    assert!(matches!(planner.follow("version = 1", Some(Path::new("/no/such/journal"))), Err(Error::Failed { .. })));
    assert!(matches!(Planner::new("/no/such/program").plan(""), Err(Error::Io(_))));
    assert!(planner.version().unwrap().starts_with("ibcplan "));
}

#[test]
fn certificates_are_judged() {
    let Some(planner) = planner() else { return };
    let (script, certificate) = (example("smallest.toml"), example("smallest.certificate"));
    assert_eq!(planner.certify(&script, &certificate).unwrap(), Verdict::Yes);
    let labels = vec![vec![1, 1, 0], vec![2, 103, 1]];
    let wrong =
        table! { version: 1, turn: 1, client: "zone-on-hub", answer: "plan", updates: [(2, 1)], labels: labels };
    assert_eq!(planner.certify(&script, &wrong).unwrap(), Verdict::No("601 SourceLabel 1".to_owned()));
    assert_eq!(fault_of(planner.certify(&script, "version = 2")).0, 1005);
}

/// What a follower answers to the turns of an example, with faults between them.
fn answers(follower: &mut Follower) -> Vec<Turn> {
    let answer = |turn: &String| {
        assert_eq!(fault_of(follower.answer("from = 3")), fault(1004, "WrongType", "from"));
        assert!(matches!(follower.answer("# a\r\n---\r\n"), Err(Error::Misused(_))));
        follower.answer(turn).unwrap()
    };
    turns().iter().map(answer).collect()
}

#[test]
fn turns_are_answered_as_they_come() {
    let Some(planner) = planner() else { return };
    let mut follower = planner.follow(example("follow/setup.toml"), None).unwrap();
    let whole = answers(&mut follower);
    assert_eq!((whole.len(), follower.turns()), (4, 4));
    let mut by_workers = planner.clone().with_workers(2).follow(example("follow/setup.toml"), None).unwrap();
    assert_eq!(answers(&mut by_workers), whole);
    follower.stopper().stop().unwrap();
    assert!(matches!(follower.answer(""), Err(Error::Failed { status: None, .. })));
    assert!(matches!(follower.answer(""), Err(Error::Failed { .. })));
    assert!(matches!(follower.restart(), Err(Error::Misused(_))));
}

#[test]
fn many_faults_dont_stop_a_follower() {
    let Some(planner) = planner() else { return };
    let mut follower = planner.follow("version = 3", None).unwrap();
    for _ in 0..2000 {
        assert_eq!(fault_of(follower.answer("no turn")).0, 1001);
    }
    assert!(follower.said().contains("TOML parse error") && follower.said().len() <= 1 << 16);
}

#[test]
fn journals_are_gone_on_with() {
    let Some(planner) = planner() else { return };
    let (setup, journal) = (example("follow/setup.toml"), journal("gone_on"));
    let mut follower = planner.follow(&setup, Some(&journal)).unwrap();
    let whole = answers(&mut follower);
    assert!(
        matches!(planner.follow(&setup, Some(&journal)), Err(Error::Misused(said)) if said.contains("another process"))
    );
    assert_eq!(follower.restart().unwrap(), None);
    assert_eq!(follower.turns(), 4);
    drop(follower);
    let follower = planner.follow(&setup, Some(&journal)).unwrap();
    assert_eq!((follower.past(), follower.turns()), (&whole[..], 4));
    drop(follower);
    assert!(
        matches!(planner.follow("version = 1", Some(&journal)), Err(Error::Misused(said)) if said.contains("another setup"))
    );
    fs::remove_file(journal).unwrap();
}

#[test]
fn later_formats_are_refused() {
    let program = Path::new(env!("CARGO_MANIFEST_DIR")).join("../../later.sh");
    let follower = Planner::new(program).follow(example("follow/setup.toml"), None);
    assert!(matches!(follower, Err(Error::Unreadable(said)) if said.contains("format 5")));
}

#[test]
fn labels_can_be_left_out() {
    let Some(planner) = planner() else { return };
    let follow = |planner: Planner| answers(&mut planner.follow(example("follow/setup.toml"), None).unwrap());
    let (whole, bare) = (follow(planner.clone()), follow(planner.without_labels()));
    let plans = |turns: &[Turn]| turns.iter().flat_map(|turn| turn.clients.clone()).collect::<Vec<_>>();
    let unlabelled = plans(&whole).into_iter().map(|mut client| {
        if let Outcome::Plan(plan) = &mut client.outcome {
            assert!(!plan.labels.is_empty());
            plan.labels.clear();
        }
        client
    });
    assert_eq!(unlabelled.collect::<Vec<_>>(), plans(&bare));
}

/// Turns of a script without chains, told while another thread kills the process again and again.
#[test]
fn killed_followers_lose_and_double_no_turn() {
    let Some(planner) = planner() else { return };
    let journal = journal("killed");
    let mut follower = planner.follow("version = 3", Some(&journal)).unwrap();
    let turn = table! { from: "2025-03-01T12:00:00Z", until: "2025-03-01T12:00:00Z" };
    for round in 0..20 {
        let stopper = follower.stopper();
        let killer = thread::spawn(move || {
            thread::sleep(Duration::from_micros(137 * round));
            stopper.stop().unwrap();
        });
        for _ in 0..40 {
            follower.answer_or_restart(&turn).unwrap();
        }
        killer.join().unwrap();
    }
    follower.answer_or_restart(&turn).unwrap();
    assert_eq!(follower.turns(), 801);
    drop(follower);
    assert_eq!(fs::read_to_string(&journal).unwrap().matches("[[turn]]").count(), 801);
    assert_eq!(planner.follow("version = 3", Some(&journal)).unwrap().past().len(), 801);
    fs::remove_file(journal).unwrap();
}
