//! The specification's table A under two orders: what each leads to, and that they are one run.
//!
//! ```text
//! cargo run --example orders
//! ```

use order_engine::{PAGE_ROOM, REPORT_ROOM, Reason, Refusal, SCHEDULE_MOST, StepName};
use order_engine::{draw, page, pair, prefix, ready, remainder, route, route_room, run, same};
use tables::TABLE_A;

fn main() -> Result<(), Refusal> {
    let (one, other) = ([0, 0, 1, 1], [1, 0, 0, 1]);
    for schedule in [one, other] {
        let mut buffer = [0; REPORT_ROOM];
        let report = run(&TABLE_A, &schedule, &mut buffer)?;
        let received = report.actors().nth(1).map(|actor| actor.cells[2]);
        let ending = ready(&TABLE_A, &schedule)?.ending;
        println!("{schedule:?}: {ending:?}, actor 1 received {received:?}");
    }

    // Who may go on after actor 1's first step, and what waits in the mailbox then.
    let open: Vec<u8> = ready(&TABLE_A, &[1])?.actors().collect();
    let mut buffer = [0; REPORT_ROOM];
    let report = run(&TABLE_A, &[1], &mut buffer)?;
    println!("after [1] ready: {open:?}");
    for mailbox in report.mailboxes() {
        for step in mailbox.steps() {
            println!("mailbox {}: {step} waits", mailbox.number());
        }
    }
    print!("{}", page(&TABLE_A, &[1], &mut [0; PAGE_ROOM])?);

    // The Send against the Receive, and against the Wait for it.
    let [send, receive, wait] = [(0, 1), (1, 0), (1, 1)].map(StepName::from);
    println!("{send} and {receive}: {:?}", pair(&TABLE_A, send, receive)?);
    println!("{send} and {wait}: {:?}", pair(&TABLE_A, send, wait)?);

    if same(&TABLE_A, &one, &other)?.is_same() {
        let mut buffer = [0; route_room(4)];
        let route = route(&TABLE_A, &one, &other, &mut buffer)?;
        println!("one run: exchanges at {route:?}");
    }

    // Two recordings, one of which ends earlier.
    if prefix(&TABLE_A, &one, &other[..3])?.is_same() {
        let left = remainder(&one, &other[..3]);
        println!("one run as far as both go; left over: {left:?}");
    }

    // Orders that seeds determine.
    for seed in [0, 2] {
        let mut buffer = [0; SCHEDULE_MOST];
        println!("seed {seed}: {:?}", draw(&TABLE_A, seed, &mut buffer)?);
    }

    // Orders that cannot happen.
    for schedule in [&[1, 1][..], &[2]] {
        match ready(&TABLE_A, schedule).map_err(|refusal| refusal.reason()) {
            Ok(_) => println!("{schedule:?} is accepted"),
            Err(Reason::NotReady) => println!("{schedule:?} comes too early"),
            Err(other) => println!("{schedule:?}: {}", other.sentence()),
        }
    }
    Ok(())
}
