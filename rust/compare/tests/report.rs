//! The wrapper's view of a report against the reference's state, on many runs.

use compare::inputs::rng::Rng;
use compare::inputs::steps::Steps;
use order_engine::report::Stage;
use order_engine::{REPORT_ROOM, Report, StepName};
use reference::communication::{self, Communication};
use reference::{Name, Schedule, Site, Table, check, follow};

#[test]
fn a_view_shows_the_state() {
    let mut rng = Rng::new(3);
    let mut met = Met::default();
    for _ in 0..4_000 {
        let Steps { table, schedule } = Steps::any(&mut rng);
        let mut buffer = [7; REPORT_ROOM];
        let Ok(report) = order_engine::run(&table, &schedule, &mut buffer) else {
            continue;
        };
        let table = check(&table).expect("the run was accepted");
        let mut site = Site::fresh();
        follow(&table, Schedule::First, &schedule, &mut site, |_, _| {}).expect("likewise");
        actors(&report, &table, &site);
        communications(&report, &table, &site, &mut met);
        queues(&report, &table, &site, &mut met);
        journal(&report, &site, &mut met);
    }
    assert!(met.pending > 1_000 && met.done > 1_000 && met.queued > 1_000 && met.owned > 1_000);
    assert!(met.noted > 1_000 && met.deeper > 1_000);
}

/// How many were seen that are not empty.
#[derive(Default)]
struct Met {
    pending: usize,
    done: usize,
    queued: usize,
    owned: usize,
    deeper: usize,
    noted: usize,
}

fn step(name: Name) -> StepName {
    let [actor, action] = name.bytes();
    StepName::new(actor, action)
}

fn actors(report: &Report, table: &Table, site: &Site) {
    assert_eq!(report.actors().count(), table.actors());
    for actor in report.actors() {
        let record = site.actor(usize::from(actor.number));
        assert_eq!(usize::from(actor.position), record.position);
        assert_eq!(actor.cells, record.cells);
    }
}

fn communications(report: &Report, table: &Table, site: &Site, met: &mut Met) {
    let mut views = report.communications();
    for actor in 0..table.actors() {
        let own = site.communications(actor, table.actions(actor));
        for (action, communication) in own.iter().enumerate() {
            let view = views.next().expect("one for each action");
            assert_eq!(view.step, step(Name::new(actor, action)));
            assert_eq!(view.stage, stage(communication, met));
        }
    }
    assert_eq!(views.next(), None);
}

fn stage(communication: &Communication, met: &mut Met) -> Stage {
    let value = communication.value;
    match communication.stage {
        communication::Stage::Unposted => Stage::Unposted,
        communication::Stage::Pending => {
            met.pending += 1;
            Stage::Pending { value }
        }
        communication::Stage::Done => {
            met.done += 1;
            let partner = step(communication.partner);
            Stage::Done { partner, value }
        }
    }
}

fn queues(report: &Report, table: &Table, site: &Site, met: &mut Met) {
    assert_eq!(report.mailboxes().count(), table.mailboxes());
    for mailbox in report.mailboxes() {
        let queue = site.mailbox(usize::from(mailbox.number()));
        assert!(mailbox.steps().eq(queue.iter().map(|&name| step(name))));
        met.queued += mailbox.steps().len();
    }
    assert_eq!(report.mutexes().count(), table.mutexes());
    for mutex in report.mutexes() {
        let queue = site.mutex(usize::from(mutex.number()));
        let expected: Vec<(u8, u8)> = queue.map(|queued| (queued.actor, queued.depth)).collect();
        let shown = mutex.queue().map(|queued| (queued.actor, queued.depth));
        assert!(shown.eq(expected.iter().copied()));
        assert_eq!(mutex.owner(), mutex.queue().next());
        met.owned += usize::from(mutex.owner().is_some());
        met.deeper += expected.iter().filter(|&&(_, depth)| depth > 1).count();
    }
}

fn journal(report: &Report, site: &Site, met: &mut Met) {
    let entries = report.journal().entries();
    met.noted += entries.len();
    let entries = entries.map(|entry| (entry.step, entry.value));
    let written = site.journal();
    assert!(entries.eq(written.map(|entry| (step(entry.step), entry.value))));
}
