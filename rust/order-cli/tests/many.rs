//! Over many tables: the text form gives the same bytes, what the command says of a pair of steps is
//! what the engine's verdict is, different schedules are told apart, and so are different states; an
//! actor stands as the engine's page says.

use compare::inputs::rng::Rng;
use compare::inputs::sample::{Sample, Shape};
use compare::inputs::totals;
use order_cli::difference::{Pairs, difference};
use order_cli::names::names;
use order_cli::rule::rule;
use order_cli::state::{State, Status};
use order_cli::table::Table;
use order_engine::{PAGE_ROOM, PairVerdict, REPORT_ROOM, StepName};
use order_engine::{check, page, pair, ready, same};
use std::collections::{HashMap, HashSet};
use tables::action::{kind, list};
use tables::layout::MOST_ACTIONS;
use tables::text::{build, show};
use tables::{Kind, Layout, Rest};

/// An accepted table of any shape, all kinds equally often.
fn layout(rng: &mut Rng) -> Layout {
    let shape = Shape::any(rng);
    let bytes = Sample::new(rng, shape).bytes;
    Layout::of(&bytes).expect("a table comes apart")
}

/// What a table has that the tests want to have met.
fn traits(layout: &Layout) -> HashSet<String> {
    let mut met = HashSet::from([
        format!("{} actors", layout.scripts.len()),
        format!("{} mailboxes", layout.mailboxes),
        format!("{} mutexes", layout.mutexes),
    ]);
    for script in &layout.scripts {
        met.insert(format!("{} actions", script.len()));
        for action in script {
            let name = kind(action).expect("a kind").name();
            met.insert(format!("{name} {}", list(action).len()));
        }
    }
    met
}

/// All traits that there are.
fn wanted() -> HashSet<String> {
    let actors = (1..=8).map(|n| format!("{n} actors"));
    let mailboxes = (0..=8).map(|n| format!("{n} mailboxes"));
    let mutexes = (0..=8).map(|n| format!("{n} mutexes"));
    let actions = (0..=MOST_ACTIONS).map(|n| format!("{n} actions"));
    let kinds = Kind::ALL.into_iter().flat_map(|kind| {
        let lengths = match kind.rest() {
            Rest::Nothing | Rest::Value | Rest::Cell => 0..=0,
            Rest::Communications | Rest::Mutexes => 1..=4,
        };
        lengths.map(move |length| format!("{} {length}", kind.name()))
    });
    let counts = actors.chain(mailboxes).chain(mutexes).chain(actions);
    counts.chain(kinds).collect()
}

#[test]
fn shown_and_built_again() {
    let mut rng = Rng::new(1);
    let mut met = HashSet::new();
    for _ in 0..4_000 {
        let layout = layout(&mut rng);
        let bytes = layout.bytes();
        assert_eq!(check(&bytes), Ok(()), "{layout:?}");
        let text = show(&layout);
        let built = build(&text).unwrap_or_else(|mistake| panic!("{mistake}\n{text}"));
        assert_eq!(built.layout.bytes(), bytes, "{text}");
        met.extend(traits(&layout));
    }
    let missing: Vec<String> = wanted().difference(&met).cloned().collect();
    assert!(missing.is_empty(), "not met: {missing:?}");
}

/// All steps of a table.
fn steps(layout: &Layout) -> Vec<StepName> {
    let scripts = layout.scripts.iter().zip(0..);
    let steps = scripts.flat_map(|(script, actor)| {
        let numbered = script.iter().zip(0..);
        numbered.map(move |(_, action)| StepName::new(actor, action))
    });
    steps.collect()
}

#[test]
fn a_rule_exactly_where_the_engine_says_dependent() {
    let mut rng = Rng::new(2);
    let mut met = HashSet::new();
    for _ in 0..200 {
        let layout = layout(&mut rng);
        let (bytes, steps) = (layout.bytes(), steps(&layout));
        if steps.is_empty() {
            continue;
        }
        for _ in 0..200 {
            let (one, other) = (rng.pick(&steps), rng.pick(&steps));
            let said = rule(&layout, one, other);
            let verdict = pair(&bytes, one, other).expect("steps of the table");
            let dependent = verdict == PairVerdict::Dependent;
            assert_eq!(said.is_some(), dependent, "{one} {other} of {layout:?}");
            met.insert(said.map_or_else(String::new, |words| words.chars().take(6).collect()));
        }
    }
    let wanted = [
        "", "a step", "two st", "case 1", "case 2", "case 3", "case 4", "case 5",
    ];
    assert_eq!(met, HashSet::from(wanted.map(str::to_owned)));
}

/// A schedule of at most `most` entries, each of an actor that is ready.
fn walk(rng: &mut Rng, table: &[u8], most: usize) -> Vec<u8> {
    let mut schedule = Vec::new();
    while schedule.len() < most {
        let ready = ready(table, &schedule).expect("each was ready");
        let actors: Vec<u8> = ready.actors().collect();
        if actors.is_empty() {
            break;
        }
        schedule.push(rng.pick(&actors));
    }
    schedule
}

/// How many dependent pairs of steps two schedules run in opposite orders.
fn opposed(table: &Table, first: &[StepName], second: &[StepName]) -> usize {
    let place = |names: &[StepName], name| names.iter().position(|&one| one == name);
    let common: Vec<StepName> = first
        .iter()
        .copied()
        .filter(|&name| place(second, name).is_some())
        .collect();
    let mut count = 0;
    for (index, &one) in common.iter().enumerate() {
        for &other in &common[index + 1..] {
            let dependent = pair(&table.bytes, other, one) == Ok(PairVerdict::Dependent);
            count += usize::from(dependent && place(second, other) < place(second, one));
        }
    }
    count
}

#[test]
fn different_schedules_are_told_apart() {
    let mut rng = Rng::new(3);
    let (mut met, mut several) = ([0; 3], 0);
    for _ in 0..2_000 {
        let table = Table::of(&layout(&mut rng).bytes()).expect("an accepted table");
        let [first, second] = [20, 20].map(|most| walk(&mut rng, &table.bytes, most));
        let answer = same(&table.bytes, &first, &second).expect("both are accepted");
        let told = difference(&table, &first, &second, &answer, Pairs::All);
        let [one, other] = [&first, &second].map(|schedule| {
            let names = names(&table.bytes, schedule);
            assert!(names.iter().map(|name| &name.actor).eq(schedule));
            names
        });
        let pairs = opposed(&table, &one, &other);
        assert_eq!(told.matches(", case ").count(), pairs, "{told}");
        several += usize::from(pairs > 1);
        let [one, other] = [one, other].map(HashSet::<StepName>::from_iter);
        if let Some([earlier, later]) = answer.opposed {
            let begin = told.lines().next().unwrap_or_default();
            assert!(begin.starts_with(&format!("{earlier} ")), "{told}");
            assert!(begin.contains(&format!(" and {later} ")), "{told}");
        }
        if answer.is_same() {
            assert_eq!(told, "");
            met[0] += 1;
        } else if one == other {
            assert!(told.contains("run in opposite orders"), "{told}");
            met[1] += 1;
        } else {
            assert!(told.contains("Only the "), "{told}");
            met[2] += 1;
        }
        assert_eq!(told.contains("The first has"), first.len() != second.len());
    }
    assert!(met.iter().all(|&times| times > 100), "{met:?}");
    assert!(several > 100, "{several}");
}

#[test]
fn different_states_have_different_words() {
    let mut rng = Rng::new(4);
    let (mut alike, mut by_pairs) = (0, 0);
    for _ in 0..300 {
        let table = Table::of(&layout(&mut rng).bytes()).expect("an accepted table");
        let mut reports = HashMap::new();
        let mut others = HashMap::new();
        for _ in 0..20 {
            let schedule = walk(&mut rng, &table.bytes, 256);
            let mut buffer = [0; REPORT_ROOM];
            let state = State::after(&table, &schedule, &mut buffer).expect("an accepted one");
            let (words, report) = (state.words(), state.report.bytes().to_vec());
            let lines = words.lines().filter(|line| !line.contains("Receive met"));
            let without = others.entry(lines.collect::<String>());
            by_pairs += usize::from(*without.or_insert_with(|| report.clone()) != report);
            alike += usize::from(reports.contains_key(&words));
            assert_eq!(
                *reports.entry(words).or_insert_with(|| report.clone()),
                report
            );
        }
    }
    assert!(alike > 100 && by_pairs > 0, "{alike} {by_pairs}");
}

#[test]
fn an_actor_stands_as_the_page_says() {
    let mut rng = Rng::new(5);
    let mut met: HashMap<&str, usize> = HashMap::new();
    for _ in 0..1_000 {
        let shape = Shape::any(&mut rng);
        let sample = totals::table(&mut rng, shape);
        let table = Table::of(&sample.bytes).expect("an accepted table");
        let most = rng.below(100);
        let schedule = walk(&mut rng, &table.bytes, most);
        let (mut buffer, mut laid) = ([0; REPORT_ROOM], [0; PAGE_ROOM]);
        let state = State::after(&table, &schedule, &mut buffer).expect("an accepted one");
        let page = page(&table.bytes, &schedule, &mut laid).expect("an accepted one");
        assert_eq!(state.report.actors().count(), page.lines().count());
        for (actor, line) in state.report.actors().zip(page.lines()) {
            let word = match state.status(&actor) {
                Status::Finished => "finished",
                Status::Ready(_) => "ready",
                Status::Waits(..) => "waits",
                Status::Over(..) => "over",
            };
            assert_eq!(line[5..13].trim_end(), word, "{page}");
            *met.entry(word).or_default() += 1;
        }
    }
    assert_eq!(met.len(), 4);
    assert!(met.values().all(|&times| times > 100), "{met:?}");
}
