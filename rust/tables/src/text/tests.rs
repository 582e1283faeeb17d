//! The text form: there and back, and every sort of mistake with its place.

use super::{Mistake, Place, build, show, show_action};
use crate::action::{lone, mutex_wait, send, set, two, valued, wait_any};
use crate::{Kind, Layout, Rest, TABLE_A, action};

/// The text of table A.
const TEXT_A: &str = "\
actors 2
mailboxes 1
mutexes 0

actor 0
0: set 0 149
1: send 0 0

actor 1
0: receive 0 2
1: wait 3 [0]
";

/// The table of one actor with these lines.
fn script(lines: &str) -> Result<Vec<action::Action>, Mistake> {
    let text = format!("actors 1\nmailboxes 1\nmutexes 1\nactor 0\n{lines}");
    let built = build(&text)?;
    Ok(built.layout.scripts[0].clone())
}

/// The mistake of a text, shown.
fn mistake(text: &str) -> String {
    build(text).unwrap_err().to_string()
}

/// The mistake of one actor's first line, which is line 5.
fn wrong(line: &str) -> String {
    let mistake = script(line).unwrap_err();
    assert_eq!(mistake.line, 5);
    format!("{}: {}", mistake.column, mistake.words)
}

#[test]
fn table_a() {
    let layout = Layout::of(&TABLE_A).unwrap();
    assert_eq!(show(&layout), TEXT_A);
    let built = build(TEXT_A).unwrap();
    assert_eq!(built.layout, layout);
    assert_eq!(built.layout.bytes(), TABLE_A);
    let places = |places: &[Place]| places.iter().map(Place::to_string).collect::<Vec<_>>();
    assert_eq!(places(&built.counts), ["1:8", "2:11", "3:9"]);
    assert_eq!(places(&built.actors), ["5:1", "9:1"]);
    assert_eq!(places(&built.actions[0]), ["6:4", "7:4"]);
    assert_eq!(places(&built.actions[1]), ["10:4", "11:4"]);
}

#[test]
fn every_kind_there_and_back() {
    for kind in Kind::ALL {
        let actions = match kind.rest() {
            Rest::Nothing => vec![lone(kind, 0), lone(kind, 255)],
            Rest::Value => vec![valued(kind, 7, 0), valued(kind, 255, u32::MAX)],
            Rest::Cell => vec![two(kind, 1, 2), two(kind, 255, 255)],
            Rest::Communications | Rest::Mutexes => (1..=4)
                .map(|length| action::listing(kind, 9, &[255, 0, 8, 1][..length]))
                .collect(),
        };
        for action in actions {
            let line = show_action(&action).unwrap();
            assert!(line.starts_with(kind.word()), "{line}");
            assert_eq!(script(&line), Ok(vec![action]), "{line}");
        }
    }
}

#[test]
fn free_forms() {
    let lines = "\n# a price\n  0 : set 0 0x95 # now\n\nsend 0 0x0\r\n2:wait 1[0,1 , 2]\n\tmutex-wait 0 [ 0 ]";
    let actions = vec![
        set(0, 149),
        send(0, 0),
        wait_any(1, &[0, 1, 2]),
        mutex_wait(0, &[0]),
    ];
    assert_eq!(script(lines), Ok(actions));
}

#[test]
fn what_the_engine_refuses_is_no_mistake() {
    let built = build("actors 1\nmailboxes 9\nmutexes 255\nactor 0\nsend 200 99").unwrap();
    assert_eq!(built.layout, Layout::new(9, 255, &[&[send(200, 99)]]));
    assert_eq!(
        build("actors 0\nmailboxes 0\nmutexes 0").unwrap().layout,
        Layout::default()
    );
}

#[test]
fn an_unknown_kind_cannot_be_shown() {
    let layout = Layout::new(0, 0, &[&[[255, 0, 0, 0, 149, 0, 0, 0]]]);
    assert_eq!(show_action(&layout.scripts[0][0]), None);
    let text = show(&layout);
    assert!(text.ends_with("0: ? 255 0 0 0 149 0 0 0\n"), "{text}");
    assert!(mistake(&text).starts_with("6:4: expected a kind of action"));
}

#[test]
fn mistakes_of_the_counts() {
    let ends = "expected `actors` and a number, the text ends here";
    assert_eq!(mistake(""), format!("1:1: {ends}"));
    assert_eq!(mistake("# nothing\n"), format!("2:1: {ends}"));
    assert_eq!(
        mistake("mailboxes 1"),
        "1:1: expected `actors`, found `mailboxes`"
    );
    assert_eq!(
        mistake("actors"),
        "1:7: expected the number of actors, the line ends here"
    );
    assert_eq!(
        mistake("actors two"),
        "1:8: expected the number of actors, found `two`"
    );
    assert_eq!(
        mistake("actors 1 2"),
        "1:10: expected the line's end, found `2`"
    );
    assert_eq!(
        mistake("actors 1\n mailboxes 256"),
        "2:12: `256` is too large for the number of mailboxes: at most 255"
    );
    assert_eq!(
        mistake("actors 1\nmailboxes 1\n"),
        "3:1: expected `mutexes` and a number, the text ends here"
    );
}

#[test]
fn mistakes_of_the_actors() {
    let counts = |actors| format!("actors {actors}\nmailboxes 0\nmutexes 0\n");
    let with = |actors, rest: &str| mistake(&(counts(actors) + rest));
    assert_eq!(with(1, "lock 0"), "4:1: expected `actor 0`, found `lock`");
    assert_eq!(
        with(1, "actor"),
        "4:6: expected the actor's number, the line ends here"
    );
    assert_eq!(
        with(2, "actor 1"),
        "4:7: expected the actor's number in turn, 0, found `1`"
    );
    assert_eq!(
        with(1, "actor 0 0"),
        "4:9: expected the line's end, found `0`"
    );
    assert_eq!(
        with(1, "actor 0\nactor 1\n"),
        "5:7: one actor too many: `actors` says 1"
    );
    assert_eq!(
        with(2, "actor 0\nlock 0\n"),
        "6:1: expected `actor 1`, the text ends here (`actors` says 2)"
    );
}

#[test]
fn mistakes_of_an_action() {
    let words = Kind::ALL.map(Kind::word).join(", ");
    let kind = format!("expected a kind of action ({words})");
    assert_eq!(wrong("sned 0 0"), format!("1: {kind}, found `sned`"));
    assert_eq!(wrong("0:"), format!("3: {kind}, the line ends here"));
    assert_eq!(wrong("Set 0 1"), format!("1: {kind}, found `Set`"));
    assert_eq!(
        wrong("1: lock 0"),
        "1: expected the action's number in turn, 0, found `1`"
    );
    assert_eq!(
        wrong("4294967296: lock 0"),
        "1: expected the action's number in turn, 0, found `4294967296`"
    );
    assert_eq!(wrong("0 lock 0"), "3: expected `:`, found `lock`");
    assert_eq!(
        wrong("lock"),
        "5: expected a mutex's number, the line ends here"
    );
    assert_eq!(
        wrong("send x 0"),
        "6: expected a mailbox's number, found `x`"
    );
    assert_eq!(
        wrong("send 0 [0]"),
        "8: expected a cell's number, found `[`"
    );
    assert_eq!(
        wrong("add 0 256"),
        "7: `256` is too large for a cell's number: at most 255"
    );
    assert_eq!(
        wrong("set 0 4294967296"),
        "7: `4294967296` is too large for a value: at most 4294967295"
    );
    assert_eq!(wrong("set 0 -1"), "7: expected a value, found `-1`");
    assert_eq!(
        wrong("lock 0 0 # twice"),
        "8: expected the line's end, found `0`"
    );
}

#[test]
fn mistakes_of_a_list() {
    assert_eq!(wrong("wait 0 0"), "8: expected `[`, found `0`");
    assert_eq!(wrong("wait 0"), "7: expected `[`, the line ends here");
    assert_eq!(
        wrong("wait 0 []"),
        "9: expected 1 to 4 numbers in the list, found `]`"
    );
    assert_eq!(
        wrong("test 0 [0 1 2 3 4]"),
        "17: a list has at most 4 numbers, this is one more"
    );
    assert_eq!(
        wrong("test 0 [0, 1"),
        "13: expected `]`, the line ends here"
    );
    assert_eq!(
        wrong("test 0 [0,"),
        "11: expected an action's number, the line ends here"
    );
    assert_eq!(
        wrong("test 0 [0,,1]"),
        "11: expected an action's number, found `,`"
    );
    assert_eq!(
        wrong("test 0 [0, ]"),
        "12: expected an action's number, found `]`"
    );
    assert_eq!(
        wrong("mutex-test 0 [,]"),
        "15: expected a mutex's number, found `,`"
    );
    assert_eq!(
        wrong("mutex-wait 0 [0x100]"),
        "15: `0x100` is too large for a mutex's number: at most 255"
    );
    assert_eq!(
        wrong("wait 0 [0] 1"),
        "12: expected the line's end, found `1`"
    );
}

#[test]
fn as_many_actions_as_a_directory_counts() {
    let most = "lock 0\n".repeat(65_535);
    assert_eq!(script(&most).unwrap().len(), 65_535);
    let mistake = script(&(most + "lock 0\n")).unwrap_err();
    let words = "65540:1: an actor has at most 65535 actions, this is one more";
    assert_eq!(mistake.to_string(), words);
}
