//! The table of states as a program's answers show it, in the form that
//! docs/SESSION.md has.

use super::cases::{Answers, Turned};
use super::script::{call_of, made_on, way_to};
use super::Words;
use crate::answers::Answer;

const NAMES: [&str; 5] = ["new", "waiting", "active", "leaving", "over"];
const EVENTS: [&str; 7] = ["begin", "time", "leave", "ask", "logon", "logout", "other"];

/// The session that the calls of a script's `in STATE` leave.
fn session(answers: &impl Answers, state: &str) -> Words {
    let mut words = answers.open();
    for line in way_to(state).expect("a state") {
        let call = call_of(line).expect("a call");
        let answer = made_on(answers, &mut words, call);
        answer.expect("the way is not refused");
    }
    words
}

/// What is told of one call: a number; or what is sent and where it leads.
fn cell(before: &Words, after: &Words, answer: Answer<Turned>) -> String {
    let turned = match answer {
        Ok(turned) => turned,
        Err(number) => return number.to_string(),
    };
    let mut parts = Vec::new();
    if let Some((kind, _)) = turned.send {
        parts.push(format!("send {}", String::from_utf8_lossy(&kind)));
    }
    if after[0] != before[0] {
        parts.push(NAMES[after[0] as usize].to_string());
    } else if after[2] != before[2] {
        parts.push("taken".to_string());
    }
    if after[6] != before[6] {
        parts.push("interval agreed".to_string());
    }
    parts.join(", ")
}

/// The cell of a call at a time.
fn at(answers: &impl Answers, state: &str, event: &str, now: u64) -> String {
    let before = session(answers, state);
    let seq = before[2];
    let line = match event {
        "logon" => format!("receive {now} S001 {seq} 30"),
        "logout" => format!("receive {now} S002 {seq}"),
        "other" => format!("receive {now} S003 {seq}"),
        _ => format!("{event} {now}"),
    };
    let mut after = before;
    let answer = made_on(answers, &mut after, call_of(&line).expect("a call"));
    cell(&before, &after, answer)
}

/// The cell of an event: shortly after the state was reached, and for `time` also
/// where the line is dead and where a heartbeat is due.
fn shown(answers: &impl Answers, state: &str, event: &str) -> String {
    let soon = at(answers, state, event, 3_000);
    if event != "time" {
        return soon;
    }
    let late = [("dead", 62_001), ("due", 62_000)].map(|(name, now)| {
        let cell = at(answers, state, event, now);
        (cell != soon).then(|| format!("{name}: {cell}"))
    });
    let late: Vec<String> = late.into_iter().flatten().collect();
    [soon, late.join("; ")].concat()
}

fn row(cells: &[String]) -> String {
    let cells: Vec<String> = cells.iter().map(|c| format!(" {c} ")).collect();
    format!("|{}|\n", cells.join("|")).replace("|  |", "| |")
}

/// The table, line by line, as the answers show it.
pub fn table(answers: &impl Answers) -> String {
    let head: Vec<String> = ["state"]
        .iter()
        .chain(&EVENTS)
        .map(|e| e.to_string())
        .collect();
    let mut text = row(&head);
    text += &format!("|{}\n", "---|".repeat(head.len()));
    for state in NAMES {
        let mut cells = vec![state.to_string()];
        cells.extend(EVENTS.map(|event| shown(answers, state, event)));
        text += &row(&cells);
    }
    text
}
