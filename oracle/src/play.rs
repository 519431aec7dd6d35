//! A script of events, one to a line, played on any image and memory.

use crate::event::{self, Event};
use crate::show::{answer_text, image_text, memory_text};
use crate::text::from_hex;

/// The events of a script. A line is `command` or `write` with one or more
/// bytes in hexadecimal, each an event of its own, or `read`, or `reset`;
/// what follows a `#` is a remark.
///
/// # Errors
/// Says which line is wrong, and why.
pub fn script(text: &str) -> Result<Vec<Event>, String> {
    let mut events = Vec::new();
    for (index, line) in text.lines().enumerate() {
        let said = line.split('#').next().unwrap_or("");
        let words: Vec<&str> = said.split_whitespace().collect();
        let found = line_events(&words).map_err(|why| format!("line {}: {why}", index + 1))?;
        events.extend(found);
    }
    Ok(events)
}

fn line_events(words: &[&str]) -> Result<Vec<Event>, String> {
    match words {
        [] => Ok(Vec::new()),
        ["read"] => Ok(vec![Event::Read]),
        ["reset"] => Ok(vec![Event::Reset]),
        ["command", digits @ ..] => bytes(digits, Event::Command),
        ["write", digits @ ..] => bytes(digits, Event::Write),
        ["read" | "reset", ..] => Err(format!("`{}` has no byte", words[0])),
        _ => Err(format!("no such event as `{}`", words[0])),
    }
}

fn bytes(words: &[&str], event: fn(u8) -> Event) -> Result<Vec<Event>, String> {
    if words.is_empty() {
        return Err("the byte is missing".to_string());
    }
    words
        .iter()
        .map(|digits| match from_hex(digits)?[..] {
            [byte] => Ok(event(byte)),
            _ => Err(format!(
                "`{digits}` is not a byte of two hexadecimal digits"
            )),
        })
        .collect()
}

/// Plays the events; one line for each answer, then the state and the
/// memory they leave.
#[must_use]
pub fn play(events: &[Event], state: &mut [u8], memory: &mut [u8]) -> String {
    let mut text = String::new();
    for &event in events {
        let answer = event::call(state, memory, event);
        text += &answer_text(answer);
        text.push('\n');
    }
    text + &image_text("state", state) + &memory_text("memory", memory)
}
