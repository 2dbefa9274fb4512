//! protoc, a process for a whole row of messages: they are the submessages of one `Many` (conf_state.proto).

use crate::message::{tag, varint, Answer, Message, LENGTH, NAMES};
use std::io::Write;
use std::process::{Command, Stdio};
use std::thread;

/// What it says of bytes that it does not take.
const REFUSED: &str = "Failed to parse input.";

/// What protoc prints, or what it says in the place of it.
fn run(words: &[&str], input: &[u8]) -> Result<Vec<u8>, String> {
    let folder = env!("CARGO_MANIFEST_DIR");
    let mut process = Command::new("protoc");
    process.args(["-I", folder]).args(words).arg("conf_state.proto");
    let pipes = process.stdin(Stdio::piped()).stdout(Stdio::piped()).stderr(Stdio::piped());
    let mut child = pipes.spawn().map_err(|error| format!("protoc does not start: {error}"))?;
    let mut stdin = child.stdin.take().expect("a pipe");
    let done = thread::scope(|scope| {
        // one that refuses may end before it has read everything
        scope.spawn(move || stdin.write_all(input));
        child.wait_with_output()
    });
    let done = done.map_err(|error| format!("protoc's output cannot be read: {error}"))?;
    match done.status.success() {
        true => Ok(done.stdout),
        false => Err(String::from_utf8_lossy(&done.stderr).trim().to_string()),
    }
}

pub fn version() -> Result<String, String> {
    let done = Command::new("protoc").arg("--version").output().map_err(|error| format!("protoc does not start: {error}"))?;
    Ok(String::from_utf8_lossy(&done.stdout).trim().to_string())
}

/// The bytes of each.
pub fn write(messages: &[Message]) -> Result<Vec<Vec<u8>>, String> {
    let text: String = messages.iter().map(|message| format!("one {{\n{}}}\n", text(message))).collect();
    let many = run(&["--encode=peers.Many"], text.as_bytes())?;
    let (mut rest, mut all) = (&many[..], vec![]);
    while let Some((one, behind)) = first(rest) {
        all.push(one.to_vec());
        rest = behind;
    }
    match rest.is_empty() && all.len() == messages.len() {
        true => Ok(all),
        false => Err(format!("protoc wrote {} of {} messages, and {} bytes more", all.len(), messages.len(), rest.len())),
    }
}

fn text(message: &Message) -> String {
    let mut text = String::new();
    for (ids, name) in message.lists.iter().zip(NAMES) {
        text.extend(ids.iter().map(|id| format!("{name}: {id}\n")));
    }
    if message.flag {
        text.push_str("auto_leave: true\n");
    }
    text
}

/// The first submessage of a `Many`, and what is behind it. Its length is below 2^28.
fn first(many: &[u8]) -> Option<(&[u8], &[u8])> {
    let rest = many.strip_prefix(&tag(1, LENGTH)[..])?;
    let last = rest.iter().take(4).position(|&byte| byte < 128)?;
    let length = rest[..=last].iter().rev().fold(0, |sum, &byte| sum << 7 | usize::from(byte & 127));
    rest[last + 1..].split_at_checked(length)
}

/// Messages that protoc takes, each of them.
pub fn read(encoded: &[Vec<u8>]) -> Result<Vec<Message>, String> {
    let mut many = vec![];
    for bytes in encoded {
        many.extend(tag(1, LENGTH));
        many.extend(varint(bytes.len() as u64, 1));
        many.extend(bytes);
    }
    let all = messages(&run(&["--decode=peers.Many"], &many)?, 1)?;
    match all.len() == encoded.len() {
        true => Ok(all),
        false => Err(format!("protoc read {} of {} messages", all.len(), encoded.len())),
    }
}

/// One message, which it may refuse. `Err` of the outer kind: protoc itself does not run.
pub fn read_one(bytes: &[u8]) -> Result<Answer, String> {
    match run(&["--decode=peers.ConfState"], bytes) {
        Ok(text) => Ok(Ok(messages(&text, 0)?.pop().unwrap_or_default())),
        Err(said) if said == REFUSED => Ok(Err("refused".to_string())),
        Err(said) => Err(said),
    }
}

/// Reads protoc's text: the messages' own fields stand so many braces deep; unknown fields have numbers in the place of names,
/// and may have braces of their own.
fn messages(text: &[u8], depth: usize) -> Result<Vec<Message>, String> {
    let text = std::str::from_utf8(text).map_err(|_| "protoc prints no text".to_string())?;
    let (mut all, mut deep) = (vec![], 0);
    if depth == 0 {
        all.push(Message::default());
    }
    for line in text.lines().map(str::trim) {
        match line.split_once(": ") {
            None if line.ends_with('{') => {
                if deep + 1 == depth {
                    all.push(Message::default());
                }
                deep += 1;
            }
            None if line == "}" => deep -= 1,
            Some((name, value)) if deep == depth => {
                let message = all.last_mut().ok_or("protoc's text begins within a message")?;
                field(message, name, value).ok_or_else(|| format!("protoc prints {line:?}"))?;
            }
            _ => (),
        }
    }
    Ok(all)
}

fn field(message: &mut Message, name: &str, value: &str) -> Option<()> {
    match NAMES.iter().position(|known| *known == name) {
        Some(list) => message.lists[list].push(value.parse().ok()?),
        None if name == "auto_leave" => message.flag = value.parse().ok()?,
        None => {
            name.parse::<u32>().ok()?;
        }
    }
    Some(())
}
