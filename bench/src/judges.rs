//! The judges that are compared, each from the bytes of a table to the text of its answer.

use crate::native::{Native, Object};
use crate::plain;
use crate::tuned::Tuned;
use std::io::Write;
use std::process::{Command, Stdio};

/// More bytes than any answer has and any judge asks for.
const ROOM: usize = 8192;

/// Takes a table, and writes the answer's text at the front of the room.
type WriteAnswer = dyn FnMut(&[u8], &mut [u8]);

pub struct Judge {
    pub name: String,
    write_answer: Box<WriteAnswer>,
    room: Vec<u8>,
}

impl Judge {
    fn new(name: &str, write_answer: impl FnMut(&[u8], &mut [u8]) + 'static) -> Judge {
        Judge { name: name.to_string(), write_answer: Box::new(write_answer), room: vec![0; ROOM] }
    }

    /// Writes one answer into room that is kept and not cleared.
    pub fn answer(&mut self, table: &[u8]) {
        (self.write_answer)(table, &mut self.room);
    }

    /// One answer's text: what stands before the first zero byte in room that was cleared.
    pub fn text(&mut self, table: &[u8]) -> String {
        self.room.fill(0);
        self.answer(table);
        let text = self.room.split(|&byte| byte == 0).next().unwrap_or_default();
        String::from_utf8_lossy(text).into_owned()
    }
}

/// Every judge: those in objects and programs, each named by a word as `proved=judge.so`, then plain, tuned, and last the second judge.
pub fn all(objects: &[String]) -> Result<Vec<Judge>, String> {
    let mut list: Vec<Judge> = objects.iter().map(|word| in_object(word)).collect::<Result<_, _>>()?;
    list.extend([plain(), tuned(), nested()]);
    Ok(list)
}

/// The judge that a word names: `plain`, `tuned`, `nested`, or one in an object.
pub fn named(word: &str) -> Result<Judge, String> {
    match word {
        "plain" => Ok(plain()),
        "tuned" => Ok(tuned()),
        "nested" => Ok(nested()),
        _ => in_object(word),
    }
}

fn in_object(word: &str) -> Result<Judge, String> {
    let (name, path) = word.split_once('=').ok_or(format!("{word}: not NAME=OBJECT"))?;
    if !path.ends_with(".so") {
        return Ok(in_program(name, path));
    }
    let native = Native::of(&Object::load(path)?)?;
    Ok(Judge::new(name, move |table, out| native.write_answer(table, out)))
}

/// A judge that is a program: a table on its standard input, started once for each.
fn in_program(name: &str, path: &str) -> Judge {
    let path = path.to_string();
    Judge::new(name, move |table, out| copy(&answer_of(&path, table), out))
}

fn answer_of(path: &str, table: &[u8]) -> String {
    let started = Command::new(path).stdin(Stdio::piped()).stdout(Stdio::piped()).spawn();
    let mut program = started.unwrap_or_else(|why| panic!("{path}: {why}"));
    // A program that has read enough may have ended: what it answers counts.
    let _ = program.stdin.take().expect("its input is piped").write_all(table);
    let answered = program.wait_with_output().unwrap_or_else(|why| panic!("{path}: {why}"));
    String::from_utf8_lossy(&answered.stdout).into_owned()
}

fn plain() -> Judge {
    Judge::new("plain", |table, out| copy(&plain::judge(table), out))
}

fn tuned() -> Judge {
    let mut judge = Tuned::default();
    Judge::new("tuned", move |table, out| {
        judge.write_answer(table, out);
    })
}

/// The second judge, whose matrices are lists of lists.
fn nested() -> Judge {
    Judge::new("nested", |table, out| copy(&second::text::judge(table, usize::MAX), out))
}

fn copy(text: &str, out: &mut [u8]) {
    out[..text.len()].copy_from_slice(text.as_bytes());
}
