//! The planner under comparison, run as a program or called as a function.

use std::io::{Read, Write};
use std::process::{Command, Stdio};

/// A planner program reads no more than this of its input.
pub const READ_BY_PROGRAM: usize = 65_536;

pub enum Planner {
    Command(String),
    #[cfg(feature = "linked")]
    Linked,
}

impl Planner {
    /// "linked" means the linked function, any other name a program's path.
    pub fn named(name: &str) -> Result<Planner, String> {
        if name != "linked" {
            return Ok(Planner::Command(name.to_string()));
        }
        linked_planner()
    }

    /// The part of a file that counts for this planner.
    pub fn seen<'a>(&self, file: &'a [u8]) -> &'a [u8] {
        match self {
            Planner::Command(_) => seen_by_program(file),
            #[cfg(feature = "linked")]
            Planner::Linked => file,
        }
    }

    /// What the planner prints for a file.
    pub fn text(&self, file: &[u8]) -> Result<Vec<u8>, String> {
        match self {
            Planner::Command(path) => run_program(path, file),
            #[cfg(feature = "linked")]
            Planner::Linked => linked::text(file),
        }
    }
}

pub fn seen_by_program(file: &[u8]) -> &[u8] {
    &file[..file.len().min(READ_BY_PROGRAM)]
}

#[cfg(feature = "linked")]
fn linked_planner() -> Result<Planner, String> {
    Ok(Planner::Linked)
}

#[cfg(not(feature = "linked"))]
fn linked_planner() -> Result<Planner, String> {
    Err("built without the linked planner".to_string())
}

fn run_program(path: &str, file: &[u8]) -> Result<Vec<u8>, String> {
    let mut child = Command::new(path)
        .stdin(Stdio::piped())
        .stdout(Stdio::piped())
        .stderr(Stdio::null())
        .spawn()
        .map_err(|error| format!("{path} does not start: {error}"))?;
    let mut input = child.stdin.take().expect("a piped input");
    let mut output = child.stdout.take().expect("a piped output");
    let mut text = Vec::new();
    let read = std::thread::scope(|scope| {
        // The program may stop reading early, so a failed write is no fault.
        scope.spawn(move || input.write_all(file).is_ok());
        output.read_to_end(&mut text)
    });
    read.map_err(|error| format!("{path}: output cannot be read: {error}"))?;
    let status = child.wait().map_err(|error| format!("{path}: {error}"))?;
    if status.code().is_none() {
        return Err(format!("{path} was ended by a signal"));
    }
    Ok(text)
}

#[cfg(feature = "linked")]
mod linked {
    use crate::plant::Decline;

    /// The shortest buffer that is accepted.
    const BUFFER: usize = 16_384;
    const UNTOUCHED: u8 = 0xA5;

    unsafe extern "C" {
        fn widgulp_listing(file: *const u8, file_len: usize, out: *mut u8, out_len: usize) -> i64;
    }

    fn call(file: &[u8], out: &mut [u8]) -> i64 {
        unsafe { widgulp_listing(file.as_ptr(), file.len(), out.as_mut_ptr(), out.len()) }
    }

    /// The listing or the declining line, with the buffer's rest and a
    /// buffer one byte short looked at as well.
    pub fn text(file: &[u8]) -> Result<Vec<u8>, String> {
        let mut buffer = vec![UNTOUCHED; BUFFER];
        let answer = call(file, &mut buffer);
        let length = answer.max(0) as usize;
        if length > BUFFER || buffer[length..].iter().any(|&byte| byte != UNTOUCHED) {
            return Err(format!("answer {answer}: bytes past the listing are changed"));
        }
        short_buffer(file, answer)?;
        if answer < 0 {
            return Ok(format!("DECLINED {}\n", -answer).into_bytes());
        }
        buffer.truncate(length);
        Ok(buffer)
    }

    /// A short buffer is declined last of all and stays as it was.
    fn short_buffer(file: &[u8], answer: i64) -> Result<(), String> {
        let mut buffer = vec![UNTOUCHED; BUFFER - 1];
        let short = call(file, &mut buffer);
        let wanted = if answer < 0 { answer } else { -(Decline::ShortBuffer as i64) };
        if short != wanted {
            return Err(format!("short buffer: answer {short}, wanted {wanted}"));
        }
        if buffer.iter().any(|&byte| byte != UNTOUCHED) {
            return Err("short buffer: bytes are changed".to_string());
        }
        Ok(())
    }
}
