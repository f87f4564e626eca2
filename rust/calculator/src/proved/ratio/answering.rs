// Erased from crates/ratio/src/answering.rt by rust/erase: not to be edited.
//! The reply to one expression, and to the lines of the input.

use bakhsney::memory::{AllocError, Global, Vec};
use crate::host::LineRead;
use crate::proved::ratio::fault::Fault;
use crate::proved::ratio::prompt::{TIPS, asks_help, end, ends_lines, prompt, start};
use crate::proved::ratio::setting::{Setting, is_brief};
use crate::proved::ratio::writing::write;
use crate::proved::ratio_expressions::names::Names;
use crate::proved::ratio_expressions::replies::{Form, Reply, reply_to};
use crate::proved::ratio_lines::counted::CalcWrite;

/// Answers an expression, and says whether it has a value. A refusal goes to the errors.
#[inline]
pub fn answer_expression<W: CalcWrite, E: CalcWrite>(
    alloc: Global,
    text: &[u8],
    form: Form,
    output: &mut W,
    errors: &mut E,
) -> Result<bool, Fault> {
    let mut names = Names::new(alloc);
    let (text, accepted) = replied(alloc, Setting::Pipe, text, form, &mut names)?;
    if accepted {
        write(output, &text)?;
    } else {
        write(errors, &text)?;
    }
    Ok(accepted)
}

/// Answers each line of an input before it reads the next one, and says whether each has a value. A refusal is in the place of an answer.
/// At a prompt, `quit` and `exit` end the lines.
#[inline]
pub fn answer_lines<R: LineRead<W>, W: CalcWrite>(
    alloc: Global,
    form: Form,
    setting: Setting,
    input: &mut R,
    output: &mut W,
) -> Result<bool, Fault> {
    let mut names = Names::new(alloc);
    let mut line = Vec::new(alloc);
    let mut all = true;
    write(output, start(setting))?;
    for _turn in 0..u64::MAX {
        if !input.read_line(&mut line, &*output)? {
            write(output, end(setting))?;
            return Ok(all);
        }
        if ends_lines(setting, without_end(&line)) {
            return Ok(all);
        }
        all &= answer_line(alloc, &line, form, setting, &mut names, output)?;
    }
    Err(Fault::Endless)
}

// Answers a line, and says whether it has no refusal. The prompt for the next line is behind the reply.
#[inline]
fn answer_line<W: CalcWrite>(
    alloc: Global,
    line: &[u8],
    form: Form,
    setting: Setting,
    names: &mut Names,
    output: &mut W,
) -> Result<bool, Fault> {
    let (mut text, accepted) = answered(alloc, setting, without_end(line), form, names)?;
    text.extend_from_slice(prompt(setting))?;
    write(output, &text)?;
    Ok(accepted)
}

// What is written for a line: some help, or its reply. And whether it is no refusal.
#[inline]
fn answered(
    alloc: Global,
    setting: Setting,
    line: &[u8],
    form: Form,
    names: &mut Names,
) -> Result<(Vec<u8>, bool), AllocError> {
    if asks_help(setting, line) {
        return Ok((Vec::from_slice(alloc, TIPS.as_bytes())?, true));
    }
    replied(alloc, setting, line, form, names)
}

// The reply to a line, with its line end unless it is empty, and whether it is no refusal.
#[inline]
fn replied(
    alloc: Global,
    setting: Setting,
    line: &[u8],
    form: Form,
    names: &mut Names,
) -> Result<(Vec<u8>, bool), AllocError> {
    match reply_to(alloc, line, form, names)? {
        Reply::Nothing => Ok((blank_answer(alloc, setting)?, true)),
        Reply::Answer(text) => Ok((with_end(text)?, true)),
        Reply::Refused(text) => {
            let text = refusal(alloc, setting, line, text)?;
            Ok((with_end(text)?, false))
        }
    }
}

// What is written for a blank line: a line end in `Paired`, and else nothing.
#[inline]
fn blank_answer(alloc: Global, setting: Setting) -> Result<Vec<u8>, AllocError> {
    match setting {
        Setting::Paired => Vec::from_slice(alloc, b"\n"),
        Setting::Prompt | Setting::Pipe => Ok(Vec::new(alloc)),
    }
}

// The refusal of a line as it is written: whole, or its last line.
#[inline]
fn refusal(
    alloc: Global,
    setting: Setting,
    line: &[u8],
    text: Vec<u8>,
) -> Result<Vec<u8>, AllocError> {
    if is_brief(setting, line) {
        Vec::from_slice(alloc, last_line(&text))
    } else {
        Ok(text)
    }
}

// The last line of a text.
#[inline]
fn last_line(text: &[u8]) -> &[u8] {
    &text[text.len() - last_line_length(text)..]
}

// How many bytes are behind the last line feed of a text.
#[inline]
fn last_line_length(text: &[u8]) -> usize {
    text.iter().rev().take_while(|byte| **byte != b'\n').count()
}

// The line without its line end: a line feed, or a carriage return and a line feed.
#[inline]
fn without_end(line: &[u8]) -> &[u8] {
    let line = line.strip_suffix(b"\n").unwrap_or(line);
    line.strip_suffix(b"\r").unwrap_or(line)
}

// The text and a line end.
#[inline]
fn with_end(text: Vec<u8>) -> Result<Vec<u8>, AllocError> {
    let mut text = text;
    text.push(b'\n')?;
    Ok(text)
}
