// Erased from crates/ratio/src/setting.rt by rust/erase: not to be edited.
//! `Setting`: for whom lines are answered.

/// For whom lines are answered.
#[derive(Clone, Copy, PartialEq, Debug)]
pub enum Setting {
    /// A person types lines at a prompt, and some words are commands.
    Prompt,
    /// A file or a pipe gives the lines. A blank line is answered by nothing, and a refusal has three lines.
    Pipe,
    /// `--lines`: a script pairs each line with its answer. A blank line is answered by a blank line, and a refusal is one line.
    Paired,
}

/// The setting, if `--lines` was asked for or not, and the lines come from a terminal or not.
#[inline]
pub fn setting_of(paired: bool, on_terminal: bool) -> Setting {
    if paired {
        Setting::Paired
    } else if on_terminal {
        Setting::Prompt
    } else {
        Setting::Pipe
    }
}

/// Whether the refusal of a line is only its last line, the reason. So it is for each line in `Paired`, and else for one of more than 200 bytes.
#[inline]
pub fn is_brief(setting: Setting, line: &[u8]) -> bool {
    match setting {
        Setting::Paired => true,
        Setting::Prompt | Setting::Pipe => line.len() > 200,
    }
}
