//! A failing case as text.

use super::stage::Outputs;
use crate::random::sessions::{File, Session, LIST, OPERANDS, SCHEDULE};
use crate::refusal::Fault;
use crate::text::{assembly, operands, schedules};

/// Longer files are shown up to here; the whole file is in the folder.
const SHOWN_BYTES: usize = 256;

pub fn case(session: &Session) -> String {
    let [list, operand_file, schedule] =
        [(LIST, "list"), (OPERANDS, "operands"), (SCHEDULE, "schedule")]
            .map(|(index, name)| (&session.files[index], name));
    [
        format!("names given: {}\n", session.names),
        file(list, assembly::listing),
        file(operand_file, operands::to_text),
        file(schedule, schedules::to_text),
    ]
    .concat()
}

fn file((file, name): (&File, &str), to_text: fn(&[u8]) -> Result<String, Fault>) -> String {
    let bytes = match file {
        File::Bytes(bytes) => bytes,
        File::Missing => return format!("{name}: missing\n"),
        File::Folder => return format!("{name}: a folder\n"),
    };
    let shown = &bytes[..bytes.len().min(SHOWN_BYTES)];
    let hexadecimal: String = shown.iter().map(|byte| format!(" {byte:02X}")).collect();
    let more = if shown.len() < bytes.len() { " .." } else { "" };
    let text = match to_text(shown) {
        Ok(text) => text.lines().map(|line| format!("    {line}\n")).collect(),
        Err(_) => String::new(),
    };
    format!("{name}, {} bytes:{hexadecimal}{more}\n{text}", bytes.len())
}

pub fn outputs(outputs: &Outputs) -> String {
    format!(
        "second prints:\n{}the program prints, with {}:\n{}",
        String::from_utf8_lossy(&outputs.own),
        outputs.other_status,
        String::from_utf8_lossy(&outputs.other),
    )
}
