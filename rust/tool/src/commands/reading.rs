//! The commands that read bytes or text and change no record: check, show, make.

use std::io::Write;
use std::path::Path;

use super::{print, read, read_text, Ending, Failure, Status};
use crate::bytes::record_open;
use crate::check::check;
use crate::judge::program_reason;
use crate::keep::{replace_file, Kept};
use crate::options::Given;
use crate::show::{many, show, Sort};
use crate::text::{read_program, Made};

pub(super) fn check_file(given: &Given, out: &mut dyn Write) -> Ending {
    let name = &given.files[0];
    let (lines, accepted) = check(name, &read(name)?);
    print(out, &lines)?;
    Ok(if accepted { Status::Done } else { Status::Refused })
}

pub(super) fn show_file(given: &Given, out: &mut dyn Write) -> Ending {
    let sort = match given.word("--as") {
        None => None,
        Some("program") => Some(Sort::Program),
        Some("record") => Some(Sort::Record),
        Some("reply") => Some(Sort::Reply),
        Some("call") => Some(Sort::Call),
        Some(word) => return Err(Failure::Usage(format!("--as takes program, record, reply or call, not `{word}`"))),
    };
    let name = &given.files[0];
    let bytes = read(name)?;
    let lender = given.word("--types").map(read).transpose()?;
    let kept = Kept::new(Path::new(name));
    let tool = |entry: crate::bytes::Entry| Some((entry.number, kept.call(entry.number)?.call.tool));
    let tools: Vec<(u32, u32)> = record_open(&bytes).into_iter().filter_map(tool).collect();
    let shown = show(&bytes, sort, lender.as_deref(), &tools);
    print(out, &shown.lines)?;
    Ok(if shown.damaged { Status::Refused } else { Status::Done })
}

pub(super) fn make(given: &Given, out: &mut dyn Write) -> Ending {
    let name = &given.files[0];
    let target = given.word("-o").ok_or_else(|| Failure::Usage("`tca make` needs -o FILE".to_string()))?;
    let text = read_text(name)?;
    let made = read_program(&text).map_err(|error| Failure::Words(Status::Refused, format!("{name}: {error}")))?;
    let file = made.file();
    let refused = library::load(&file).err().map(|refused| refused_text(name, &made, &file, refused));
    if let (Some(words), false) = (&refused, given.has("--anyway")) {
        let next = format!("next: mend the text; {target} was not written (--anyway writes it)");
        return Err(Failure::Words(Status::Refused, format!("{words}\n{next}")));
    }
    if target == "-" {
        out.write_all(&file)?;
    } else {
        replace_file(Path::new(target), &file)?;
        let counts = format!("{}, {}", many(made.types.len(), "type"), many(made.rows.len(), "row"));
        writeln!(out, "{target}: made: {counts}, {} bytes", file.len())?;
    }
    refused.map_or(Ok(Status::Done), |words| Err(Failure::Words(Status::Refused, words)))
}

/// A refusal of what a text says, with its spot and its reason.
fn refused_text(name: &str, made: &Made, file: &[u8], refused: library::Refused) -> String {
    let mut lines = vec![format!("{name}: {}refused: {refused}", spot_words(made, refused))];
    let agrees = |refusal: u32, place: usize| (refusal, place) == (refused.refusal.number(), refused.place as usize);
    let reason = program_reason(file).filter(|reason| agrees(reason.refusal, reason.place));
    lines.extend(reason.iter().flat_map(|reason| reason.why.lines()).map(|line| format!("  {line}")));
    lines.join("\n")
}

/// Where in the text the refused type or row is written.
fn spot_words(made: &Made, refused: library::Refused) -> String {
    let spots = if refused.refusal.number() == 6 { &made.type_spots } else { &made.row_spots };
    let spot = spots.get(refused.place as usize).filter(|_| (6..=9).contains(&refused.refusal.number()));
    spot.map_or(String::new(), |spot| format!("line {}, column {}: ", spot.line, spot.column))
}
