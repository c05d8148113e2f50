//! The report on addresses by the ported crate as published, to be measured beside
//! `pdb_symbolizer`: `original frames FILE < ADDRESSES`. It writes no rows of frames.
//!
//! It opens the file as that crate's users do: pages are read when they are asked for. With `WHOLE`
//! in the environment the file is read first.
use pdb_addr2line::pdb::{Source, PDB};
use pdb_addr2line::{Context, ContextPdbData};
use std::error::Error;
use std::fs::File;
use std::io::{self, BufRead, BufWriter, Cursor, Write};

type Outcome = Result<(), Box<dyn Error>>;

/// The address that a line stands for: one to eight hexadecimal digits.
fn parse_address(line: &str) -> Option<u32> {
    let line = line.strip_suffix('\r').unwrap_or(line);
    let digits = line.strip_prefix("0x").or(line.strip_prefix("0X")).unwrap_or(line);
    let is_number = digits.len() <= 8 && digits.bytes().all(|it| it.is_ascii_hexdigit());
    is_number.then(|| u32::from_str_radix(digits, 16).ok()).flatten()
}

fn write_frames(context: &Context, address: u32, out: &mut impl Write) -> io::Result<()> {
    writeln!(out, "0x{address:08x}")?;
    let found = match context.find_frames(address) {
        Err(_) => return writeln!(out, "  unreadable"),
        Ok(None) => return writeln!(out, "  ??"),
        Ok(Some(found)) => found,
    };
    for frame in found.frames {
        let name = frame.function.as_deref().unwrap_or("??");
        let file = frame.file.as_deref().unwrap_or("??");
        let line = frame.line.map_or("??".to_string(), |it| it.to_string());
        writeln!(out, "  {name} at {file}:{line}")?;
    }
    Ok(())
}

fn report<'s, S: Source<'s> + Send + 's>(source: S) -> Outcome {
    let data = ContextPdbData::try_from_pdb(PDB::open(source)?)?;
    let context = data.make_context()?;
    let mut out = BufWriter::new(io::stdout().lock());
    for line in io::stdin().lock().lines() {
        match parse_address(&line?) {
            Some(address) => write_frames(&context, address, &mut out)?,
            None => writeln!(out, "not an address")?,
        }
    }
    Ok(out.flush()?)
}

fn main() -> Outcome {
    let words: Vec<String> = std::env::args().collect();
    let [_, command, path] = words.as_slice() else {
        return Err("original frames FILE < ADDRESSES".into());
    };
    match (command.as_str(), std::env::var_os("WHOLE")) {
        ("frames", None) => report(File::open(path)?),
        ("frames", Some(_)) => report(Cursor::new(std::fs::read(path)?)),
        _ => Err("original frames FILE < ADDRESSES".into()),
    }
}
