//! Prints for each file named what `normalize` prints for it, by the plain reader.
//!
//!     rustc -O bench/reader/check.rs -o check && ./check FILE..

mod plain;

use plain::{Channel, Detector, Fault, Kind, Session, Word};
use std::io::Write;

fn main() -> std::io::Result<()> {
    let mut out = std::io::stdout().lock();
    for name in std::env::args_os().skip(1) {
        match plain::read(&std::fs::read(name)?) {
            Ok(session) => write_session(&mut out, &session)?,
            Err(fault) => write_fault(&mut out, fault)?,
        }
    }
    out.flush()
}

fn write_session(out: &mut impl Write, session: &Session) -> std::io::Result<()> {
    let settings = session.settings;
    let kind = match settings.kind {
        Kind::Cost => "cost",
        Kind::Width => "width",
    };
    let detector = match settings.detector {
        Detector::Tree => "tree",
        Detector::Credit => "credit",
    };
    let channel = match settings.channel {
        Channel::Queue => "queue",
        Channel::Stack => "stack",
        Channel::Picked => "picked",
    };
    writeln!(out, "nodes root kind detector channel")?;
    writeln!(
        out,
        "{} {} {kind} {detector} {channel}",
        settings.nodes, settings.root
    )?;
    writeln!(out, "from to cost width")?;
    for link in &session.links {
        writeln!(
            out,
            "{} {} {} {}",
            link.from, link.to, link.cost, link.width
        )?;
    }
    writeln!(out, "step pick")?;
    for step in &session.steps {
        let word = match step.word {
            Word::Deliver => "deliver",
            Word::Work => "work",
            Word::Control => "control",
        };
        writeln!(out, "{word} {}", step.pick)?;
    }
    Ok(())
}

fn write_fault(out: &mut impl Write, fault: Fault) -> std::io::Result<()> {
    writeln!(out, "fault layer line field")?;
    writeln!(
        out,
        "{} reader {} {}",
        fault.number, fault.line, fault.field
    )
}
