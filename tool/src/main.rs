//! arvandish: the proved library at the operator's bench. The library answers; this reads, asks and prints.

mod args;
mod feed;
mod ledger;
mod manual;
mod output;
mod stop;
mod text;
mod words;

use args::Arguments;
use doors::records::RECORD;
use feed::{Feed, Form, Input};
use ledger::Ledger;
use manual::Command;
use output::Output;
use std::ffi::{OsStr, OsString};
use std::io::Write;
use std::net::Ipv4Addr;
use std::process::ExitCode;
use stop::Stop;

fn main() -> ExitCode {
    match run(std::env::args_os().skip(1)) {
        Ok(()) => ExitCode::SUCCESS,
        Err(stop) => stop.end(),
    }
}

fn run(mut words: impl Iterator<Item = OsString>) -> Result<(), Stop> {
    let first = words.next().ok_or_else(|| Stop::usage("which command?"))?;
    let first = first.to_string_lossy();
    match &*first {
        "--help" | "-h" => return output::print(manual::help().as_bytes()),
        "--version" | "-V" => return output::print(manual::version().as_bytes()),
        _ => {}
    }
    let command = Command::named(&first).ok_or_else(|| Stop::usage(format!("there is no command {first}")))?;
    let arguments = Arguments::read(command, words)?;
    if arguments.help {
        return output::print(command.help().as_bytes());
    }
    match command.name {
        "pack" => pack(arguments),
        "show" => show(arguments),
        "squeeze" => squeeze(arguments),
        "lookup" => lookup(arguments),
        name => unreachable!("the manual has a command {name} that nothing does"),
    }
}

fn pack(arguments: Arguments) -> Result<(), Stop> {
    let output = Output::to(arguments.output.as_deref(), Form::Records)?;
    let feed = Input::from(arguments.file()?)?.only(Form::Text, arguments.form)?;
    output.write(&feed.records)
}

fn show(arguments: Arguments) -> Result<(), Stop> {
    let output = Output::to(arguments.output.as_deref(), Form::Text)?;
    let feed = Input::from(arguments.file()?)?.only(Form::Records, arguments.form)?;
    ledger::whole_records(&feed).map_err(|refusal| refusal.told(&feed))?;
    output.write(text::lines(&feed.records).as_bytes())
}

fn squeeze(arguments: Arguments) -> Result<(), Stop> {
    let form = arguments.to.unwrap_or(Form::Text);
    let output = Output::to(arguments.output.as_deref(), form)?;
    let feed = Input::from(arguments.file()?)?.feed(arguments.form)?;
    let ledger = Ledger::of(&feed, arguments.slots).map_err(|refusal| refusal.told(&feed))?;
    let table = ledger.smallest(&feed).map_err(|refusal| refusal.told(&feed))?;
    match form {
        Form::Text => output.write(text::lines(&table).as_bytes())?,
        Form::Records => output.write(&table)?,
    }
    if !arguments.quiet {
        // A closed standard error does not take the table back.
        let _ = std::io::stderr().write_all(figures(&ledger, table.len() / RECORD).as_bytes());
    }
    Ok(())
}

fn figures(ledger: &Ledger, written: usize) -> String {
    let (held, used, slots) = (ledger.held(), ledger.used(), ledger.slots());
    let ratio = match held {
        0 => "none".to_string(),
        _ => format!("{:.1} %", 100.0 * written as f64 / held as f64),
    };
    format!(
        "held routes      {held}\n\
         slots used       {used} of {slots}\n\
         written records  {written}\n\
         ratio            {ratio}\n"
    )
}

fn lookup(arguments: Arguments) -> Result<(), Stop> {
    if arguments.table && arguments.slots.is_some() {
        return Err(Stop::usage(
            "--slots does not go with --table: a list that is looked up has no slots",
        ));
    }
    let output = Output::to(arguments.output.as_deref(), Form::Text)?;
    let (addresses, file) = addresses_and_file(&arguments.operands)?;
    let feed = Input::from(file)?.feed(arguments.form)?;
    let lines = answers(&feed, &addresses, &arguments).map_err(|refusal| refusal.told(&feed))?;
    output.write(lines.concat().as_bytes())
}

/// All operands are addresses, but the last may be the feed.
fn addresses_and_file(operands: &[OsString]) -> Result<(Vec<u32>, Option<&OsStr>), Stop> {
    let address = |operand: &OsString| operand.to_str().and_then(text::address);
    let (operands, file) = match operands {
        [before @ .., last] if address(last).is_none() => (before, Some(last.as_os_str())),
        all => (all, None),
    };
    let known = |operand: &OsString| {
        address(operand).ok_or_else(|| Stop::usage(format!("{} is no address as 10.1.2.3", operand.display())))
    };
    match operands.iter().map(known).collect::<Result<Vec<_>, _>>()? {
        none if none.is_empty() => Err(Stop::usage("lookup wants an address as 10.1.2.3")),
        addresses => Ok((addresses, file)),
    }
}

fn answers(feed: &Feed, addresses: &[u32], arguments: &Arguments) -> Result<Vec<String>, words::Refusal> {
    let line = |address: u32, hop: u32| match hop {
        // For want of a route or by a route that says so: the library answers 0 for both alike.
        0 => format!("{} is discarded\n", Ipv4Addr::from(address)),
        hop => format!("{} via {hop}\n", Ipv4Addr::from(address)),
    };
    if arguments.table {
        return addresses
            .iter()
            .map(|&address| Ok(line(address, ledger::hop_in_list(feed, address)?)))
            .collect();
    }
    let ledger = Ledger::of(feed, arguments.slots)?;
    addresses
        .iter()
        .map(|&address| Ok(line(address, ledger.hop(address)?)))
        .collect()
}
