//! The second program: an independent reading of the documents, held against the proved one.

#[cfg(test)]
mod answering; // tested by itself: no call reaches it yet
mod bits;
mod blocks;
mod bookings;
mod faults;
mod fcs;
mod layout;
mod log;
mod make;
mod messages;
mod probe;
mod receiver;
mod transport;

use std::io::{self, Read, Write};
use std::process::ExitCode;

const USAGE: &str = "\
usage: second print               slot log on standard input, lines on standard output
       second probe               call records on standard input, lines on standard output
       second make log SEED       write a random slot log
       second make long SEED      write a random slot log of some 20,000 reports
       second make calls SEED     write a random file of call records
       second make reports SEED   write a random file of settings and reports alone, as call records
       second make transport SEED write a random file of transport messages and bookings, as call records
       second blocks              write the sheet of reads and layouts as call records
       second builds              write the sheet of builds as call records
       second slots               write the sheet of reports as a slot log
       second transports          write the sheet of transport messages and bookings as call records
       second stats FROM TO       run the made inputs of these seeds and count the answers and the drops";

fn main() -> ExitCode {
    let arguments: Vec<String> = std::env::args().skip(1).collect();
    let words: Vec<&str> = arguments.iter().map(String::as_str).collect();
    match run(&words).and_then(|output| write_out(&output)) {
        Ok(()) => ExitCode::SUCCESS,
        Err(words) => {
            eprintln!("second: {words}");
            ExitCode::from(2)
        }
    }
}

fn run(words: &[&str]) -> Result<Vec<u8>, String> {
    match words {
        ["print"] => Ok(log::print(&read_in()?).into_bytes()),
        ["probe"] => Ok(probe::probe(&read_in()?).into_bytes()),
        ["make", "log", seed] => Ok(make::log(number(seed)?)),
        ["make", "long", seed] => Ok(make::long_log(number(seed)?)),
        ["make", "calls", seed] => Ok(make::calls(number(seed)?)),
        ["make", "reports", seed] => Ok(make::reports(number(seed)?)),
        ["make", "transport", seed] => Ok(make::transport(number(seed)?)),
        ["blocks"] => Ok(make::blocks()),
        ["builds"] => Ok(make::builds()),
        ["slots"] => Ok(make::slots()),
        ["transports"] => Ok(make::transports()),
        ["stats", from, to] => Ok(make::stats(number(from)?, number(to)?).into_bytes()),
        [] => Err(format!("no word given\n{USAGE}")),
        _ => Err(format!(
            "cannot make sense of '{}'\n{USAGE}",
            words.join(" ")
        )),
    }
}

fn number(word: &str) -> Result<u64, String> {
    word.parse()
        .map_err(|_| format!("'{word}' is not a whole number\n{USAGE}"))
}

fn read_in() -> Result<Vec<u8>, String> {
    let mut input = Vec::new();
    match io::stdin().lock().read_to_end(&mut input) {
        Ok(_) => Ok(input),
        Err(error) => Err(format!("cannot read standard input: {error}")),
    }
}

fn write_out(output: &[u8]) -> Result<(), String> {
    io::stdout()
        .lock()
        .write_all(output)
        .map_err(|error| format!("cannot write standard output: {error}"))
}
