//! A model of the FUSB302B port controller that plays a script from standard input: `peer` answers each event, `peer sent`
//! lists the frames that left, `peer why` says of each packet why no GoodCRC answers it. And `peer frames` lists the frames
//! of a record of symbols.
//! "01" in the comments is the paper of exact rules, quoted by section; "02" is the later one, quoted by paragraph; "004" is the
//! data sheet.

mod device;
mod frames;
mod line;
mod pins;
mod script;
mod text;

use std::process::ExitCode;
use std::{env, io};

fn main() -> ExitCode {
    let (input, output) = (io::stdin().lock(), io::stdout().lock());
    let run = match env::args().nth(1).as_deref() {
        None => script::run(input, output),
        Some("sent") => script::sent(input, output),
        Some("why") => script::why(input, output),
        Some("frames") => frames::run(input, output),
        Some(_) => {
            eprintln!("usage: peer [sent | why | frames]");
            return ExitCode::FAILURE;
        }
    };
    // Nobody is left to tell when standard output is closed or full, so the run just ends.
    match run {
        Ok(()) => ExitCode::SUCCESS,
        Err(_) => ExitCode::FAILURE,
    }
}
