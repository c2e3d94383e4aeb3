//! `contacts serve`: the table for clients on a network.

use super::Command;
use crate::arguments::{valued, Arguments, Syntax};
use crate::failure::Failure;
use crate::serve::{serve, Settings, CONNECTIONS};
use crate::text;
use std::os::unix::ffi::OsStrExt;

const LISTEN: &str = "127.0.0.1:11210";
const CONNECTIONS_MAX: u64 = 65_536;

pub const COMMAND: Command = Command {
    name: "serve",
    summary: "serves the table to clients of the binary protocol",
    syntax: Syntax { operands: &["FILE"], options: &[valued("--listen"), valued("--sync"), valued("--connections")] },
    help: "contacts serve FILE [--listen ADDRESS:PORT] [--sync on|off] [--connections N]

Serves the table to clients of the binary protocol, by the system's clock, until the process is ended.
There are no logins: listen where only the table's clients can reach it.

  --listen ADDRESS:PORT  127.0.0.1:11210 without it
  --sync on|off          on, which is the default: a write is answered once the disk has it;
                         off: it may be answered before
  --connections N        the most connections at once, 1 to 65536; 1,000 without it
",
    run,
};

fn run(arguments: &Arguments) -> Result<(), Failure> {
    Ok(serve(arguments.path(), settings(arguments)?)?)
}

fn settings(arguments: &Arguments) -> Result<Settings, Failure> {
    let sync = arguments.choice("--sync", &[("on", true), ("off", false)])?.unwrap_or(true);
    let connections = arguments.number("--connections", 1..=CONNECTIONS_MAX)?;
    let connections = connections.map_or(CONNECTIONS, |most| most as usize);
    Ok(Settings { listen: listen(arguments)?, sync, connections })
}

fn listen(arguments: &Arguments) -> Result<String, Failure> {
    let Some(given) = arguments.value("--listen") else {
        return Ok(LISTEN.to_string());
    };
    given.to_str().filter(|text| has_port(text)).map(str::to_string).ok_or_else(|| {
        Failure::WrongUse(format!("--listen is {}, and not ADDRESS:PORT", text::shown(given.as_bytes())))
    })
}

fn has_port(text: &str) -> bool {
    text.rsplit_once(':').is_some_and(|(address, port)| !address.is_empty() && port.parse::<u16>().is_ok())
}

#[cfg(test)]
mod tests {
    use super::*;

    fn given(options: &[&str]) -> (String, bool, usize) {
        let words = ["boat.table"].iter().chain(options).map(Into::into).collect();
        let arguments = COMMAND.syntax.parse(words).unwrap().unwrap();
        let Settings { listen, sync, connections } = settings(&arguments).unwrap();
        (listen, sync, connections)
    }

    #[test]
    fn settings_are_passed_on() {
        assert_eq!(given(&[]), ("127.0.0.1:11210".to_string(), true, 1_000));
        let all = ["--listen", "[::1]:0", "--sync", "off", "--connections", "3"];
        assert_eq!(given(&all), ("[::1]:0".to_string(), false, 3));
        assert_eq!(given(&["--listen=boat:65535", "--sync=on"]), ("boat:65535".to_string(), true, 1_000));
    }
}
