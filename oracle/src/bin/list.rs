//! Prints the fixed list of calls, with what it covers on the error stream. With `--check FILE` it reads a list instead,
//! makes its calls with the crate, and asserts its format, its answers, its states and the premises.

use std::io::{self, Write};
use std::{env, fs};

fn main() -> io::Result<()> {
    let words: Vec<String> = env::args().skip(1).collect();
    match words.iter().map(String::as_str).collect::<Vec<_>>()[..] {
        [] => {
            let list = oracle::list::whole();
            eprint!("{}", list.counts);
            eprintln!("{:6}  atlases\n{:6}  calls\n{:6}  bytes", list.atlases, list.calls, list.text.len());
            io::stdout().write_all(list.text.as_bytes())
        }
        ["--check", file] => {
            let calls = oracle::replay::read(&fs::read_to_string(file)?);
            eprintln!("{calls} calls agree, within the premises");
            Ok(())
        }
        _ => Err(io::Error::new(io::ErrorKind::InvalidInput, "list, or list --check FILE")),
    }
}
