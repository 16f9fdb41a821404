//! Prints the list of damaged tables with the model's verdicts, and what it holds on the error stream.

use std::io::{self, Write};

fn main() -> io::Result<()> {
    let list = model::damage::whole();
    eprintln!("{:6}  verdicts\n{:6}  bytes", list.total(), list.text.len());
    for (rule, count) in list.verdicts.iter().enumerate() {
        let places = list.distinct.keys().filter(|verdict| verdict.0 as usize == rule).count();
        eprintln!("{count:6}  rule {rule}, at {places} places");
    }
    for (sentence, count) in &list.alone {
        eprintln!("{count:6}  only broken: {sentence}");
    }
    io::stdout().write_all(list.text.as_bytes())
}
