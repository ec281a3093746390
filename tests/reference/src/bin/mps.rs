//! The data of an input of certify as a linear program in free MPS:
//! `mps [ROW MULTIPLIER]... < input`. The multipliers of the rows named are fixed.

use epm_reference::model::Model;
use epm_reference::mps;
use epm_reference::program::read_lines;
use std::io::{self, Read, Write};

fn main() -> io::Result<()> {
    let mut input = Vec::new();
    io::stdin().read_to_end(&mut input)?;
    let words: Vec<String> = std::env::args().skip(1).collect();
    let fixed: Vec<(usize, i64)> = words
        .chunks(2)
        .map(|pair| {
            let [row, multiplier] = pair else {
                panic!("a row without a multiplier")
            };
            (
                row.parse().expect("a row"),
                multiplier.parse().expect("a multiplier"),
            )
        })
        .collect();
    let read = read_lines(&input).expect("lines of the format");
    let model = Model::read(&read.data).expect("sound data");
    io::stdout().write_all(mps::write(&model, &fixed).as_bytes())
}
