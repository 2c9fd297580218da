//! Plans the cluster of a text file, and tells its faults by line.
//!
//! `cargo run --example from_a_text_file ../samples/home.txt`

use dezghuri::{units, Description, ENOUGH};
use std::error::Error;

fn main() -> Result<(), Box<dyn Error>> {
    let file = std::env::args().nth(1).ok_or("which text file?")?;
    print!("{}", told(&std::fs::read(file)?)?);
    Ok(())
}

fn told(text: &[u8]) -> Result<String, Box<dyn Error>> {
    let described = Description::parse(text)?;
    let plan = described.cluster.plan(ENOUGH)?;
    let figures = described.cluster.figures(&plan.layout, plan.size)?;
    let mut lines = String::new();
    for warning in &described.warnings {
        lines += &format!("warning: {warning}\n");
    }
    for ((node, label), copies) in described
        .cluster
        .nodes
        .iter()
        .zip(&described.labels)
        .zip(&figures.copies)
    {
        let copies = units::count((*copies).into(), "copy", "copies");
        lines += &format!("box {} in {} holds {copies}\n", node.id, label.zone);
    }
    Ok(lines)
}

#[test]
fn it_runs() {
    let text = b"copies 1\nzones 1\nbits 2\nbox 1 home 30\nbox 2 shop 10\n";
    let expected = "box 1 in home holds 3 copies\nbox 2 in shop holds 1 copy\n";
    assert_eq!(told(text).unwrap(), expected);
    let faults = told(b"copies 1\nzones\nbox 1 home\n").unwrap_err();
    let expected = "line 2: zones takes one number, from 1 to 8\n\
                    line 3: a box has an id, a zone and a capacity: box 1 home 2T";
    assert_eq!(faults.to_string(), expected);
}
