//! Two groups on one processor, the second of which counts twice: their plan, its check, and a wrong plan.
use arbiter::{certify, check, limiting, Fault, Host, Row};

fn main() -> Result<(), Fault> {
    let host = Host::default();
    let rows = [
        Row::ROOT,
        Row {
            demand: 20,
            ..Row::under(0)
        },
        Row {
            weight: 200,
            demand: 20,
            ..Row::under(0)
        },
    ];
    let (amounts, certificate) = certify(host, &rows)?;
    check(host, &rows, &amounts, &certificate)?;
    println!("{amounts:?}");
    let (groups, rest) = limiting(host, &rows)?;
    println!("limited by rows {groups:?}, {rest} slices outside them");
    if let Err(fault) = check(host, &rows, &[20, 8, 12], &certificate) {
        println!("refused {fault}");
    }
    Ok(())
}
