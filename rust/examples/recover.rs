//! Recovers a readable job: `cargo run --release --example recover -- FILE`.

use hanthuvelo::Job;

fn main() -> Result<(), Box<dyn std::error::Error>> {
    let file = std::env::args().nth(1).ok_or("usage: recover FILE")?;
    let job: Job = std::fs::read_to_string(file)?.parse()?;
    let answer = job.recover()?;
    println!("f1 = {}", answer.fraction(0));
    println!("wrong rows: {:?}", answer.wrong_rows());
    Ok(())
}
