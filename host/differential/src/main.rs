//! Compares the proved store and coordinator, through their static library, with the independent
//! ones: calls by chance on both, and after each the answers, the journals and buffers to the last
//! byte and all contents have to be equal. The exit status is 0 only where they are, and each code
//! that the documents allow for a call was met.

mod call;
mod calls;
mod chance;
mod contents;
mod coordinators;
mod driver;
mod faces;
mod fault;
mod journals;
mod moods;
mod options;
mod orders;
mod records;
mod report;
mod run;
mod schedule;
mod shrink;
mod sides;
mod stores;
mod tally;
#[cfg(test)]
mod tests;
mod worlds;

use driver::Driver;
use options::{Options, USAGE};
use std::process::ExitCode;

fn main() -> ExitCode {
    let options = match Options::read(std::env::args().skip(1)) {
        Ok(options) => options,
        Err(wrong) => {
            eprintln!("{wrong}\n{USAGE}");
            return ExitCode::from(2);
        }
    };
    println!("seed {}", options.seed);
    let seed = options.seed;
    let mut driver = Driver::new(options);
    let found = driver.drive();
    print!("{}", driver.tally);
    let missing = driver.tally.missing();
    let differences = u64::from(found.is_some());
    if let Some(finding) = found {
        report::tell(seed, &driver, *finding);
    } else if !missing.is_empty() {
        println!("never met: {}", missing.join(", "));
    }
    let [stores, coordinators] = driver.tally.of_each();
    println!("{stores} calls on stores, {coordinators} on coordinators");
    println!("differential: {} calls, {differences} differences", driver.calls);
    if differences == 0 && missing.is_empty() {
        ExitCode::SUCCESS
    } else {
        ExitCode::FAILURE
    }
}
