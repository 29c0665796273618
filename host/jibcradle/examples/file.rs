//! A catalogue kept in a file. Each run opens the journal, shows what is there, commits once more
//! and ends; `cargo run --example file -- night.journal`, again and again.

use jibcradle::{Catalogue, Error};

fn main() -> Result<(), Error> {
    let path = std::env::args_os().nth(1).unwrap_or_else(|| "night.journal".into());
    let mut night = Catalogue::open(path)?;
    println!("{}: {} bytes", night.path().display(), night.journal().len());
    if let Some(torn) = night.torn() {
        println!("a write was cut short: its {} bytes are in {}", torn.length, torn.path.display());
    }
    let known = night.known()?;
    println!("page 0 now: {:?}", night.now(0)?);
    println!("known: {known:?}");

    let stamp = known.last.max(known.horizon) + 256;
    let counted = night.now(0)?[0] + 1;
    night.commit(stamp, &[(0, counted)])?;
    // From here on it is there for good.
    println!("object 0 is {counted} from stamp {stamp} on");
    Ok(())
}
