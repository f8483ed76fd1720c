//! The orders of a file in pages of ten, by the prefix of their keys: pages FILE.
//!
//! See that a page is what the range has next, and that the last one has the order of a transaction that is open, which may yet
//! go back.
use recfile::{Entry, Error, File, Options, Result};

const PREFIX: &[u8] = b"order/";
const PAGE: usize = 10;

fn tell_pages(file: &File) -> Result<()> {
    let is_mine = |entry: &Result<Entry>| entry.as_ref().map_or(true, |it| it.key.starts_with(PREFIX));
    let mut entries = file.range(PREFIX..).take_while(is_mine);
    for number in 1.. {
        let page = entries.by_ref().take(PAGE).collect::<Result<Vec<_>>>()?;
        let (first, last) = match (page.first(), page.last()) {
            (Some(first), Some(last)) => (first, last),
            _ => break,
        };
        print!("page {number}: {} to {}", String::from_utf8_lossy(&first.key), String::from_utf8_lossy(&last.key));
        match page.iter().filter(|entry| entry.owner.is_some()).count() {
            0 => println!(),
            open => println!(", of which {open} may yet go back"),
        }
    }
    Ok(())
}

fn main() -> Result<()> {
    let path = std::env::args_os().nth(1).expect("the words are: pages FILE");
    let file = Options::new().create(path)?;
    let stock = file.begin()?;
    for number in 1..=25 {
        stock.put(format!("order/{number:03}").as_bytes(), b"open")?;
    }
    stock.put(b"line/001/lamp", b"2")?;
    stock.put(b"stock/lamp", b"3")?;
    stock.commit()?;
    let order = file.begin()?;
    order.put(b"order/026", b"open")?;
    tell_pages(&file)?;
    order.abort().map_err(Error::from)?;
    Ok(file.close()?)
}
