//! Stock and orders: stock FILE.
//!
//! Two orders are open over one stock. A line that can't be had goes back to the savepoint before it, and the rest of the
//! order stays; an order that is called off backs out, and the other loses nothing. See that both are told of the lamp that
//! the first has taken, and that the third order gets the one that is left.
use recfile::{Error, Options, Transaction};

/// Takes so many of an item for an order: what keeps it from that, or nothing.
fn take(order: &Transaction<'_>, number: u32, item: &str, wanted: i32) -> Result<Option<String>, Error> {
    let savepoint = order.savepoint()?; // where it is dropped, the line goes back
    order.put(format!("line/{number}/{item}").as_bytes(), wanted.to_string().as_bytes())?;
    let key = format!("stock/{item}");
    let stands = match order.get(key.as_bytes()) {
        Err(Error::Held { owner }) => return Ok(Some(format!("is held by {owner}"))),
        other => other?,
    };
    let have: i32 = stands.and_then(|it| String::from_utf8_lossy(&it).parse().ok()).unwrap_or(0);
    if have < wanted {
        return Ok(Some("is short".to_string()));
    }
    order.put(key.as_bytes(), (have - wanted).to_string().as_bytes())?;
    savepoint.release()?;
    Ok(None)
}

fn fill(order: &Transaction<'_>, number: u32, lines: &[(&str, i32)]) -> Result<(), Error> {
    order.put(format!("order/{number}").as_bytes(), b"open")?;
    for &(item, wanted) in lines {
        if let Some(why) = take(order, number, item, wanted)? {
            println!("order {number}: {item} {why}");
        }
    }
    Ok(())
}

fn main() -> Result<(), Box<dyn std::error::Error>> {
    let path = std::env::args().nth(1).ok_or("usage: stock FILE")?;
    let file = Options::new().order(8).create(path)?;
    let stock = file.begin()?;
    for (item, count) in [("lamp", "3"), ("chair", "1"), ("bed", "0")] {
        stock.put(format!("stock/{item}").as_bytes(), count.as_bytes())?;
    }
    stock.commit()?;
    let (first, second) = (file.begin()?, file.begin()?);
    fill(&first, 1, &[("lamp", 2), ("chair", 1)])?;
    fill(&second, 2, &[("lamp", 1), ("bed", 1)])?;
    println!("order 2 is called off: {} change", second.abort().map_err(Error::from)?);
    first.commit()?;
    let third = file.begin()?;
    fill(&third, 3, &[("lamp", 1)])?;
    third.commit()?;
    for entry in file.entries() {
        let entry = entry?;
        println!("{} {}", String::from_utf8_lossy(&entry.key), String::from_utf8_lossy(&entry.record));
    }
    Ok(file.close()?)
}
