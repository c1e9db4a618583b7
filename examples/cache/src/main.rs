//! Puts values into a cache of 100,000 bytes, loses fragments, and prints what is still there.

use cache::Cache;

fn main() -> Result<(), lrc_store::Error> {
    let cache = Cache::new(64, 100_000)?;
    for number in 0..150 {
        cache.put(format!("key {number}").as_bytes(), &[b'x'; 100])?;
    }
    let mut found = 0;
    for number in 0..150 {
        let key = format!("key {number}");
        if cache.get(key.as_bytes())?.is_some() {
            cache.lose(key.as_bytes(), 0)?;
            found += usize::from(cache.get(key.as_bytes())? == Some(vec![b'x'; 100]));
        }
    }
    println!("{found} of 150 values in {} bytes", cache.bytes());
    println!("{} fragments repaired", cache.mend()?);
    Ok(())
}
