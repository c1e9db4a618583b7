use lrc_store::{Code, Error, ShardedStore};
use std::thread;

fn main() -> Result<(), Error> {
    let store = ShardedStore::open(4, 16, None)?; // 16 shards, no journals
    for i in 0..1000 {
        let name = format!("greeting-{i}");
        let mut session = store.take(&name)?; // of the name's shard
        session.put(&name, b"HELLO, WORLD", Code::Wide)?;
        session.lose(&name, 0, 0)?; // fragments 0 and 2 of stripe 0 fail
        session.lose(&name, 0, 2)?;
    }
    let text = store.take("greeting-7")?.get("greeting-7")?; // a degraded read
    let repaired = thread::scope(|scope| {
        let other = scope.spawn(|| store.mend());
        let here = store.mend()?; // the two share the work
        Ok::<_, Error>(here + other.join().expect("it does not panic")?)
    })?;
    let text = String::from_utf8_lossy(&text);
    println!(
        "{text}: {repaired} repaired, {} lost",
        store.numbers()?.lost
    );
    store.close().map_err(|(_, error)| error)?;
    Ok(())
}
