use lrc_coder::{encode, rebuild, Code};

fn main() -> Result<(), lrc_coder::Error> {
    let data: Vec<&[u8]> = b"HELLO, FRAGMENTS OF DATA".chunks(2).collect();
    let mut parities = [[0; 2]; 4];
    let [a, b, c, d] = &mut parities;
    encode(&data, [a, b, c, d])?;

    let fragments = data
        .iter()
        .copied()
        .chain(parities.iter().map(|parity| &parity[..]));
    let mut left: Vec<Option<&[u8]>> = fragments.map(Some).collect();
    left[0] = None;
    left[1] = None;
    let mut rebuilt = [0; 4];
    rebuild(Code::Wide, &left, 0, 0, &mut rebuilt[..2])?;
    rebuild(Code::Wide, &left, 1, 0, &mut rebuilt[2..])?;
    println!("{}", String::from_utf8_lossy(&rebuilt));
    Ok(())
}
