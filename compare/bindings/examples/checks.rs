//! Checks one text some times, for counting instructions: `checks proved|rust full|largest TIMES`.
//!
//! `full` has 8,192 bytes, so many frames that the last are only decoded; `largest` is a large file that is accepted.

/// A basic view of relation 0 with 117 bytes: eight sums.
fn view() -> Vec<u8> {
    let column = [1u8, 0, 0];
    let sum = |a: &[u8], b: &[u8]| [&[2u8], a, b].concat();
    let two = sum(&column, &column);
    let four = sum(&two, &two);
    let mut frame = vec![3, 1, 0, 8, 0x10];
    for _ in 0..7 {
        frame.extend(&four);
    }
    frame.extend(&two);
    frame
}

fn line(frame: &[u8]) -> String {
    frame.iter().map(|b| format!("{b:02x}")).collect::<String>() + "\n"
}

fn text(kind: &str) -> Vec<u8> {
    let mut text = line(&[1, 1, 1, 0, 0, 0, 0, 9]);
    let views = if kind == "full" { 64 } else { 15 };
    for _ in 0..views {
        text += &line(&view());
    }
    if kind == "full" {
        text.truncate(8192);
        // the last line is whole
        text.truncate(text.rfind('\n').unwrap() + 1);
        while text.len() + 3 <= 8192 {
            let rest = (8192 - text.len() - 1) / 2;
            text += &line(&vec![3; rest.min(120)]);
        }
    } else {
        text += &line(&[7, 15, 0]);
    }
    text.into_bytes()
}

fn main() {
    let args: Vec<String> = std::env::args().collect();
    let text = text(&args[2]);
    let times: u32 = args[3].parse().unwrap();
    let mut sum = 0u32;
    for _ in 0..times {
        let text = std::hint::black_box(&text[..]);
        sum += match args[1].as_str() {
            "proved" => match sakthveim::check(text) {
                Ok(()) => 0,
                Err(r) => u32::from(r.number) * 100 + u32::from(r.line),
            },
            _ => match reference::read(text) {
                Ok(_) => 0,
                Err(r) => u32::from(r.number) * 100 + u32::from(r.line),
            },
        };
    }
    println!("{} bytes, {sum}", text.len());
}
