// A plain reader of archives of routes and numbers, to compare with: the same checks in the same order.
use std::time::Instant;

#[derive(Debug)]
#[allow(dead_code)]
struct Fault {
    number: u8,
    layer: &'static str,
    row: usize,
    offset: usize,
}

fn number(bytes: &[u8]) -> usize {
    u32::from_be_bytes([bytes[0], bytes[1], bytes[2], bytes[3]]) as usize
}

fn is_route(b: &[u8]) -> bool {
    let entry = u16::from_be_bytes([b[0], b[1]]);
    let exit = u16::from_be_bytes([b[2], b[3]]);
    (1..=9999).contains(&entry) && (1..=9999).contains(&exit) && (1..=4).contains(&b[4])
}

fn zeros(b: &[u8]) -> bool {
    b.iter().all(|x| *x == 0)
}

fn open(bytes: &[u8]) -> Result<usize, Fault> {
    const K: usize = 5;
    const W: usize = 4;
    const R: usize = 4 + 2 * K;
    const A: usize = 4 + W;
    let header = |number, offset| Fault { number, layer: "header", row: 0, offset };
    if bytes.len() < 36 {
        return Err(header(13, bytes.len()));
    }
    let field = |i: usize| number(&bytes[4 * i..4 * i + 4]);
    if field(0) != 1 {
        return Err(header(12, 0));
    }
    let n = field(1);
    if n > 1024 {
        return Err(header(12, 4));
    }
    let wanted = [K, W, R, A, 36, 36 + n * R, 36 + n * (R + A)];
    for (i, value) in wanted.iter().enumerate() {
        if field(i + 2) != *value {
            return Err(header(12, 4 * (i + 2)));
        }
    }
    if bytes.len() != wanted[6] {
        return Err(header(13, bytes.len()));
    }
    let (requests, answers) = bytes[36..].split_at(n * R);
    for (i, row) in requests.chunks_exact(R).enumerate() {
        let wrong = |place| Fault { number: 14, layer: "requests", row: i + 1, offset: 36 + i * R + place };
        if !(1..=4).contains(&row[0]) {
            return Err(wrong(0));
        }
        if !(1..=8).contains(&row[1]) {
            return Err(wrong(1));
        }
        if !zeros(&row[2..4]) {
            return Err(wrong(2));
        }
        if !is_route(&row[4..4 + K]) {
            return Err(wrong(4));
        }
        let second = &row[4 + K..];
        if !(if row[0] == 4 { is_route(second) } else { zeros(second) }) {
            return Err(wrong(4 + K));
        }
    }
    for (i, (row, request)) in answers.chunks_exact(A).zip(requests.chunks_exact(R)).enumerate() {
        let wrong = |place| Fault { number: 15, layer: "answers", row: i + 1, offset: 36 + n * R + i * A + place };
        let fits = match request[0] {
            1 | 2 => row[0] <= 2,
            3 => matches!(row[0], 0 | 3 | 4),
            _ => matches!(row[0], 0 | 5),
        };
        if !fits {
            return Err(wrong(0));
        }
        if !zeros(&row[1..4]) {
            return Err(wrong(1));
        }
        if row[0] != 5 && !zeros(&row[4..]) {
            return Err(wrong(4));
        }
    }
    Ok(n)
}

fn main() {
    let args: Vec<String> = std::env::args().collect();
    let mut bytes = std::fs::read(&args[1]).unwrap();
    let times: u32 = args[2].parse().unwrap();
    let start = Instant::now();
    let mut all = 0;
    for i in 0..times {
        *bytes.last_mut().unwrap() = (i % 256) as u8;
        all += open(&bytes).unwrap_or(0);
    }
    println!("{all} {}", start.elapsed().as_nanos());
}
