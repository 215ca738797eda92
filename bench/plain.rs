// The plain programs beside which `weld run` is measured, and the jobs for both. `make NAME ROWS` writes a job, `run NAME`
// reads one on standard input and writes the same answer as `weld run`: the text is read a byte at a time into vectors, then
// come one loop or two.
use std::collections::BTreeMap;
use std::io::{Read, Write, stdin, stdout};

struct Random(u64);
impl Random {
    fn next(&mut self) -> u64 {
        self.0 ^= self.0 << 13;
        self.0 ^= self.0 >> 7;
        self.0 ^= self.0 << 17;
        self.0
    }
    fn below(&mut self, n: u64) -> u64 {
        (self.next() >> 11) % n
    }
}

const JOBS: [(&str, &str, usize); 14] = [
    ("passthrough", "|v: vec[i64]| v", 8_000_000),
    ("squares", "|v: vec[i64]| result(for(v, merger[i64,+], |b,i,x| merge(b, x * x)))", 8_000_000),
    ("guarded", "|v: vec[i64]| result(for(v, merger[i64,+], |b,i,x| if(x > 3L, merge(b, x), b)))", 8_000_000),
    ("dot", "|v: vec[i64], w: vec[i64]| result(for(zip(v, w), merger[i64,+], |b,i,x| merge(b, x.$0 * x.$1)))", 4_000_000),
    ("dict10", "|k: vec[i64], v: vec[i64]| result(for(zip(k, v), dictmerger[i64,i64,+], |b,i,x| merge(b, x)))", 6_000_000),
    ("dict100k", "|k: vec[i64], v: vec[i64]| result(for(zip(k, v), dictmerger[i64,i64,+], |b,i,x| merge(b, x)))", 4_500_000),
    ("cells", "|k: vec[i64], c: vec[i64]| result(for(k, vecmerger[i64,+](c), |b,i,x| merge(b, {x % 10L, 1L})))", 8_000_000),
    ("groups", "|k: vec[i64], v: vec[i64]| result(for(zip(k, v), groupbuilder[i64,i64], |b,i,x| merge(b, x)))", 4_500_000),
    ("nested", "|m: vec[vec[i64]]| result(for(m, merger[i64,+], |b,i,r| merge(b, result(for(r, merger[i64,+], |c,j,x| merge(c, x))))))", 800_000),
    ("turns", "|v: vec[i64]| result(for(v, merger[i64,+], |b,i,x| merge(b, iterate({x, 0L}, |s| if(s.$0 == 1L, {s, false}, {{if(s.$0 % 2L == 0L, s.$0 / 2L, s.$0 * 3L + 1L), s.$1 + 1L}, true})).$1)))", 100_000),
    ("pairs", "|v: vec[i64]| result(for(result(for(v, vecbuilder[{i64,i64}], |b,i,x| merge(b, {x, x + i}))), merger[i64,+], |b,i,x| merge(b, x.$0 * x.$1)))", 4_000_000),
    ("zipped", "|v: vec[i64], w: vec[i64]| len(result(for(zip(v, w), vecbuilder[{i64,i64}], |b,i,x| merge(b, x))))", 3_000_000),
    ("vectors", "|v: vec[i64]| len(result(for(v, vecbuilder[vec[i64]], |b,i,x| merge(b, [x, x + 1L]))))", 2_000_000),
    ("strings", "|w: vec[vec[i8]]| result(for(w, dictmerger[vec[i8],i64,+], |b,i,x| merge(b, {x, 1L})))", 4_500_000),
];

fn numbers(out: &mut Vec<u8>, rows: usize, mut next: impl FnMut() -> i64) {
    out.extend(b"%value\n[");
    for i in 0..rows {
        if i > 0 {
            out.push(b',');
        }
        write!(out, "{}", next()).unwrap();
    }
    out.extend(b"]\n");
}

fn make(name: &str, rows: usize) {
    let text = JOBS.iter().find(|j| j.0 == name).unwrap().1;
    let mut r = Random(88172645463325252);
    let mut out = Vec::new();
    out.extend(text.as_bytes());
    out.extend(b"\n%%\n");
    let small = |r: &mut Random| { let d = r.below(6) as u32 + 3; r.below(10u64.pow(d)) as i64 - 10 };
    match name {
        "turns" => { let mut at = 0; numbers(&mut out, rows, || { at += 1; at }) }
        "passthrough" | "squares" | "guarded" | "pairs" | "vectors" => numbers(&mut out, rows, || small(&mut r)),
        "dot" | "zipped" => { numbers(&mut out, rows, || small(&mut r)); numbers(&mut out, rows, || small(&mut r)) }
        "dict10" => { numbers(&mut out, rows, || r.below(10) as i64); numbers(&mut out, rows, || small(&mut r)) }
        "dict100k" | "groups" => { numbers(&mut out, rows, || r.below(100_000) as i64); numbers(&mut out, rows, || small(&mut r)) }
        "cells" => { numbers(&mut out, rows, || r.below(1_000_000) as i64); out.extend(b"%value\n[0,0,0,0,0,0,0,0,0,0]\n") }
        "nested" => {
            out.extend(b"%value\n[");
            for i in 0..rows {
                if i > 0 { out.push(b','); }
                out.push(b'[');
                for j in 0..10 { if j > 0 { out.push(b','); } write!(out, "{}", small(&mut r)).unwrap(); }
                out.push(b']');
            }
            out.extend(b"]\n");
        }
        _ => {
            out.extend(b"%value\n[");
            for i in 0..rows {
                if i > 0 { out.push(b','); }
                write!(out, "\"{}{}\"", ["cobalt", "newt", "weld", "row"][r.below(4) as usize], r.below(250_000)).unwrap();
            }
            out.extend(b"]\n");
        }
    }
    stdout().write_all(&out).unwrap();
}

struct Reader<'a> { text: &'a [u8], at: usize }
impl<'a> Reader<'a> {
    fn skip_to(&mut self, b: u8) {
        while self.text[self.at] != b { self.at += 1; }
        self.at += 1;
    }
    fn number(&mut self) -> i64 {
        let negative = self.text[self.at] == b'-';
        if negative { self.at += 1; }
        let mut x = 0i64;
        while self.text[self.at].is_ascii_digit() {
            x = x.wrapping_mul(10).wrapping_add((self.text[self.at] - b'0') as i64);
            self.at += 1;
        }
        if negative { x.wrapping_neg() } else { x }
    }
    // behind the opening bracket
    fn list<T>(&mut self, mut item: impl FnMut(&mut Self) -> T) -> Vec<T> {
        let mut v = Vec::new();
        if self.text[self.at] == b']' { self.at += 1; return v; }
        loop {
            v.push(item(self));
            self.at += 1;
            if self.text[self.at - 1] == b']' { return v; }
        }
    }
    fn numbers(&mut self) -> Vec<i64> {
        self.skip_to(b'[');
        self.list(|r| r.number())
    }
}

fn run(name: &str) {
    let mut text = Vec::new();
    stdin().read_to_end(&mut text).unwrap();
    let mut r = Reader { text: &text, at: 0 };
    while !r.text[r.at..].starts_with(b"\n%%\n") { r.at += 1; }
    r.at += 4;
    let mut out = Vec::new();
    match name {
        "passthrough" => {
            let v = r.numbers();
            out.push(b'[');
            for (i, x) in v.iter().enumerate() { if i > 0 { out.push(b','); } write!(out, "{x}").unwrap(); }
            out.extend(b"]\n");
        }
        "squares" => { let v = r.numbers(); let mut s = 0i64; for &x in &v { s = s.wrapping_add(x.wrapping_mul(x)); } writeln!(out, "{s}").unwrap() }
        "guarded" => { let v = r.numbers(); let mut s = 0i64; for &x in &v { if x > 3 { s = s.wrapping_add(x); } } writeln!(out, "{s}").unwrap() }
        "dot" => { let v = r.numbers(); let w = r.numbers(); let mut s = 0i64; for (&x, &y) in v.iter().zip(&w) { s = s.wrapping_add(x.wrapping_mul(y)); } writeln!(out, "{s}").unwrap() }
        "turns" => {
            let v = r.numbers(); let mut s = 0i64;
            for &x in &v {
                let (mut x, mut count) = (x, 0i64);
                while x != 1 { x = if x % 2 == 0 { x / 2 } else { x.wrapping_mul(3).wrapping_add(1) }; count += 1; }
                s += count;
            }
            writeln!(out, "{s}").unwrap()
        }
        "pairs" => {
            let v = r.numbers(); let mut s = 0i64;
            let pairs: Vec<(i64, i64)> = v.iter().enumerate().map(|(i, &x)| (x, x.wrapping_add(i as i64))).collect();
            for &(x, y) in std::hint::black_box(&pairs) { s = s.wrapping_add(x.wrapping_mul(y)); }
            writeln!(out, "{s}").unwrap()
        }
        "zipped" => {
            let v = r.numbers(); let w = r.numbers();
            let pairs: Vec<(i64, i64)> = v.iter().copied().zip(w.iter().copied()).collect();
            writeln!(out, "{}", std::hint::black_box(&pairs).len()).unwrap()
        }
        "vectors" => {
            let v = r.numbers();
            let lists: Vec<Vec<i64>> = v.iter().map(|&x| vec![x, x.wrapping_add(1)]).collect();
            writeln!(out, "{}", std::hint::black_box(&lists).len()).unwrap()
        }
        "dict10" | "dict100k" => {
            let k = r.numbers(); let v = r.numbers(); let mut d = BTreeMap::new();
            for (&k, &x) in k.iter().zip(&v) { let e = d.entry(k).or_insert(0i64); *e = e.wrapping_add(x); }
            out.extend(b"dict{");
            for (i, (k, x)) in d.iter().enumerate() { if i > 0 { out.push(b','); } write!(out, "{k}:{x}").unwrap(); }
            out.extend(b"}\n");
        }
        "cells" => {
            let k = r.numbers(); let mut c = r.numbers();
            for &x in &k { let e = &mut c[(x % 10) as usize]; *e = e.wrapping_add(1); }
            out.push(b'[');
            for (i, x) in c.iter().enumerate() { if i > 0 { out.push(b','); } write!(out, "{x}").unwrap(); }
            out.extend(b"]\n");
        }
        "groups" => {
            let k = r.numbers(); let v = r.numbers(); let mut d: BTreeMap<i64, Vec<i64>> = BTreeMap::new();
            for (&k, &x) in k.iter().zip(&v) { d.entry(k).or_default().push(x); }
            out.extend(b"dict{");
            for (i, (k, l)) in d.iter().enumerate() {
                if i > 0 { out.push(b','); }
                write!(out, "{k}:[").unwrap();
                for (j, x) in l.iter().enumerate() { if j > 0 { out.push(b','); } write!(out, "{x}").unwrap(); }
                out.push(b']');
            }
            out.extend(b"}\n");
        }
        "nested" => {
            r.skip_to(b'[');
            let m = r.list(|r| { r.at += 1; r.list(|r| r.number()) });
            let mut s = 0i64;
            for l in &m { let mut t = 0i64; for &x in l { t = t.wrapping_add(x); } s = s.wrapping_add(t); }
            writeln!(out, "{s}").unwrap()
        }
        _ => {
            r.skip_to(b'[');
            let w = r.list(|r| { r.at += 1; let from = r.at; while r.text[r.at] != b'"' { r.at += 1; } r.at += 1; r.text[from..r.at - 1].to_vec() });
            let mut d: BTreeMap<Vec<u8>, i64> = BTreeMap::new();
            for x in &w { *d.entry(x.clone()).or_insert(0) += 1; }
            out.extend(b"dict{");
            for (i, (k, x)) in d.iter().enumerate() { if i > 0 { out.push(b','); } out.push(b'"'); out.extend(k); write!(out, "\":{x}").unwrap(); }
            out.extend(b"}\n");
        }
    }
    stdout().write_all(&out).unwrap();
}

fn main() {
    let words: Vec<String> = std::env::args().skip(1).collect();
    let words: Vec<&str> = words.iter().map(String::as_str).collect();
    let rows_of = |name| JOBS.iter().find(|j| j.0 == name).map(|j| j.2);
    match (&words[..], words.get(1).and_then(|name| rows_of(*name))) {
        (["names"], _) => for j in JOBS { println!("{}", j.0) },
        (["make", name], Some(rows)) => make(name, rows),
        (["make", name, rows], Some(_)) if rows.parse::<usize>().is_ok() => make(name, rows.parse().unwrap()),
        (["run", name], Some(_)) => run(name),
        _ => {
            eprintln!("usage: plain names | make NAME [ROWS] | run NAME");
            std::process::exit(2);
        }
    }
}
