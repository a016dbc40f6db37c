//! ABRO by hand: what a line of input costs at the least. `abro [held] < LINES`; a line of output has no steps. It is
//! written at once, or with the word `held` where 64 KB are held, and at the end.
use std::io::{self, BufRead, BufWriter, Write};

fn main() -> io::Result<()> {
    let mut input = io::stdin().lock();
    let is_held = std::env::args().any(|word| word == "held");
    let mut output = BufWriter::with_capacity(65536, io::stdout().lock());
    let (mut line, mut shown) = (String::new(), Vec::new());
    let (mut a, mut b, mut o) = (false, false, false);
    let mut tick = 0u64;
    loop {
        line.clear();
        if input.read_line(&mut line)? == 0 {
            return output.flush();
        }
        let (given_a, given_b, given_r) =
            (line.contains("\"A\":true"), line.contains("\"B\":true"), line.contains("\"R\":true"));
        tick += 1;
        if tick > 1 {
            a = !given_r && (a || given_a);
            b = !given_r && (b || given_b);
            o = !given_r && (o || a && b);
        }
        shown.clear();
        writeln!(shown, "{{\"out\":{{\"O\":{o}}},\"tick\":{tick}}}")?;
        output.write_all(&shown)?;
        if !is_held {
            output.flush()?;
        }
    }
}
