//! Plays the script on standard input, and prints each call with its answer as soon as its line was read. With `--batched` it
//! prints only when it would have to wait for more of the script, or has much to print.

use plain::play::{NEW_MEMORY, Player};
use std::io::{self, BufRead, BufReader, Write};

const MUCH: usize = 1 << 16;

fn main() -> io::Result<()> {
    let batched = std::env::args().nth(1).is_some_and(|word| word == "--batched");
    let mut input = BufReader::with_capacity(MUCH, io::stdin().lock());
    let mut output = io::stdout().lock();
    let mut memory = NEW_MEMORY;
    let mut player = Player::new(&mut memory);
    let (mut line, mut out) = (Vec::new(), Vec::new());
    while input.read_until(b'\n', &mut line)? > 0 {
        player.play_line(&line, &mut out);
        line.clear();
        if !batched || input.buffer().is_empty() || out.len() > MUCH {
            output.write_all(&out)?;
            out.clear();
        }
    }
    output.write_all(&out)?;
    output.flush()
}
