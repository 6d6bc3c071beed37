// Starts a program so often on each of so many threads, one after another: with two pipes, of which one gives it what
// stands on standard input, and the other is read to its end. Then it is waited for.
//
// usage: restarts THREADS STARTS PROGRAM [WORD..]
use std::env;
use std::io::{self, Read, Write};
use std::process::{Command, Stdio};
use std::thread;

fn live(words: &[String], given: &[u8]) -> io::Result<()> {
    let mut child = Command::new(&words[0])
        .args(&words[1..])
        .stdin(Stdio::piped())
        .stdout(Stdio::piped())
        .spawn()?;
    let (input, output) = (child.stdin.take(), child.stdout.take());
    if !given.is_empty() {
        input.expect("its input").write_all(given)?;
    }
    output.expect("its output").read_to_end(&mut Vec::new())?;
    child.wait()?;
    Ok(())
}

fn main() -> io::Result<()> {
    let words: Vec<String> = env::args().skip(1).collect();
    let [threads, starts] = [&words[0], &words[1]].map(|word| word.parse::<u32>().expect("a number"));
    let mut given = Vec::new();
    io::stdin().read_to_end(&mut given)?;
    thread::scope(|scope| {
        let works: Vec<_> = (0..threads)
            .map(|_| scope.spawn(|| (0..starts).try_for_each(|_| live(&words[2..], &given))))
            .collect();
        works.into_iter().try_for_each(|work| work.join().expect("a thread"))
    })
}
