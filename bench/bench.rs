//! The proved judge against a plain one, on the largest books that there are.
//!
//! `bench JUDGE` makes three books, gives each to the program JUDGE and to the plain judge below (this program, started anew with the
//! argument `plain`), compares what they print, and prints both times and their ratio. `bench plain < BOOK` is the plain judge alone.

mod books;
mod plain;

use std::io::{Read, Write};
use std::path::Path;
use std::process::{Command, Stdio};
use std::time::{Duration, Instant};

const TRIES: usize = 7;
const RATIO: f64 = 10.0;
const LIMIT: Duration = Duration::from_secs(1);

/// What the program prints for the book, and how long it took from start to end.
fn run(program: &Path, arguments: &[&str], book: &[u8]) -> (Vec<u8>, Duration) {
    let begun = Instant::now();
    let mut child = Command::new(program)
        .args(arguments)
        .stdin(Stdio::piped())
        .stdout(Stdio::piped())
        .spawn()
        .expect("the program starts");
    // A book has at most 65,535 bytes, which a pipe takes before the program has read the first.
    child.stdin.take().expect("its input").write_all(book).expect("it reads the book");
    let output = child.wait_with_output().expect("it ends");
    assert!(output.status.success(), "{} ended with {}", program.display(), output.status);
    (output.stdout, begun.elapsed())
}

/// The same, the shortest of several tries.
fn best(program: &Path, arguments: &[&str], book: &[u8]) -> (Vec<u8>, Duration) {
    let (text, mut time) = run(program, arguments, book);
    for _ in 1..TRIES {
        time = time.min(run(program, arguments, book).1);
    }
    (text, time)
}

fn compare(judge: &Path) -> bool {
    let myself = std::env::current_exe().expect("this program's own path");
    let mut met = true;
    println!("{:<8} {:>7} {:>7} {:>12} {:>12} {:>7}", "book", "bytes", "rounds", "judge", "plain", "ratio");
    for (name, book) in books::all() {
        let (proved, slow) = best(judge, &[], &book);
        let (plain, fast) = best(&myself, &["plain"], &book);
        let ratio = slow.as_secs_f64() / fast.as_secs_f64();
        let rounds = plain::most_rounds(&plain);
        println!("{name:<8} {:>7} {rounds:>7} {slow:>12.1?} {fast:>12.1?} {ratio:>7.1}", book.len());
        if proved != plain {
            println!("  the two judges print different listings");
            met = false;
        }
        if ratio > RATIO || slow > LIMIT {
            println!("  over the goal: {RATIO} times the plain judge and under {LIMIT:?}");
            met = false;
        }
    }
    met
}

fn main() {
    let arguments: Vec<String> = std::env::args().skip(1).collect();
    match arguments.as_slice() {
        [word] if word == "plain" => {
            let mut book = Vec::new();
            std::io::stdin().read_to_end(&mut book).expect("standard input");
            std::io::stdout().write_all(plain::listing(&book).as_bytes()).expect("standard output");
        }
        [word, folder] if word == "books" => {
            for (name, book) in books::all() {
                std::fs::write(Path::new(folder).join(format!("{name}.book")), book).expect("the folder is there");
            }
        }
        [judge] => {
            if !compare(Path::new(judge)) {
                std::process::exit(1);
            }
        }
        _ => {
            eprintln!("usage: bench JUDGE\n       bench plain < BOOK\n       bench books FOLDER");
            std::process::exit(1);
        }
    }
}
