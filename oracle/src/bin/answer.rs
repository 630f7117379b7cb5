//! Answers questions from standard input with the Rust's own reader. `--files` prints which of its
//! files were compiled, `--build` which checks this build has in it.

fn main() -> std::io::Result<()> {
    match std::env::args().nth(1).as_deref() {
        None => oracle::harness::answer_all(std::io::stdin().lock(), std::io::stdout().lock()),
        Some("--files") => {
            print!("{}", oracle::COMPILED);
            Ok(())
        }
        Some("--build") => {
            println!("{}", oracle::harness::build());
            Ok(())
        }
        Some(_) => {
            eprintln!("usage: answer < questions, or answer --files, or answer --build");
            std::process::exit(2)
        }
    }
}
