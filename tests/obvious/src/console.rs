//! The commands of the bench console that a book needs, with the console's answers.

use crate::board::{Board, Entry, Fault, NONE};
use std::io::{self, BufRead, Write};
use std::time::Instant;

/// What is kept between commands: the board of the last image, its two books, and how many patterns are tried for a fault where not all are.
#[derive(Default)]
pub struct Console {
    board: Option<Board>,
    book: Vec<Entry>,
    pins: Vec<Entry>,
    part: Option<u64>,
}

// Gives the bytes of a word of two digits a byte.
fn bytes(hex: &str) -> Option<Vec<u8>> {
    let digits: Option<Vec<u32>> = hex.chars().map(|digit| digit.to_digit(16)).collect();
    let digits = digits.filter(|digits| digits.len() % 2 == 0)?;
    Some(digits.chunks(2).map(|pair| (16 * pair[0] + pair[1]) as u8).collect())
}

// Gives a book's numbers on one line.
fn listed(name: &str, entries: &[Entry]) -> String {
    entries.iter().fold(name.to_string(), |line, entry| line + " " + &entry.to_string())
}

impl Console {
    // Gives a console that tries all patterns, or that tries so many of them for each fault.
    pub fn new(part: Option<u64>) -> Console {
        Console { part, ..Console::default() }
    }

    // Takes an image and fresh books of 99s, and gives the board's counts.
    fn load(&mut self, image: Option<Vec<u8>>) -> String {
        match image.and_then(|image| Board::of(&image)) {
            None => "? not a good image".to_string(),
            Some(board) => {
                let counts = (board.lines(), board.inputs, board.outputs.len());
                self.book = vec![99; 2 * counts.0];
                self.pins = vec![99; 8 * counts.0];
                self.board = Some(board);
                format!("board {} lines {} inputs {} outputs", counts.0, counts.1, counts.2)
            }
        }
    }

    // Fills a book, and gives how many of its entries are not none, or in part how many patterns were tried in what time.
    fn fill(&mut self, faults: fn(&Board) -> Vec<Option<Fault>>, book: fn(&mut Console) -> &mut Vec<Entry>) -> String {
        let board = match &self.board {
            None => return "? no board".to_string(),
            Some(board) => board,
        };
        let start = Instant::now();
        let (entries, tried) = board.book(&faults(board), self.part.unwrap_or(u64::MAX));
        let seconds = start.elapsed().as_secs_f64();
        let found = entries.iter().filter(|&&entry| entry != NONE).count();
        let length = entries.len();
        *book(self) = entries;
        match self.part {
            None => format!("found {found} of {length}"),
            Some(_) => format!("tried {tried} patterns in {seconds:.6} s"),
        }
    }

    // Gives the answer to one command.
    pub fn answer(&mut self, command: &str) -> String {
        match command.split_once(' ') {
            Some(("load", hex)) => self.load(bytes(hex)),
            Some(("open", path)) => self.load(std::fs::read(path).ok()),
            _ => match command {
                "book" => self.fill(Board::line_faults, |console| &mut console.book),
                "pin book" => self.fill(Board::pin_faults, |console| &mut console.pins),
                "entries" => listed("entries", &self.book),
                "pin entries" => listed("pins", &self.pins),
                _ => "? no such command".to_string(),
            },
        }
    }

    // Gives each command its answer, one line each, until the input ends.
    pub fn talk(&mut self, input: impl BufRead, mut output: impl Write) -> io::Result<()> {
        for command in input.lines() {
            let answer = self.answer(&command?) + "\n";
            output.write_all(answer.as_bytes())?;
            output.flush()?;
        }
        Ok(())
    }
}
