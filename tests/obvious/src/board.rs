//! A board, decoded once from its image, and the obvious search: patterns from 0 upward, both boards in full for each.

/// An entry of a book.
pub type Entry = u64;
/// The entry that says no pattern shows the fault.
pub const NONE: Entry = 18_446_744_073_709_551_615;
/// The most inputs a board has.
const MOST_INPUTS: usize = 32;

/// One line held at 0 or at 1, or with `pin` one pin of its gate.
#[derive(Clone, Copy)]
pub struct Fault {
    pub line: usize,
    pub pin: Option<usize>,
    pub stuck: u8,
}

/// One line: its kind, how many pins it has and the lines that they name.
struct Line {
    kind: u8,
    count: usize,
    pins: [usize; 4],
}

/// A good board.
pub struct Board {
    lines: Vec<Line>,
    pub inputs: usize,
    pub outputs: Vec<usize>,
}

// Gives the number in two bytes, the lower byte first.
fn number(bytes: &[u8]) -> usize {
    bytes[0] as usize + 256 * bytes[1] as usize
}

impl Line {
    // Gives the line of a record of ten bytes.
    fn of(record: &[u8]) -> Line {
        let pin = |i: usize| number(&record[2 + 2 * i..]);
        Line { kind: record[0], count: record[1] as usize, pins: [pin(0), pin(1), pin(2), pin(3)] }
    }

    // Gives whether the line may stand at a place: its kind known, its pin count allowed, its pins below it.
    fn fits(&self, place: usize) -> bool {
        let allowed = match self.kind {
            0 | 9 | 10 => self.count == 0,
            1 | 2 => self.count == 1,
            3..=8 => (2..=4).contains(&self.count),
            _ => false,
        };
        allowed && self.pins[..self.count].iter().all(|&pin| pin < place)
    }

    // Gives a gate's value from what its pins read: odd kinds by the table, even kinds the opposite.
    fn gate(&self, read: impl Iterator<Item = u8>) -> u8 {
        let value = match self.kind {
            3 | 4 => read.fold(1, |all, pin| all & pin),
            5 | 6 => read.fold(0, |some, pin| some | pin),
            9 | 10 => 0,
            _ => read.fold(0, |odd, pin| odd ^ pin),
        };
        value ^ u8::from(self.kind % 2 == 0)
    }

    // Gives the line's value at a place, from the pattern and the row below.
    fn value(&self, place: usize, pattern: u64, row: &[u8]) -> u8 {
        if self.kind == 0 {
            return (pattern >> place & 1) as u8;
        }
        self.gate(self.pins[..self.count].iter().map(|&pin| row[pin]))
    }

    // Gives the value of the line that has the fault.
    fn faulty_value(&self, fault: Fault, row: &[u8]) -> u8 {
        match fault.pin {
            None => fault.stuck,
            Some(held) => {
                self.gate((0..self.count).map(|pin| if pin == held { fault.stuck } else { row[self.pins[pin]] }))
            }
        }
    }
}

impl Board {
    // Gives the board of an image, where it is a good one as far as this program needs it.
    pub fn of(image: &[u8]) -> Option<Board> {
        let end = image.len().checked_sub(12)?;
        let (lines, outputs) = (number(&image[end..]), number(&image[end + 2..]));
        let records = end.checked_sub(10 * lines + 2 * outputs)?;
        let lists = &image[records..end];
        let lines: Vec<Line> = lists[..10 * lines].chunks(10).map(Line::of).collect();
        let outputs: Vec<usize> = lists[10 * lines.len()..].chunks(2).map(number).collect();
        let inputs = lines.iter().take_while(|line| line.kind == 0).count();
        let good = (1..=MOST_INPUTS).contains(&inputs)
            && lines.iter().enumerate().all(|(place, line)| line.fits(place))
            && outputs.iter().all(|&output| output < lines.len());
        good.then(|| Board { lines, inputs, outputs })
    }

    // Gives how many lines there are.
    pub fn lines(&self) -> usize {
        self.lines.len()
    }

    // Gives the fault of each entry of the book of lines.
    pub fn line_faults(&self) -> Vec<Option<Fault>> {
        let fault = |k: usize| Some(Fault { line: k / 2, pin: None, stuck: (k % 2) as u8 });
        (0..2 * self.lines()).map(fault).collect()
    }

    // Gives the fault of each entry of the pin book; an absent pin has none.
    pub fn pin_faults(&self) -> Vec<Option<Fault>> {
        let fault = |k: usize| Fault { line: k / 8, pin: Some(k % 8 / 2), stuck: (k % 2) as u8 };
        (0..8 * self.lines()).map(|k| (k % 8 / 2 < self.lines[k / 8].count).then(|| fault(k))).collect()
    }

    // Fills the row with every line's value for a pattern, of the good board or of the one with the fault.
    pub fn run(&self, pattern: u64, fault: Option<Fault>, row: &mut [u8]) {
        for (place, line) in self.lines.iter().enumerate() {
            row[place] = match fault {
                Some(fault) if fault.line == place => line.faulty_value(fault, row),
                _ => line.value(place, pattern, row),
            };
        }
    }

    // Gives the smallest pattern below `end` that shows the fault, or NONE, and how many patterns were tried.
    pub fn find(&self, fault: Fault, end: u64) -> (Entry, u64) {
        let mut good = vec![0; self.lines()];
        let mut faulty = vec![0; self.lines()];
        for pattern in 0..end {
            self.run(pattern, None, &mut good);
            self.run(pattern, Some(fault), &mut faulty);
            if self.outputs.iter().any(|&output| good[output] != faulty[output]) {
                return (pattern, pattern + 1);
            }
        }
        (NONE, end)
    }

    // Gives the entries of these faults, trying at most so many patterns for each, and how many patterns were tried.
    pub fn book(&self, faults: &[Option<Fault>], most: u64) -> (Vec<Entry>, u64) {
        let end = most.min(1 << self.inputs);
        let mut tried = 0;
        let mut entries = Vec::new();
        for fault in faults {
            let (entry, patterns) = fault.map_or((NONE, 0), |fault| self.find(fault, end));
            entries.push(entry);
            tried += patterns;
        }
        (entries, tried)
    }
}
