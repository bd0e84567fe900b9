//! The table text: heap,S,N; static,words,objects; kind,size,map; task,T,D,C,a,h,life,consumer.

use crate::fault::Fault;

#[derive(Clone, Copy, PartialEq, Eq, Debug)]
pub struct Kind {
    pub size: u64,
    pub map: u64,
}

impl Kind {
    pub fn is_reference(&self, word: u64) -> bool {
        self.map >> word & 1 == 1
    }
}

#[derive(Clone, PartialEq, Eq, Debug)]
pub struct Task {
    pub period: u64,
    pub deadline: u64,
    pub units: u64,
    pub words: u64,
    pub objects: u64,
    pub life: u64,
    pub consumer: u64,
}

#[derive(Clone, PartialEq, Eq, Debug)]
pub struct Table {
    pub space: u64,
    pub handles: u64,
    pub static_words: u64,
    pub static_objects: u64,
    pub kinds: Vec<Kind>,
    pub tasks: Vec<Task>,
}

/// One line: its number and its comma-separated pieces, each with the column of its first byte.
struct Line<'a> {
    number: u64,
    pieces: Vec<(u64, &'a [u8])>,
    end: u64,
}

impl<'a> Line<'a> {
    fn new(number: u64, bytes: &'a [u8]) -> Line<'a> {
        let mut pieces = Vec::new();
        let mut column = 1;
        for piece in bytes.split(|&byte| byte == b',') {
            pieces.push((column, piece));
            column += piece.len() as u64 + 1;
        }
        Line { number, pieces, end: bytes.len() as u64 + 1 }
    }

    fn fault(&self, number: u32, column: u64) -> Fault {
        Fault::at("text", number, self.number, column)
    }

    /// Piece `index` as a number from `least` to `most`.
    fn field(&self, index: usize, least: u64, most: u64) -> Result<u64, Fault> {
        let &(column, piece) = self.pieces.get(index).ok_or(self.fault(5, self.end))?;
        let value = number(piece).ok_or(self.fault(3, column))?;
        if value < least || value > most {
            Err(self.fault(4, column))
        } else {
            Ok(value)
        }
    }

    /// No piece comes after piece `last`.
    fn ends_after(&self, last: usize) -> Result<(), Fault> {
        match self.pieces.get(last + 1) {
            None => Ok(()),
            Some(&(column, _)) => Err(self.fault(5, column - 1)),
        }
    }
}

/// 1 to 10 digits without a leading zero.
fn number(piece: &[u8]) -> Option<u64> {
    let digits = !piece.is_empty() && piece.len() <= 10 && piece.iter().all(u8::is_ascii_digit);
    if !digits || (piece.len() > 1 && piece[0] == b'0') {
        return None;
    }
    Some(piece.iter().fold(0, |value, digit| value * 10 + (digit - b'0') as u64))
}

fn read_kind(line: &Line) -> Result<Kind, Fault> {
    let size = line.field(1, 1, 32)?;
    let map = line.field(2, 0, (1 << size) - 1)?;
    line.ends_after(2)?;
    Ok(Kind { size, map })
}

fn read_task(line: &Line) -> Result<Task, Fault> {
    let period = line.field(1, 1, 1_000_000)?;
    let deadline = line.field(2, 1, period)?;
    let units = line.field(3, 1, deadline)?;
    let words = line.field(4, 0, 8192)?;
    let objects = line.field(5, 0, 256)?;
    let life = line.field(6, 0, 64)?;
    let consumer = line.field(7, 0, 16)?;
    if (life == 0) == (consumer == 0) {
        return Err(line.fault(4, line.pieces[7].0));
    }
    line.ends_after(7)?;
    Ok(Task { period, deadline, units, words, objects, life, consumer })
}

pub fn read(text: &[u8]) -> Result<Table, Fault> {
    if text.is_empty() || text.len() > 8192 || text[text.len() - 1] != b'\n' {
        return Err(Fault::of("text", 6));
    }
    let mut table = Table { space: 0, handles: 0, static_words: 0, static_objects: 0, kinds: vec![], tasks: vec![] };
    let bytes: Vec<&[u8]> = text[..text.len() - 1].split(|&byte| byte == b'\n').collect();
    let lines: Vec<Line> = bytes.iter().zip(1..).map(|(bytes, number)| Line::new(number, bytes)).collect();
    for line in &lines {
        let (kinds, tasks) = (table.kinds.len(), table.tasks.len());
        match (line.number, line.pieces[0].1) {
            (1, b"heap") => {
                table.space = line.field(1, 1, 8192)?;
                table.handles = line.field(2, 1, 256)?;
                line.ends_after(2)?;
            }
            (2, b"static") => {
                table.static_words = line.field(1, 0, 8192)?;
                table.static_objects = line.field(2, 0, 256)?;
                line.ends_after(2)?;
            }
            (3.., b"kind") if tasks == 0 && kinds < 32 => table.kinds.push(read_kind(line)?),
            (4.., b"task") if kinds > 0 && tasks < 16 => table.tasks.push(read_task(line)?),
            _ => return Err(line.fault(2, 1)),
        }
    }
    if table.tasks.is_empty() {
        return Err(Fault::at("text", 2, lines.len() as u64 + 1, 1));
    }
    check_consumers(&table, &lines)?;
    Ok(table)
}

/// Each consumer is another task of the table.
fn check_consumers(table: &Table, lines: &[Line]) -> Result<(), Fault> {
    for (i, task) in table.tasks.iter().enumerate() {
        let line = &lines[2 + table.kinds.len() + i];
        let consumer = task.consumer as usize;
        if consumer > table.tasks.len() || consumer == i + 1 {
            return Err(line.fault(4, line.pieces[7].0));
        }
    }
    Ok(())
}
