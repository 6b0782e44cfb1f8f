//! What `rewrite` does, in plain Rust with nothing proved: the measure for `bench/rewrite`.
//!
//! plain FILE: reads an .aut text and writes it in its normal form. It checks only that numbers are numbers.
use std::collections::HashMap;
use std::env;
use std::error::Error;
use std::fs::File;
use std::io::{self, BufRead, BufReader, BufWriter, Write};

const PIECE: usize = 65_536;

#[derive(Clone, Copy)]
struct Step {
    source: u32,
    label: u32,
    target: u32,
}

#[derive(Default)]
struct System {
    initial: u32,
    states: u32,
    labels: HashMap<Vec<u8>, u32>,
    steps: Vec<Step>,
}

fn trim(bytes: &[u8]) -> &[u8] {
    let is_text = |byte: &u8| !matches!(byte, b' ' | b'\t' | b'\r' | b'\n');
    let Some(start) = bytes.iter().position(is_text) else {
        return &[];
    };
    let end = bytes
        .iter()
        .rposition(is_text)
        .map_or(start, |last| last + 1);
    &bytes[start..end]
}

fn number(bytes: &[u8]) -> Option<u32> {
    let digits = trim(bytes);
    if digits.is_empty() {
        return None;
    }
    digits.iter().try_fold(0u32, |value, byte| {
        let digit = byte.is_ascii_digit().then(|| u32::from(byte - b'0'))?;
        value.checked_mul(10)?.checked_add(digit)
    })
}

// The three fields between the brackets: up to the first comma, up to the last, and the rest.
fn fields(text: &[u8]) -> Option<(&[u8], &[u8], &[u8])> {
    let inner = text.strip_prefix(b"(")?.strip_suffix(b")")?;
    let first = inner.iter().position(|byte| *byte == b',')?;
    let last = inner.iter().rposition(|byte| *byte == b',')?;
    (first < last).then(|| (&inner[..first], &inner[first + 1..last], &inner[last + 1..]))
}

fn unquoted(field: &[u8]) -> &[u8] {
    field
        .strip_prefix(b"\"")
        .and_then(|rest| rest.strip_suffix(b"\""))
        .unwrap_or(field)
}

impl System {
    fn take_header(&mut self, line: &[u8]) -> Option<()> {
        let (initial, _, states) = fields(trim(line.strip_prefix(b"des")?))?;
        self.initial = number(initial)?;
        self.states = number(states)?;
        Some(())
    }

    // The number of the label. Only a new one is copied.
    fn number_label(&mut self, label: &[u8]) -> u32 {
        if let Some(number) = self.labels.get(label) {
            return *number;
        }
        let number = self.labels.len() as u32;
        self.labels.insert(label.to_vec(), number);
        number
    }

    fn take_step(&mut self, line: &[u8]) -> Option<()> {
        let (source, label, target) = fields(line)?;
        let source = number(source)?;
        let target = number(target)?;
        let label = self.number_label(unquoted(trim(label)));
        self.steps.push(Step {
            source,
            label,
            target,
        });
        Some(())
    }

    fn write(&self, out: &mut impl Write) -> io::Result<()> {
        let mut labels: Vec<&[u8]> = vec![&[]; self.labels.len()];
        for (label, number) in &self.labels {
            labels[*number as usize] = label;
        }
        writeln!(
            out,
            "des ({}, {}, {})",
            self.initial,
            self.steps.len(),
            self.states
        )?;
        for step in &self.steps {
            write!(out, "({}, \"", step.source)?;
            out.write_all(labels[step.label as usize])?;
            writeln!(out, "\", {})", step.target)?;
        }
        out.flush()
    }
}

fn read(name: &str) -> Result<System, Box<dyn Error>> {
    let mut input = BufReader::with_capacity(PIECE, File::open(name)?);
    let mut system = System::default();
    let mut line = Vec::new();
    let mut is_first = true;
    while input.read_until(b'\n', &mut line)? > 0 {
        let text = trim(&line);
        if !text.is_empty() {
            let taken = if is_first {
                system.take_header(text)
            } else {
                system.take_step(text)
            };
            taken.ok_or("a line is not of its form")?;
            is_first = false;
        }
        line.clear();
    }
    Ok(system)
}

fn main() -> Result<(), Box<dyn Error>> {
    let name = env::args().nth(1).ok_or("plain FILE")?;
    let mut out = BufWriter::new(io::stdout().lock());
    read(&name)?.write(&mut out)?;
    Ok(())
}
