//! A plain interpreter of images of version 2, as one would write it who trusts the image: `plain IMAGE < LINES`.
//! It verifies nothing, and panics at bytes that are no image and at lines that give no inputs. Each line is written
//! before the next is read.
use std::collections::{BinaryHeap, HashMap};
use std::io::{self, BufRead, Write};

struct Reader<'a> {
    bytes: &'a [u8],
    at: usize,
}

impl Reader<'_> {
    fn take<const N: usize>(&mut self) -> [u8; N] {
        let taken = self.bytes[self.at..self.at + N].try_into().unwrap();
        self.at += N;
        taken
    }

    fn byte(&mut self) -> u8 {
        self.take::<1>()[0]
    }

    fn number(&mut self) -> usize {
        u16::from_le_bytes(self.take()) as usize
    }

    fn int(&mut self) -> i32 {
        i32::from_le_bytes(self.take())
    }

    fn text(&mut self) -> String {
        let length = self.byte() as usize;
        let text = String::from_utf8(self.bytes[self.at..self.at + length].to_vec()).unwrap();
        self.at += length;
        text
    }

    fn code(&mut self) -> Vec<Operation> {
        let count = self.byte();
        (0..count).map(|_| self.operation()).collect()
    }

    fn operation(&mut self) -> Operation {
        match self.byte() {
            0 => Operation::Literal(self.byte() as i32),
            1 => Operation::Literal(self.int()),
            2 => Operation::Load(self.number()),
            3 => Operation::Negate,
            4 => Operation::Not,
            18 => Operation::Divide(self.int()),
            19 => Operation::Remainder(self.int()),
            sign => Operation::Binary(sign),
        }
    }
}

enum Operation {
    Literal(i32),
    Load(usize),
    Negate,
    Not,
    Binary(u8),
    Divide(i32),
    Remainder(i32),
}

enum Step {
    Exit,
    Assign { variable: usize, next: usize, code: Vec<Operation> },
    Update { variable: usize, sign: u8, next: usize, code: Vec<Operation> },
    Cond { then: usize, other: usize, code: Vec<Operation> },
    Fork { join: usize, children: Vec<usize> },
    Join { next: usize },
    Depth { next: usize },
    Surf { depth: usize },
}

struct Variable {
    role: u8,
    is_int: bool,
    name: String,
}

struct Image {
    variables: Vec<Variable>,
    /// The parent of each thread, and where it begins.
    threads: Vec<(usize, usize)>,
    steps: Vec<Step>,
    priorities: Vec<usize>,
}

fn decode(bytes: &[u8]) -> Image {
    let mut reader = Reader { bytes, at: 5 };
    assert!(bytes.starts_with(b"SCCB\x02"));
    let count = reader.number();
    let variables = (0..count)
        .map(|_| Variable { role: reader.byte(), is_int: reader.byte() == 1, name: reader.text() })
        .collect();
    let count = reader.number();
    let threads = (0..count)
        .map(|_| {
            let thread = (reader.number(), reader.number());
            reader.int();
            thread
        })
        .collect();
    let count = reader.number();
    let (mut steps, mut priorities) = (Vec::new(), Vec::new());
    for _ in 0..count {
        reader.number();
        priorities.push(reader.number());
        reader.take::<3>();
        steps.push(step(&mut reader));
    }
    Image { variables, threads, steps, priorities }
}

fn step(reader: &mut Reader<'_>) -> Step {
    match reader.byte() {
        0 => Step::Exit,
        1 => Step::Assign { variable: reader.number(), next: reader.number(), code: reader.code() },
        2 => {
            let (variable, sign) = (reader.number(), [5, 7, 8, 9, 10, 11][reader.byte() as usize]);
            Step::Update { variable, sign, next: reader.number(), code: reader.code() }
        }
        3 => Step::Cond { then: reader.number(), other: reader.number(), code: reader.code() },
        4 => {
            let (join, count) = (reader.number(), reader.byte());
            Step::Fork { join, children: (0..count).map(|_| reader.number()).collect() }
        }
        6 => Step::Surf { depth: reader.number() },
        5 => Step::Join { next: reader.number() },
        _ => Step::Depth { next: reader.number() },
    }
}

fn combine(sign: u8, a: i32, b: i32) -> i32 {
    match sign {
        5 => a.wrapping_add(b),
        6 => a.wrapping_sub(b),
        7 => a.wrapping_mul(b),
        8 => a.min(b),
        9 => a.max(b),
        10 => a & b,
        11 => a | b,
        12 => (a == b) as i32,
        13 => (a != b) as i32,
        14 => (a < b) as i32,
        15 => (a <= b) as i32,
        16 => (a > b) as i32,
        _ => (a >= b) as i32,
    }
}

fn value(code: &[Operation], values: &[i32], stack: &mut Vec<i32>) -> i32 {
    stack.clear();
    for operation in code {
        match operation {
            Operation::Literal(number) => stack.push(*number),
            Operation::Load(variable) => stack.push(values[*variable]),
            other => {
                let last = stack.pop().unwrap();
                let made = match other {
                    Operation::Negate => last.wrapping_neg(),
                    Operation::Not => 1 - last,
                    Operation::Divide(divisor) => last.wrapping_div(*divisor),
                    Operation::Remainder(divisor) => last.wrapping_rem(*divisor),
                    Operation::Binary(sign) => combine(*sign, stack.pop().unwrap(), last),
                    _ => unreachable!(),
                };
                stack.push(made);
            }
        }
    }
    stack[0]
}

#[derive(Clone, Copy)]
enum Status {
    Absent,
    At(usize),
    Waits(usize),
    Paused(usize),
    Ended,
}

struct Machine<'a> {
    image: &'a Image,
    /// The fork of each join.
    forks: Vec<usize>,
    values: Vec<i32>,
    statuses: Vec<Status>,
    /// Of each thread that waits, how many children have not ended.
    left: Vec<usize>,
    /// Threads that can step, by priority.
    ready: BinaryHeap<(usize, usize)>,
    paused: Vec<usize>,
    stack: Vec<i32>,
}

impl<'a> Machine<'a> {
    fn new(image: &'a Image) -> Machine<'a> {
        let mut forks = vec![0; image.steps.len()];
        for (fork, step) in image.steps.iter().enumerate() {
            if let Step::Fork { join, .. } = step {
                forks[*join] = fork;
            }
        }
        let threads = image.threads.len();
        Machine {
            image,
            forks,
            values: vec![0; image.variables.len()],
            statuses: vec![Status::Absent; threads],
            left: vec![0; threads],
            ready: BinaryHeap::new(),
            paused: Vec::new(),
            stack: Vec::new(),
        }
    }

    fn wake(&mut self, thread: usize, node: usize) {
        self.statuses[thread] = Status::At(node);
        self.ready.push((self.image.priorities[node], thread));
    }

    /// A tick over the inputs that stand among the values, and its number of steps.
    fn tick(&mut self) -> i64 {
        if let Status::Absent = self.statuses[0] {
            self.wake(0, self.image.threads[0].1);
        }
        for thread in std::mem::take(&mut self.paused) {
            if let Status::Paused(depth) = self.statuses[thread] {
                self.wake(thread, depth);
            }
        }
        let mut steps = 0;
        while let Some((priority, thread)) = self.ready.pop() {
            let mut next = match self.statuses[thread] {
                Status::At(node) | Status::Waits(node) => Some(node),
                _ => unreachable!(),
            };
            // priorities never rise along a thread, so it goes on while it keeps its own
            while let Some(node) = next {
                if self.image.priorities[node] != priority {
                    self.wake(thread, node);
                    break;
                }
                steps += 1;
                next = self.step(thread, node);
            }
        }
        steps
    }

    /// A step of a thread, and the node at which it stands then.
    fn step(&mut self, thread: usize, node: usize) -> Option<usize> {
        let image = self.image;
        match &image.steps[node] {
            Step::Assign { variable, next, code } => {
                self.values[*variable] = value(code, &self.values, &mut self.stack);
                Some(*next)
            }
            Step::Update { variable, sign, next, code } => {
                let operand = value(code, &self.values, &mut self.stack);
                self.values[*variable] = combine(*sign, self.values[*variable], operand);
                Some(*next)
            }
            Step::Cond { then, other, code } => {
                let holds = value(code, &self.values, &mut self.stack) != 0;
                Some(if holds { *then } else { *other })
            }
            Step::Fork { join, children } => {
                self.statuses[thread] = Status::Waits(*join);
                self.left[thread] = children.len();
                for child in children {
                    self.wake(*child, image.threads[*child].1);
                }
                None
            }
            Step::Surf { depth } => {
                self.statuses[thread] = Status::Paused(*depth);
                self.paused.push(thread);
                None
            }
            Step::Join { next } => {
                if let Step::Fork { children, .. } = &image.steps[self.forks[node]] {
                    children.iter().for_each(|child| self.statuses[*child] = Status::Absent);
                }
                Some(*next)
            }
            Step::Depth { next } => Some(*next),
            Step::Exit => {
                self.end(thread);
                None
            }
        }
    }

    /// Ends a thread. Where it is the last child of its parent, that can step.
    fn end(&mut self, thread: usize) {
        self.statuses[thread] = Status::Ended;
        if thread == 0 {
            return;
        }
        let parent = self.image.threads[thread].0;
        self.left[parent] -= 1;
        if let (0, Status::Waits(join)) = (self.left[parent], self.statuses[parent]) {
            self.ready.push((self.image.priorities[join], parent));
        }
    }
}

/// Writes the inputs of a line among the values. A line is an object of names with no escapes, with Bools and integers.
fn read(line: &[u8], inputs: &HashMap<&[u8], usize>, values: &mut [i32]) {
    inputs.values().for_each(|variable| values[*variable] = 0);
    let members = line.strip_prefix(b"{").and_then(|rest| rest.strip_suffix(b"}\n")).unwrap();
    for member in members.split(|byte| *byte == b',').filter(|member| !member.is_empty()) {
        let colon = member.iter().position(|byte| *byte == b':').unwrap();
        let variable = inputs[&member[1..colon - 1]];
        values[variable] = match &member[colon + 1..] {
            b"true" => 1,
            b"false" => 0,
            number => std::str::from_utf8(number).unwrap().parse().unwrap(),
        };
    }
}

/// Writes an integer in decimal.
fn put(shown: &mut Vec<u8>, number: i64) {
    let mut digits = [0; 20];
    let (mut from, mut left) = (20, number.unsigned_abs());
    while left > 0 || from == 20 {
        from -= 1;
        digits[from] = b'0' + (left % 10) as u8;
        left /= 10;
    }
    if number < 0 {
        shown.push(b'-');
    }
    shown.extend_from_slice(&digits[from..]);
}

fn show(shown: &mut Vec<u8>, outputs: &[(usize, &Variable)], values: &[i32], steps: i64, tick: i64) {
    shown.clear();
    shown.extend_from_slice(b"{\"out\":{");
    for (at, (x, variable)) in outputs.iter().enumerate() {
        shown.extend_from_slice(if at > 0 { b",\"" } else { b"\"" });
        shown.extend_from_slice(variable.name.as_bytes());
        shown.extend_from_slice(b"\":");
        match (variable.is_int, values[*x]) {
            (true, number) => put(shown, number as i64),
            (false, 0) => shown.extend_from_slice(b"false"),
            (false, _) => shown.extend_from_slice(b"true"),
        }
    }
    shown.extend_from_slice(b"},\"steps\":");
    put(shown, steps);
    shown.extend_from_slice(b",\"tick\":");
    put(shown, tick);
    shown.extend_from_slice(b"}\n");
}

fn main() -> io::Result<()> {
    let path = std::env::args().nth(1).unwrap();
    let image = decode(&std::fs::read(path)?);
    let names = || image.variables.iter().enumerate();
    let inputs = names().filter(|(_, v)| v.role == 0).map(|(x, v)| (v.name.as_bytes(), x)).collect();
    let mut outputs: Vec<(usize, &Variable)> = names().filter(|(_, v)| v.role == 1).collect();
    outputs.sort_by(|a, b| a.1.name.cmp(&b.1.name));
    let mut machine = Machine::new(&image);
    let (mut input, mut output) = (io::stdin().lock(), io::stdout().lock());
    let (mut line, mut shown) = (Vec::new(), Vec::new());
    for tick in 1.. {
        line.clear();
        if input.read_until(b'\n', &mut line)? == 0 {
            break;
        }
        read(&line, &inputs, &mut machine.values);
        let steps = machine.tick();
        show(&mut shown, &outputs, &machine.values, steps, tick);
        output.write_all(&shown)?;
        output.flush()?;
    }
    Ok(())
}
