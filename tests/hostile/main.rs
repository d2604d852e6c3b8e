//! Feeds the proved reader of term texts hostile bytes, and compares each answer with the one that the grammar gives.
//! Built and run by tests/hostile/run.sh.

#[path = "../answers.rs"]
mod answers;
mod definition;
mod inputs;
mod large;
mod machine;
mod random;
#[path = "../reader.rs"]
mod reader;
mod spelling;
mod term;

use answers::{Answers, bytes_of, hex};
use definition::{Answer, Kind};
use inputs::Input;
use random::Random;
use reader::{Reading, read};
use std::process::exit;
use std::time::{Duration, Instant};

/// How many inputs are asked about at once.
const BATCH: usize = 4000;

/// How many answers of each sort came: a term, and each kind of fault.
#[derive(Default)]
struct Counts {
    read: u64,
    syntax: u64,
    too_long: u64,
    too_deep: u64,
    too_wide: u64,
}

impl Counts {
    fn add(&mut self, answer: &Answer) {
        let count = match answer {
            Answer::Read { .. } => &mut self.read,
            Answer::Refused { kind: Kind::Syntax, .. } => &mut self.syntax,
            Answer::Refused { kind: Kind::AtomTooLong, .. } => &mut self.too_long,
            Answer::Refused { kind: Kind::TooDeep, .. } => &mut self.too_deep,
            Answer::Refused { kind: Kind::TooWide, .. } => &mut self.too_wide,
        };
        *count += 1;
    }

    fn all(&self) -> u64 {
        self.read + self.syntax + self.too_long + self.too_deep + self.too_wide
    }

    /// Whether each sort came, so that each was compared.
    fn are_full(&self) -> bool {
        [self.read, self.syntax, self.too_long, self.too_deep, self.too_wide].iter().all(|count| *count > 0)
    }
}

/// What the reader answers, in the words of the grammar, or None for want of memory.
fn told(reading: Reading) -> Option<Answer> {
    let (name, at) = match reading {
        Reading::Read { length, text } => return Some(Answer::Read { length, text }),
        Reading::Fault { name, at } => (name, at),
    };
    let kind = [Kind::Syntax, Kind::AtomTooLong, Kind::TooDeep, Kind::TooWide].into_iter().find(|kind| format!("{kind:?}") == name)?;
    Some(Answer::Refused { kind, at })
}

fn shown(answer: &Option<Answer>) -> String {
    match answer {
        Some(Answer::Read { length, text }) => format!("{length} bytes, printed as {}", String::from_utf8_lossy(text)),
        Some(Answer::Refused { kind, at }) => format!("{kind:?} at {at}"),
        None => "no memory".to_string(),
    }
}

fn tell(bytes: &[u8], wanted: &Option<Answer>, told: &Option<Answer>) {
    println!("input {}", hex(bytes));
    println!("      {}", String::from_utf8_lossy(bytes).escape_debug());
    println!("the grammar: {}", shown(wanted));
    println!("the reader:  {}", shown(told));
}

fn stop(why: &str, bytes: &[u8], wanted: Option<Answer>, told: Option<Answer>) -> ! {
    println!("DIFFERENCE: {why}");
    tell(bytes, &wanted, &told);
    exit(1);
}

/// The answer of the grammar, which is that of the spelled term where it is known.
fn by_grammar(input: &Input) -> Answer {
    let wanted = definition::answer(&input.bytes);
    if let Some(text) = &input.text {
        let spelled = Answer::Read { length: input.bytes.len(), text: text.clone().into_bytes() };
        if wanted != spelled {
            stop("the grammar does not read what was spelled", &input.bytes, Some(wanted), Some(spelled));
        }
    }
    wanted
}

/// Asks the reader about some inputs, and counts the answers on which it and the grammar agree.
fn compare(program: &mut Answers, inputs: &[Input], counts: &mut Counts) {
    let wanted: Vec<Answer> = inputs.iter().map(by_grammar).collect();
    let bytes: Vec<&[u8]> = inputs.iter().map(|input| input.bytes.as_slice()).collect();
    for ((bytes, wanted), reading) in bytes.iter().zip(&wanted).zip(read(program, &bytes)) {
        let told = told(reading);
        if told.as_ref() != Some(wanted) {
            stop("the reader answers otherwise", bytes, Some(wanted.clone()), told);
        }
        counts.add(wanted);
    }
    complete(program, &bytes, &wanted);
}

/// The bytes before the place of a fault begin a text: they are completed to one, and the reader must read all of it.
fn complete(program: &mut Answers, inputs: &[&[u8]], wanted: &[Answer]) {
    let fronts = inputs.iter().zip(wanted).filter_map(|(bytes, answer)| match answer {
        Answer::Refused { at, .. } => Some(&bytes[..*at]),
        Answer::Read { .. } => None,
    });
    let completed = |front: &[u8]| {
        definition::completed(front).unwrap_or_else(|| stop("no text begins with the bytes before a fault", front, None, None))
    };
    let texts: Vec<Vec<u8>> = fronts.map(completed).collect();
    let whole: Vec<&[u8]> = texts.iter().map(Vec::as_slice).collect();
    for (text, reading) in whole.iter().zip(read(program, &whole)) {
        match told(reading) {
            Some(Answer::Read { length, .. }) if length == text.len() => {}
            told => stop("the reader does not read all of a text", text, Some(definition::answer(text)), told),
        }
    }
}

/// Plays inputs for so long, and on a slow or busy machine until each sort of answer came, twenty times as long at most.
fn run(program: &mut Answers, time: Duration, seed: u64) -> Counts {
    let mut random = Random::new(seed);
    let mut counts = Counts::default();
    let start = Instant::now();
    let mut short = inputs::short().peekable();
    while short.peek().is_some() {
        let batch: Vec<Input> = short.by_ref().take(BATCH).collect();
        compare(program, &batch, &mut counts);
    }
    while start.elapsed() < time || (!counts.are_full() && start.elapsed() < 20 * time) {
        let batch: Vec<Input> = (0..BATCH).map(|_| inputs::input(&mut random)).collect();
        compare(program, &batch, &mut counts);
    }
    counts
}

fn main() {
    let words: Vec<String> = std::env::args().skip(1).collect();
    let mut program = Answers::start();
    if let [word, input] = words.as_slice()
        && word == "one"
    {
        let bytes = bytes_of(input);
        let reading = read(&mut program, &[&bytes]).remove(0);
        tell(&bytes, &Some(definition::answer(&bytes)), &told(reading));
        return;
    }
    let [seconds, seed] = words.as_slice() else {
        eprintln!("hostile SECONDS SEED, or hostile one HEXADECIMAL");
        exit(2);
    };
    let faults = large::faults(&mut program);
    if !faults.is_empty() {
        println!("DIFFERENCE in a large input: {}", faults.join("; "));
        exit(1);
    }
    let (seconds, seed) = (seconds.parse().expect("a number of seconds"), seed.parse().expect("a seed"));
    let counts = run(&mut program, Duration::from_secs(seconds), seed);
    let Counts { read, syntax, too_long, too_deep, too_wide } = counts;
    println!("seed {seed}: {} inputs, {} a second, no difference", counts.all(), counts.all() / seconds.max(1));
    println!("{read} read, {syntax} Syntax, {too_long} AtomTooLong, {too_deep} TooDeep, {too_wide} TooWide");
    if !counts.are_full() {
        println!("some sort of answer never came: run longer");
        exit(1);
    }
}
