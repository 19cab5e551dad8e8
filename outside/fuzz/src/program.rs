//! The program against the model: what it prints for an input, byte for byte, and its exit status.

use calls::{hex, inputs, Random};
use std::collections::BTreeMap;
use std::fmt;
use std::io::{self, Read, Write};
use std::path::Path;
use std::process::{ChildStdin, Command, ExitCode, ExitStatus, Stdio};
use std::sync::mpsc;
use std::thread;
use std::time::{Duration, Instant};

/// Far longer than any input takes, even on a machine with much else to do.
const PATIENCE: Duration = Duration::from_secs(20);

/// Runs the program on so many inputs from the seed, until a difference shows.
pub fn compare(path: &Path, inputs: u64, seed: u64) -> ExitCode {
    if !path.is_file() {
        eprintln!("{} is missing: run `outside/build.sh program` first", path.display());
        return ExitCode::from(1);
    }
    println!("{} against the model, seed {seed}, {inputs} inputs", path.display());
    let mut random = Random::new(seed);
    let mut fixed = inputs::fixed().into_iter();
    let mut tried = Tried::default();
    let start = Instant::now();
    let mut told = start;
    while tried.inputs < inputs {
        let input = fixed.next().unwrap_or_else(|| inputs::any(&mut random));
        let feed = Feed::any(&mut random, &input);
        let wanted = model::listing(&input);
        match run(path, &feed) {
            Err(error) => {
                eprintln!("{} cannot be run: {error}", path.display());
                return ExitCode::from(1);
            }
            Ok(printed) if !printed.is(&wanted) => {
                println!("difference at input {} of seed {seed}, given {feed}", tried.inputs);
                println!("input: {}", hex(&input));
                println!("model: {}", wanted.escape_default());
                println!("program: {printed}");
                return ExitCode::from(1);
            }
            Ok(_) => tried.add(&wanted, &feed),
        }
        if told.elapsed() > Duration::from_secs(5) {
            told = Instant::now();
            eprintln!("{} s, {} inputs, no difference", start.elapsed().as_secs(), tried.inputs);
        }
    }
    println!("{tried}no difference");
    ExitCode::SUCCESS
}

/// An input as it goes into the pipe: in one piece, or in several, with a pause after some of them.
struct Feed<'a> {
    pieces: Vec<&'a [u8]>,
    pauses: usize,
}

impl<'a> Feed<'a> {
    /// Most inputs go in at once. The others are cut: byte by byte, at a few places, or into pieces of any size.
    fn any(random: &mut Random, input: &'a [u8]) -> Feed<'a> {
        let most = match random.below(24) {
            0 => 1,
            1 => 9,
            2 => 4_000,
            3 => input.len().max(1),
            _ => return Feed { pieces: vec![input], pauses: 0 },
        };
        let mut pieces = Vec::new();
        let mut rest = input;
        while !rest.is_empty() {
            // Many small pieces tell no more than some do, and a piece costs a write.
            let size = if pieces.len() < 300 { random.between(1, most).min(rest.len()) } else { rest.len() };
            let (piece, after) = rest.split_at(size);
            pieces.push(piece);
            rest = after;
        }
        // Without a pause the program often finds all of the pieces in the pipe at its first look.
        Feed { pieces, pauses: random.index(4) }
    }

    /// Writes the pieces. The program may stop reading, and end, before it has taken all of them.
    fn write(&self, mut stdin: ChildStdin) -> io::Result<()> {
        for (i, piece) in self.pieces.iter().enumerate() {
            match stdin.write_all(piece).and_then(|()| stdin.flush()) {
                Err(error) if error.kind() == io::ErrorKind::BrokenPipe => return Ok(()),
                written => written?,
            }
            if i < self.pauses {
                thread::sleep(Duration::from_millis(2));
            }
        }
        Ok(())
    }
}

impl fmt::Display for Feed<'_> {
    fn fmt(&self, f: &mut fmt::Formatter<'_>) -> fmt::Result {
        if self.pieces.len() < 2 {
            return write!(f, "at once");
        }
        let sizes: Vec<String> = self.pieces.iter().map(|piece| piece.len().to_string()).collect();
        write!(f, "in pieces of {} bytes, {} pauses", sizes.join(" "), self.pauses)
    }
}

/// What the program printed, and how it ended; no status where it had to be stopped.
struct Printed {
    text: Vec<u8>,
    status: Option<ExitStatus>,
}

impl Printed {
    fn is(&self, wanted: &str) -> bool {
        self.text == wanted.as_bytes() && self.status.is_some_and(|status| status.success())
    }
}

impl fmt::Display for Printed {
    fn fmt(&self, f: &mut fmt::Formatter<'_>) -> fmt::Result {
        write!(f, "{} (", self.text.escape_ascii())?;
        match self.status {
            Some(status) => write!(f, "{status})"),
            None => write!(f, "stopped after {} s)", PATIENCE.as_secs()),
        }
    }
}

/// Runs the program on an input. One thread writes while another reads, so that neither pipe can fill up and stop both
/// sides; what the program says on standard error is shown as it comes.
fn run(path: &Path, feed: &Feed) -> io::Result<Printed> {
    let mut child = Command::new(path).stdin(Stdio::piped()).stdout(Stdio::piped()).spawn()?;
    let stdin = child.stdin.take().expect("standard input is a pipe");
    let mut stdout = child.stdout.take().expect("standard output is a pipe");
    let (done, end) = mpsc::channel();
    thread::scope(|scope| {
        let writer = scope.spawn(move || feed.write(stdin));
        let reader = scope.spawn(move || {
            let mut text = Vec::new();
            let read = stdout.read_to_end(&mut text);
            // Nobody waits for it any more once the program had to be stopped.
            let _ = done.send(());
            read.map(|_| text)
        });
        let in_time = end.recv_timeout(PATIENCE).is_ok();
        if !in_time {
            child.kill()?;
        }
        writer.join().expect("writing does not panic")?;
        let text = reader.join().expect("reading does not panic")?;
        let status = child.wait()?;
        Ok(Printed { text, status: in_time.then_some(status) })
    })
}

/// What was tried, by what the model printed for it.
#[derive(Default)]
struct Tried {
    inputs: u64,
    in_pieces: u64,
    /// How often a refusal, and `accepted` otherwise, and how many lines of each fate.
    texts: BTreeMap<String, u64>,
}

impl Tried {
    fn add(&mut self, text: &str, feed: &Feed) {
        self.inputs += 1;
        self.in_pieces += (feed.pieces.len() > 1) as u64;
        let mut count = |what: String| *self.texts.entry(what).or_default() += 1;
        let refused = text.starts_with("refused");
        count(if refused { text.trim_end().to_string() } else { "accepted".to_string() });
        for fate in text.lines().filter(|line| line.starts_with("fate")) {
            count(format!("fate {}", fate.rsplit(' ').next().unwrap_or_default()));
        }
    }
}

impl fmt::Display for Tried {
    fn fmt(&self, f: &mut fmt::Formatter<'_>) -> fmt::Result {
        writeln!(f, "inputs      {}", self.inputs)?;
        writeln!(f, "in pieces   {}", self.in_pieces)?;
        self.texts.iter().try_for_each(|(what, times)| writeln!(f, "{what:<11} {times}"))
    }
}
