//! The program: runs lives from a file, or random ones.

use oracle::counts::Counts;
use oracle::generate::Generator;
use oracle::life::Life;
use oracle::parse::parse;
use oracle::run::{run_life, Options};
use std::io::{self, BufWriter, Read, Write};
use std::process::ExitCode;

const USAGE: &str = "\
usage: oracle run [--no-waits] [--hidden] FILE      (- for standard input)
       oracle random --seed S --lives N [--calls M] [--first K]
       oracle generate --seed S --lives N [--calls M] [--first K]
";

/// Why the program ends with a status that is not 0.
enum Failure {
    Usage,
    Message(String),
    Output(io::Error),
}

impl From<io::Error> for Failure {
    fn from(error: io::Error) -> Self {
        Self::Output(error)
    }
}

fn main() -> ExitCode {
    let arguments: Vec<String> = std::env::args().skip(1).collect();
    let mut out = BufWriter::new(io::stdout().lock());
    let result = run_command(&arguments, &mut out).and_then(|()| Ok(out.flush()?));
    match result {
        Ok(()) => ExitCode::SUCCESS,
        Err(Failure::Usage) => {
            eprint!("{USAGE}");
            ExitCode::from(2)
        }
        Err(Failure::Message(message)) => {
            eprintln!("{message}");
            ExitCode::FAILURE
        }
        // Whoever reads the output has enough of it.
        Err(Failure::Output(e)) if e.kind() == io::ErrorKind::BrokenPipe => ExitCode::SUCCESS,
        Err(Failure::Output(e)) => {
            eprintln!("cannot write: {e}");
            ExitCode::FAILURE
        }
    }
}

fn run_command(arguments: &[String], out: &mut impl Write) -> Result<(), Failure> {
    match arguments.split_first() {
        Some((command, rest)) if command == "run" => run(rest, out),
        Some((command, rest)) if command == "random" => random(&Request::read(rest)?, out),
        Some((command, rest)) if command == "generate" => generate(&Request::read(rest)?, out),
        _ => Err(Failure::Usage),
    }
}

fn run(arguments: &[String], out: &mut impl Write) -> Result<(), Failure> {
    let mut options = Options {
        waits: true,
        hidden: false,
    };
    let mut file = None;
    for argument in arguments {
        match argument.as_str() {
            "--no-waits" => options.waits = false,
            "--hidden" => options.hidden = true,
            name if file.is_none() && (name == "-" || !name.starts_with('-')) => file = Some(name),
            _ => return Err(Failure::Usage),
        }
    }
    if options.hidden && !oracle::HAS_COUNTERS {
        let message = "--hidden needs the build with `--features counters`";
        return Err(Failure::Message(message.into()));
    }
    let lives = read(file.ok_or(Failure::Usage)?)?;
    for (index, life) in lives.iter().enumerate() {
        writeln!(out, "life {}", index + 1)?;
        write!(out, "{}", run_life(life, options))?;
    }
    Ok(())
}

fn read(file: &str) -> Result<Vec<Life>, Failure> {
    let mut bytes = Vec::new();
    let (name, result) = match file {
        "-" => ("standard input", io::stdin().read_to_end(&mut bytes)),
        _ => (
            file,
            std::fs::File::open(file).and_then(|mut f| f.read_to_end(&mut bytes)),
        ),
    };
    result.map_err(|e| Failure::Message(format!("{name}: {e}")))?;
    let text = std::str::from_utf8(&bytes).map_err(|e| {
        let before = &bytes[..e.valid_up_to()];
        let line = 1 + before.iter().filter(|b| **b == b'\n').count();
        Failure::Message(format!("{name}:{line}: not UTF-8"))
    })?;
    parse(text).map_err(|e| Failure::Message(format!("{name}:{e}")))
}

/// Which random lives are wanted.
struct Request {
    generator: Generator,
    lives: u64,
    first: u64,
}

impl Request {
    fn read(arguments: &[String]) -> Result<Self, Failure> {
        let [mut seed, mut lives, mut calls, mut first] = [None; 4];
        for pair in arguments.chunks(2) {
            let [name, value] = pair else {
                return Err(Failure::Usage);
            };
            let slot = match name.as_str() {
                "--seed" => &mut seed,
                "--lives" => &mut lives,
                "--calls" => &mut calls,
                "--first" => &mut first,
                _ => return Err(Failure::Usage),
            };
            let value = value.parse().map_err(|_| Failure::Usage)?;
            if slot.replace(value).is_some() {
                return Err(Failure::Usage);
            }
        }
        let mut generator = Generator::new(seed.ok_or(Failure::Usage)?);
        generator.calls = calls.unwrap_or(Generator::DEFAULT_CALLS);
        Ok(Self {
            generator,
            lives: lives.ok_or(Failure::Usage)?,
            first: first.unwrap_or(0),
        })
    }

    fn lives(&self) -> impl Iterator<Item = Life> + '_ {
        let end = self.first.saturating_add(self.lives);
        (self.first..end).map(|index| self.generator.life(index))
    }
}

fn random(request: &Request, out: &mut impl Write) -> Result<(), Failure> {
    let mut counts = Counts::default();
    for life in request.lives() {
        counts.add(&run_life(&life, Options::ALL));
    }
    write!(out, "{counts}")?;
    Ok(())
}

fn generate(request: &Request, out: &mut impl Write) -> Result<(), Failure> {
    for life in request.lives() {
        write!(out, "life\n{life}")?;
    }
    Ok(())
}
