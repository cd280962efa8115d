//! The command line.

pub const USAGE: &str =
    "usage: compare [--seed S] [--calls N | --cuts N | --cancels N | --load N] [--run R]";

const DEFAULT_SEED: u64 = 650_065;
const DEFAULT_CALLS: u64 = 40_000;

/// What is made, and how much of it at least.
#[derive(Debug, Clone, Copy, PartialEq, Eq)]
pub enum Task {
    /// Calls of the comparison's runs.
    Calls(u64),
    /// Cuts of lists of writes.
    Cuts(u64),
    /// Saves with the delete of the same file, and renames with the next one.
    Cancels(u64),
    /// Commands on one image of each kind.
    Load(u64),
}

#[derive(Debug, Clone, Copy, PartialEq, Eq)]
pub struct Options {
    pub seed: u64,
    pub task: Task,
    /// Only this run, of the comparison with each of its commands printed.
    pub run: Option<u64>,
}

impl Options {
    pub fn parse(arguments: &[String]) -> Option<Options> {
        let mut options = Options {
            seed: DEFAULT_SEED,
            task: Task::Calls(DEFAULT_CALLS),
            run: None,
        };
        for pair in arguments.chunks(2) {
            let value: u64 = pair.get(1)?.parse().ok()?;
            match pair[0].as_str() {
                "--seed" => options.seed = value,
                "--calls" => options.task = Task::Calls(value),
                "--cuts" => options.task = Task::Cuts(value),
                "--cancels" => options.task = Task::Cancels(value),
                "--load" => options.task = Task::Load(value),
                "--run" => options.run = Some(value),
                _ => return None,
            }
        }
        Some(options)
    }
}

#[cfg(test)]
mod tests {
    use super::*;

    fn parse(line: &str) -> Option<Options> {
        let words: Vec<String> = line.split_whitespace().map(String::from).collect();
        Options::parse(&words)
    }

    #[test]
    fn options_are_taken_in_any_order() {
        let defaults = parse("").expect("no option is needed");
        let calls = Task::Calls(DEFAULT_CALLS);
        assert_eq!((defaults.seed, defaults.task), (DEFAULT_SEED, calls));
        assert_eq!(defaults.run, None);
        for (line, task) in [
            ("--calls 7 --seed 3", Task::Calls(7)),
            ("--seed 3 --cuts 8", Task::Cuts(8)),
            ("--cancels 9 --seed 3", Task::Cancels(9)),
            ("--seed 3 --load 10", Task::Load(10)),
        ] {
            let options = parse(line).expect("legal");
            assert_eq!((options.seed, options.task), (3, task), "{line}");
        }
        let options = parse("--cuts 9 --run 4").expect("legal");
        assert_eq!((options.task, options.run), (Task::Cuts(9), Some(4)));
    }

    #[test]
    fn other_words_are_refused() {
        for line in ["--seed", "--seed x", "--other 1", "7", "--calls -1"] {
            assert_eq!(parse(line), None, "{line}");
        }
    }
}
