//! The words that the second program is started with.

const SEED: u64 = 1;

pub struct Options {
    pub seed: u64,
    pub cases: Option<u64>,
    pub calls: Option<String>,
    pub desk: Option<String>,
    /// The program for two positions.
    pub compare: Option<String>,
    pub spoil: bool,
    /// Whether all that came up is printed.
    pub seen: bool,
}

pub fn read() -> Result<Options, String> {
    let (cases, calls, desk, compare) = (None, None, None, None);
    let (spoil, seen) = (false, false);
    let mut options = Options { seed: SEED, cases, calls, desk, compare, spoil, seen };
    let mut words = std::env::args().skip(1);
    while let Some(word) = words.next() {
        let mut next = || words.next().ok_or(format!("{word} needs a word after it"));
        let number = |word: String| word.parse().map_err(|_| format!("not a number: {word}"));
        match word.as_str() {
            "--seed" => options.seed = number(next()?)?,
            "--cases" => options.cases = Some(number(next()?)?),
            "--calls" => options.calls = Some(next()?),
            "--desk" => options.desk = Some(next()?),
            "--compare" => options.compare = Some(next()?),
            "--spoil" => options.spoil = true,
            "--seen" => options.seen = true,
            _ => return Err(format!("unknown word: {word}")),
        }
    }
    Ok(options)
}
