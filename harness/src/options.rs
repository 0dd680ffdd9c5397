//! The words of the command line.

use std::time::Duration;

use crate::mix;
use crate::planting::Plant;

pub const USAGE: &str = "usage: harness [--cases N | --minutes N | --case N] [--seed N] [--plant NAME]
       harness --plants
  --cases N     compare so many cases of one seed (30000 if nothing is said)
  --minutes N   compare the cases of one seed after the other until the time is over
  --case N      compare one case alone, to see a difference again
  --seed N      the seed, or the first one (1; for --minutes, one that the clock gives)
  --plant NAME  plant a difference, which must then be found
  --plants      print the names of the differences that can be planted
It ends with 0 where nothing differs, with 1 at the first difference, with 2 where some kind of case came too
seldom, and with 3 where it does not know a word.";

/// How many cases are compared.
#[derive(Debug, PartialEq)]
pub enum Extent {
    Cases(u64),
    Time(Duration),
    One(u64),
    /// Nothing is compared; the names of the plants are printed.
    Plants,
}

pub struct Options {
    pub extent: Extent,
    pub seed: Option<u64>,
    pub plant: Option<Plant>,
}

/// The options, or what is wrong with the words.
pub fn parse(words: &[String]) -> Result<Options, String> {
    let mut options = Options { extent: Extent::Cases(mix::CASES), seed: None, plant: None };
    let mut words = words.iter();
    while let Some(word) = words.next() {
        let mut value = || words.next().ok_or(format!("{word} takes a value"));
        match word.as_str() {
            "--plants" => options.extent = Extent::Plants,
            "--cases" => options.extent = Extent::Cases(number(value()?)?),
            "--case" => options.extent = Extent::One(number(value()?)?),
            "--minutes" => options.extent = Extent::Time(minutes(value()?)?),
            "--seed" => options.seed = Some(number(value()?)?),
            "--plant" => options.plant = Some(plant(value()?)?),
            _ => return Err(format!("{word} is not known")),
        }
    }
    Ok(options)
}

fn number(word: &str) -> Result<u64, String> {
    word.parse().map_err(|_| format!("{word} is no number"))
}

fn minutes(word: &str) -> Result<Duration, String> {
    let seconds = word.parse().map(|minutes: f64| 60.0 * minutes).ok();
    let time = seconds.and_then(|seconds| Duration::try_from_secs_f64(seconds).ok());
    time.ok_or(format!("{word} is no number of minutes"))
}

fn plant(name: &str) -> Result<Plant, String> {
    Plant::named(name).ok_or(format!("no plant is named {name}; --plants prints their names"))
}

#[cfg(test)]
mod tests {
    use super::*;

    fn parsed(words: &[&str]) -> Result<(Extent, Option<u64>), String> {
        let words: Vec<String> = words.iter().map(|word| word.to_string()).collect();
        parse(&words).map(|options| (options.extent, options.seed))
    }

    #[test]
    fn words_are_read() {
        assert_eq!(parsed(&[]), Ok((Extent::Cases(30_000), None)));
        assert_eq!(parsed(&["--seed", "9", "--cases", "5"]), Ok((Extent::Cases(5), Some(9))));
        assert_eq!(
            parsed(&["--minutes", "0.5"]),
            Ok((Extent::Time(Duration::from_secs(30)), None))
        );
        assert_eq!(parsed(&["--case", "7"]), Ok((Extent::One(7), None)));
    }

    #[test]
    fn wrong_words_are_refused() {
        let wrong = [
            &["--seed"][..],
            &["--seed", "x"],
            &["--minutes", "-1"],
            &["--plant", "none"],
            &["cases"],
        ];
        for words in wrong {
            assert!(parsed(words).is_err(), "{words:?}");
        }
    }
}
