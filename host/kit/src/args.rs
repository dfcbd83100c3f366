//! The arguments of a program: switches with a value, switches without, and names.

use std::ffi::OsString;
use std::fmt::Display;
use std::ops::RangeInclusive;
use std::str::FromStr;

#[derive(Debug, Default, PartialEq, Eq)]
pub struct Given {
    values: Vec<(String, String)>,
    flags: Vec<String>,
    pub names: Vec<OsString>,
}

/// The switches that a program has beside --help.
#[derive(Default)]
pub struct Switches<'a> {
    pub valued: &'a [&'a str],
    pub flags: &'a [&'a str],
}

impl Given {
    /// `-` is a name, and so is all that follows `--`; a value may follow its switch after `=`. Help ends the reading.
    pub fn of(mut args: impl Iterator<Item = OsString>, switches: &Switches) -> Result<Given, String> {
        let mut given = Given::default();
        while let Some(arg) = args.next() {
            match arg.to_str() {
                Some("--help" | "-h") => return Ok(Given { flags: vec!["--help".into()], ..given }),
                Some("--") => given.names.extend(args.by_ref()),
                Some(text) if text.starts_with('-') && text != "-" => given.switch(text, &mut args, switches)?,
                _ => given.names.push(arg),
            }
        }
        Ok(given)
    }

    fn switch(&mut self, text: &str, rest: &mut dyn Iterator<Item = OsString>, switches: &Switches) -> Result<(), String> {
        let (switch, joined) = text.split_once('=').map_or((text, None), |(switch, value)| (switch, Some(value.into())));
        if switches.flags.contains(&text) {
            self.flags.push(text.into());
        } else if switches.valued.contains(&switch) {
            let value = joined.or_else(|| rest.next()).ok_or_else(|| format!("{switch} needs a value"))?;
            self.values.push((switch.into(), utf8(&value)?.into()));
        } else {
            return Err(format!("there is no switch {text}"));
        }
        Ok(())
    }

    pub fn has(&self, flag: &str) -> bool {
        self.flags.iter().any(|given| given == flag)
    }

    /// The values of a switch that may be repeated.
    pub fn texts(&self, switch: &str) -> Vec<&str> {
        self.values.iter().filter(|given| given.0 == switch).map(|given| given.1.as_str()).collect()
    }

    pub fn text(&self, switch: &str) -> Result<Option<&str>, String> {
        match self.texts(switch)[..] {
            [] => Ok(None),
            [text] => Ok(Some(text)),
            _ => Err(format!("{switch} is given twice")),
        }
    }

    pub fn number(&self, switch: &str, default: u64, range: RangeInclusive<u64>) -> Result<u64, String> {
        self.text(switch)?.map_or(Ok(default), |text| number(switch, text, range))
    }

    /// The names, where there is one for each of these.
    pub fn all_names<const N: usize>(&self, what: [&str; N]) -> Result<[&str; N], String> {
        let mut names = [""; N];
        for ((name, what), place) in names.iter_mut().zip(what).zip(0..) {
            *name = utf8(self.names.get(place).ok_or_else(|| format!("{what} is missing"))?)?;
        }
        self.names.get(N).map_or(Ok(names), |more| Err(format!("{more:?} is one argument too many")))
    }
}

fn utf8(arg: &OsString) -> Result<&str, String> {
    arg.to_str().ok_or_else(|| format!("the argument {arg:?} isn't UTF-8"))
}

/// A number in its range, or the message that names it.
pub fn number<T: FromStr + PartialOrd + Display>(what: &str, text: &str, range: RangeInclusive<T>) -> Result<T, String> {
    let number = text.parse().ok().filter(|number| range.contains(number));
    number.ok_or_else(|| format!("{what} must be a number from {} to {}, not {text:?}", range.start(), range.end()))
}

#[cfg(test)]
mod tests {
    use super::*;
    use std::os::unix::ffi::OsStringExt;

    const SWITCHES: Switches = Switches { valued: &["--loss", "--seed"], flags: &["--quiet"] };

    fn given(args: &[&str]) -> Result<Given, String> {
        Given::of(args.iter().map(OsString::from), &SWITCHES)
    }

    #[test]
    fn switches_and_names_may_stand_in_any_order() {
        let given = given(&["a.csv", "--loss", "20", "--quiet"]).unwrap();
        assert_eq!(given.all_names(["a file"]), Ok(["a.csv"]));
        assert_eq!((given.number("--loss", 0, 0..=100), given.number("--seed", 1, 0..=9)), (Ok(20), Ok(1)));
        assert!(given.has("--quiet") && !given.has("--help"));
    }

    #[test]
    fn a_value_may_follow_an_equals_sign_and_be_one_of_several() {
        let given = given(&["--loss=1", "--loss", "2", "--seed=a=b"]).unwrap();
        assert_eq!(given.texts("--loss"), ["1", "2"]);
        assert_eq!(given.text("--loss").unwrap_err(), "--loss is given twice");
        assert_eq!(given.text("--seed"), Ok(Some("a=b")));
    }

    #[test]
    fn help_is_given_whatever_follows_it() {
        assert!(["--help", "-h"].iter().all(|help| given(&["a.csv", help, "--lose"]).unwrap().has("--help")));
        assert!(given(&["--lose", "--help"]).is_err());
    }

    #[test]
    fn one_dash_and_what_follows_two_are_names() {
        assert_eq!(given(&["-", "--", "--quiet", "--"]).unwrap().all_names(["a", "b", "c"]), Ok(["-", "--quiet", "--"]));
    }

    #[test]
    fn wrong_arguments_are_named() {
        assert_eq!(given(&["--lose"]).unwrap_err(), "there is no switch --lose");
        assert_eq!(given(&["--quiet=1"]).unwrap_err(), "there is no switch --quiet=1");
        assert_eq!(given(&["--loss"]).unwrap_err(), "--loss needs a value");
        assert_eq!(given(&["a", "b"]).unwrap().all_names(["a file"]).unwrap_err(), "\"b\" is one argument too many");
        assert_eq!(given(&["a"]).unwrap().all_names(["a file", "a side"]).unwrap_err(), "a side is missing");
        let octets = OsString::from_vec(vec![0xFF]);
        let given = Given::of([octets].into_iter(), &SWITCHES).unwrap();
        assert_eq!(given.all_names(["a file"]).unwrap_err(), "the argument \"\\xFF\" isn't UTF-8");
    }

    #[test]
    fn a_number_out_of_range_is_named_with_its_range() {
        for text in ["101", "-1", "x", "", "1.5", "99999999999999999999"] {
            let message = given(&["--loss", text]).unwrap().number("--loss", 0, 0..=100).unwrap_err();
            assert_eq!(message, format!("--loss must be a number from 0 to 100, not {text:?}"));
        }
    }
}
