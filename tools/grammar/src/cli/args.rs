//! A command's arguments: options and the rest.
use super::{misused, Trouble};
use std::ffi::{OsStr, OsString};

/// The arguments after a command's name.
#[derive(Debug)]
pub struct Args {
    options: Vec<(&'static str, OsString)>,
    rest: std::collections::VecDeque<OsString>,
}

impl Args {
    /// Takes the options out; one whose name ends in `=` has a value. What follows `--` is no option.
    pub fn parse(args: Vec<OsString>, known: &'static [&'static str]) -> Result<Args, Trouble> {
        let mut found = Args { options: vec![], rest: Default::default() };
        let mut all = args.into_iter();
        while let Some(arg) = all.next() {
            if arg == "--" {
                found.rest.extend(all.by_ref());
                break;
            }
            let text = arg.to_string_lossy().into_owned();
            if !text.starts_with('-') || text == "-" {
                found.rest.push_back(arg);
                continue;
            }
            let (name, given) = text.split_once('=').map_or((text.as_str(), None), |(name, value)| (name, Some(value)));
            let Some(option) = known.iter().find(|k| k.trim_end_matches('=') == name) else {
                return Err(Trouble::Failed(format!("grammar: there is no option `{name}` here")));
            };
            let value = match (option.ends_with('='), given) {
                (false, None) => OsString::new(),
                (true, Some(value)) => value.into(),
                (true, None) => all.next().ok_or_else(|| Trouble::Failed(format!("grammar: `{name}` needs a value")))?,
                (false, Some(_)) => return Err(Trouble::Failed(format!("grammar: `{name}` has no value"))),
            };
            found.options.push((option.trim_end_matches('='), value));
        }
        Ok(found)
    }

    pub fn has(&self, name: &str) -> bool {
        self.options.iter().any(|(n, _)| *n == name)
    }

    pub fn value(&self, name: &str) -> Option<&OsStr> {
        self.options.iter().rev().find(|(n, _)| *n == name).map(|(_, value)| value.as_os_str())
    }

    /// The value of an option as a number.
    pub fn number(&self, name: &str) -> Result<Option<usize>, Trouble> {
        let Some(value) = self.value(name) else { return Ok(None) };
        match value.to_str().and_then(|v| v.parse().ok()) {
            Some(n) => Ok(Some(n)),
            None => Err(Trouble::Failed(format!("grammar: `{name}` needs a number, not `{}`", value.to_string_lossy()))),
        }
    }

    /// The next argument; the usage where there is none.
    pub fn take(&mut self) -> Result<OsString, Trouble> {
        self.rest.pop_front().map_or_else(misused, Ok)
    }

    /// All that are left.
    pub fn rest(&mut self) -> Vec<OsString> {
        self.rest.drain(..).collect()
    }

    /// The usage where something is left.
    pub fn end(&self) -> Result<(), Trouble> {
        if self.rest.is_empty() {
            return Ok(());
        }
        misused()
    }
}
