//! Policy texts that are built: each string is a literal, so a `*` or a line end in it becomes no part of a rule.

use crate::{pattern_literal, string_literal, Action, Number, Refused};
use std::fmt::Write;

/// A condition of a rule, on the parameter of this name.
#[derive(Clone, Copy, Debug)]
pub enum Condition<'a> {
    /// A number or a handle is one of these, at most 16.
    IsOneOf(&'a str, &'a [u64]),
    /// A number shares a bit with this one.
    Has(&'a str, u64),
    /// A number shares no bit with this one.
    HasNone(&'a str, u64),
    /// A text or a name is the same as this one, letters from a to z in either case.
    IsSame(&'a str, &'a str),
    /// A name begins with this one and a `\`: it is below this folder.
    IsBelow(&'a str, &'a str),
}

/// A policy text that is built.
///
/// ```
/// use sandbox_broker::{Action, Condition, Draft, Number, Policies};
///
/// let mut draft = Draft::new();
/// draft.policy("tab").unwrap();
/// let below = Condition::IsBelow("name", "\\profile\\why?");
/// draft.rule(Action::ReadOnly, Number::FileOpen, &[below]).unwrap();
/// assert_eq!(draft.text(), "sandbox-policy 2\npolicy tab\nreadonly file.open when name like \"\\profile\\why/?\\*\"\n");
/// assert!(Policies::load(draft.text()).is_ok());
/// assert!(draft.rule(Action::Allow, Number::FileOpen, &[Condition::IsBelow("name", "\\a*")]).is_err());
/// ```
#[derive(Clone, Debug)]
pub struct Draft(String);

impl Default for Draft {
    fn default() -> Draft {
        Draft::new()
    }
}

fn word_of(action: Action) -> &'static str {
    match action {
        Action::Allow => "allow",
        Action::Deny => "deny",
        Action::Alarm => "alarm",
        Action::Fake => "fake",
        Action::ReadOnly => "readonly",
    }
}

fn name_of(call: Number) -> &'static str {
    match call {
        Number::Ping => "ping",
        Number::FileCreate => "file.create",
        Number::FileOpen => "file.open",
        Number::FileQuery => "file.query",
        Number::FileRename => "file.rename",
        Number::PipeCreate => "pipe.create",
        Number::KeyCreate => "key.create",
        Number::KeyOpen => "key.open",
        Number::EventCreate => "event.create",
        Number::EventOpen => "event.open",
        Number::HandleClose => "handle.close",
    }
}

// A word of a policy that is no literal: letters, digits and `_` alone.
fn word(text: &str) -> Result<&str, Refused> {
    let is_word = |byte: u8| byte.is_ascii_lowercase() || byte.is_ascii_digit() || byte == b'_';
    if text.is_empty() || text.len() > 32 || !text.bytes().all(is_word) {
        return Err(Refused::Unfit);
    }
    Ok(text)
}

fn condition(of: &Condition<'_>) -> Result<String, Refused> {
    Ok(match of {
        Condition::IsOneOf(_, []) => return Err(Refused::Unfit),
        Condition::IsOneOf(param, numbers) => {
            let numbers: Vec<String> = numbers.iter().map(u64::to_string).collect();
            format!("{} is {}", word(param)?, numbers.join(" or "))
        }
        Condition::Has(param, bits) => format!("{} has {bits:#x}", word(param)?),
        Condition::HasNone(param, bits) => format!("not {} has {bits:#x}", word(param)?),
        Condition::IsSame(param, string) => {
            format!("{} is \"{}\"", word(param)?, string_literal(string)?)
        }
        Condition::IsBelow(param, folder) => {
            format!("{} like \"{}\\*\"", word(param)?, pattern_literal(folder)?)
        }
    })
}

impl Draft {
    /// A text without policies.
    pub fn new() -> Draft {
        Draft("sandbox-policy 2\n".to_string())
    }

    /// Begins a policy of this name: 1 to 32 of `a` to `z`, `0` to `9` and `_`.
    ///
    /// # Errors
    /// `Unfit` exactly if the name is no such word; then nothing changes.
    pub fn policy(&mut self, name: &str) -> Result<(), Refused> {
        let name = word(name)?;
        let _written = writeln!(self.0, "policy {name}");
        Ok(())
    }

    /// Puts a rule at the end of the policy that was begun last.
    ///
    /// # Errors
    /// `NoLiteral` if a string has none, `Unfit` if a parameter is no word or no number is given, `NoMemory`; then nothing changes. Whether the rule fits its call
    /// is found when the text is loaded.
    pub fn rule(
        &mut self,
        action: Action,
        call: Number,
        conditions: &[Condition<'_>],
    ) -> Result<(), Refused> {
        let conditions: Vec<String> = conditions.iter().map(condition).collect::<Result<_, _>>()?;
        let when = if conditions.is_empty() { "" } else { " when " };
        let _written = writeln!(
            self.0,
            "{} {}{when}{}",
            word_of(action),
            name_of(call),
            conditions.join(" and ")
        );
        Ok(())
    }

    /// The text, for `Policies::load`.
    pub fn text(&self) -> &str {
        &self.0
    }
}
