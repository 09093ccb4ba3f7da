//! The parts of a case, each with its name, so that a message can say where it stands.

use crate::json::Json;
use crate::octets;
use crate::unfit::Unfit;

/// A value of a case.
#[derive(Clone, Debug)]
pub struct Part<'a> {
    /// Where it stands, such as `out.calls[3].line`.
    pub name: String,
    /// The value.
    pub value: &'a Json,
}

impl<'a> Part<'a> {
    /// A part with this name.
    pub fn new(name: impl Into<String>, value: &'a Json) -> Part<'a> {
        Part { name: name.into(), value }
    }

    /// Why the case cannot be run: something is wrong with this part.
    pub fn unfit(&self, why: &str) -> Unfit {
        Unfit(format!("{} {why}", self.name))
    }

    /// The fields of an object that has these and no others.
    pub fn fields<const N: usize>(&self, names: [&str; N]) -> Result<[Part<'a>; N], Unfit> {
        let parts = self.fields_of(&names)?;
        Ok(parts.try_into().expect("there is a part for each name"))
    }

    /// The same for any number of names.
    pub fn fields_of(&self, names: &[&str]) -> Result<Vec<Part<'a>>, Unfit> {
        let Json::Fields(fields) = self.value else {
            return Err(self.unfit("is no object"));
        };
        if let Some((name, value)) = fields.iter().find(|(name, _)| !names.contains(&name.as_str())) {
            return Err(self.field(name, value).unfit("is a field that is not known yet"));
        }
        let part = |name: &&str| {
            let mut same = fields.iter().filter(|(other, _)| other == name);
            match (same.next(), same.next()) {
                (Some((name, value)), None) => Ok(self.field(name, value)),
                (None, _) => Err(self.unfit(&format!("has no field {name}"))),
                _ => Err(self.unfit(&format!("has {name} twice"))),
            }
        };
        names.iter().map(part).collect()
    }

    fn field(&self, name: &str, value: &'a Json) -> Part<'a> {
        Part::new(format!("{}.{name}", self.name), value)
    }

    /// The items of an array.
    pub fn list(&self) -> Result<Vec<Part<'a>>, Unfit> {
        let Json::List(items) = self.value else {
            return Err(self.unfit("is no array"));
        };
        let part = |(index, value)| Part::new(format!("{}[{index}]", self.name), value);
        Ok(items.iter().enumerate().map(part).collect())
    }

    /// The items of an array that has so many.
    pub fn items<const N: usize>(&self) -> Result<[Part<'a>; N], Unfit> {
        self.list()?.try_into().map_err(|_| self.unfit(&format!("has not {N} items")))
    }

    /// A text.
    pub fn text(&self) -> Result<&'a str, Unfit> {
        match self.value {
            Json::Text(text) => Ok(text),
            _ => Err(self.unfit("is no text")),
        }
    }

    /// A number.
    pub fn number(&self) -> Result<usize, Unfit> {
        match self.value {
            Json::Number(number) => Ok(*number),
            _ => Err(self.unfit("is no number")),
        }
    }

    /// A number that an octet holds.
    pub fn octet(&self) -> Result<u8, Unfit> {
        self.number()?.try_into().map_err(|_| self.unfit("is more than an octet holds"))
    }

    /// A number that is 0 or 1.
    pub fn switch(&self) -> Result<bool, Unfit> {
        match self.number()? {
            0 => Ok(false),
            1 => Ok(true),
            _ => Err(self.unfit("is neither 0 nor 1")),
        }
    }

    /// Octets.
    pub fn octets(&self) -> Result<Vec<u8>, Unfit> {
        octets::read(self.text()?).ok_or_else(|| self.unfit("has no octets in hex"))
    }

    /// The number of a refusal, where this is one. It stands alone.
    pub fn refusal(&self) -> Result<Option<usize>, Unfit> {
        match self.value {
            Json::Fields(fields) if fields.iter().any(|(name, _)| name == "refused") => {
                let [refused] = self.fields(["refused"])?;
                refused.number().map(Some)
            }
            _ => Ok(None),
        }
    }

    /// Asks of a part that belongs to a request that has not landed that it says nothing.
    pub fn later(&self, neutral: &Json) -> Result<(), Unfit> {
        if self.value == neutral {
            return Ok(());
        }
        let value = crate::told::cut(&self.value.to_string());
        Err(self.unfit(&format!("is {value}: only a later request knows other than {neutral}")))
    }

    /// Asks of a buffer that only a later request takes that it has the length that is right then.
    pub fn later_buffer(&self, length: usize) -> Result<(), Unfit> {
        match self.octets()?.len() {
            right if right == length => Ok(()),
            other => Err(self.unfit(&format!("has {other} octets: only a later request refuses other than {length}"))),
        }
    }
}
