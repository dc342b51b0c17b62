//! Reads a file of groups in the form that the head of `docs/vectors.txt` describes.

use crate::body::Mark;
use crate::cipher::Block;
use crate::hex;
use crate::links::{Width, Window};
use std::str::FromStr;

/// The kinds of groups, each with its fields. A [shared] group has lanes besides.
const KINDS: [(&str, &str); 7] = [
    ("block", "key plaintext ciphertext"),
    ("record", "ke km link wide sequence message counter_block key_stream l k1 k2 tag record"),
    ("opened", "ke km link wide highest window record message highest_after window_after"),
    ("refused", "ke km link wide highest window record answer words"),
    ("body", "body seconds fraction offset values written"),
    ("refused_body", "body answer words"),
    (
        "shared",
        "ke_0 ke_1 ke_2 km_0 km_1 km_2 link wide last message seed tape_first tape_last tape_count record \
         tag_0 tag_1 tag_2",
    ),
];

pub struct Group {
    pub kind: String,
    pub number: usize,
    fields: Vec<(String, String)>,
}

/// All groups of a file, or what is wrong with it.
pub fn read(text: &str) -> Result<Vec<Group>, String> {
    let mut groups: Vec<Group> = Vec::new();
    let mut inside = false;
    for (i, line) in text.lines().enumerate() {
        if line.is_empty() {
            inside = false;
        } else if let Some(title) = line.strip_prefix('[') {
            let group = begun(title, &groups).ok_or(format!("line {}: no title of a group", i + 1))?;
            groups.push(group);
            inside = true;
        } else if !line.starts_with('#') {
            let (name, value) = line.split_once('=').ok_or(format!("line {}: no field", i + 1))?;
            let group = groups.last_mut().filter(|_| inside);
            let group = group.ok_or(format!("line {}: a field outside a group", i + 1))?;
            group.fields.push((name.trim().to_string(), value.trim().to_string()));
        }
    }
    groups.iter().try_for_each(Group::has_its_fields)?;
    Ok(groups)
}

/// The group with the title `KIND N]`, where N has to be the next number of that kind.
fn begun(title: &str, groups: &[Group]) -> Option<Group> {
    let (kind, number) = title.strip_suffix(']')?.split_once(' ')?;
    let next = 1 + groups.iter().filter(|group| group.kind == kind).count();
    (number == next.to_string()).then(|| Group { kind: kind.to_string(), number: next, fields: Vec::new() })
}

/// Call, round and lane of a field with the name `lane CALL ROUND LANE`.
fn lane_of(name: &str) -> Option<[u32; 3]> {
    let numbers: Option<Vec<u32>> = name.strip_prefix("lane ")?.split(' ').map(decimal).collect();
    numbers?.try_into().ok()
}

/// A number that prints as these digits.
fn decimal<N: FromStr + ToString>(digits: &str) -> Option<N> {
    digits.parse().ok().filter(|number: &N| number.to_string() == digits)
}

impl Group {
    /// An error that says in which group it is.
    fn flaw(&self, what: &str) -> String {
        format!("[{} {}]: {what}", self.kind, self.number)
    }

    /// Each field of its kind once, and no other.
    fn has_its_fields(&self) -> Result<(), String> {
        let kind = KINDS.iter().find(|(kind, _)| *kind == self.kind);
        let (_, names) = kind.ok_or(self.flaw("no such kind"))?;
        for (i, (name, _)) in self.fields.iter().enumerate() {
            let is_lane = self.kind == "shared" && lane_of(name).is_some();
            if !is_lane && !names.split(' ').any(|known| known == name) {
                return Err(self.flaw(&format!("no field '{name}' in this kind")));
            }
            if self.fields[..i].iter().any(|(before, _)| before == name) {
                return Err(self.flaw(&format!("'{name}' twice")));
            }
        }
        names.split(' ').try_for_each(|name| self.text(name).map(|_| ()))
    }

    pub fn text(&self, name: &str) -> Result<&str, String> {
        let field = self.fields.iter().find(|(known, _)| known == name);
        field.map(|(_, value)| value.as_str()).ok_or(self.flaw(&format!("'{name}' is missing")))
    }

    pub fn bytes(&self, name: &str) -> Result<Vec<u8>, String> {
        let digits = self.text(name)?;
        let lower = Some(digits).filter(|digits| !digits.contains(|digit: char| digit.is_ascii_uppercase()));
        lower.and_then(hex::bytes).ok_or(self.flaw(&format!("'{name}' is not bytes")))
    }

    pub fn block(&self, name: &str) -> Result<Block, String> {
        self.bytes_of(name)
    }

    /// As many bytes as the type has.
    fn bytes_of<const N: usize>(&self, name: &str) -> Result<[u8; N], String> {
        self.bytes(name)?.try_into().map_err(|_| self.flaw(&format!("'{name}' is not {N} bytes")))
    }

    /// A receiver's window, in a field for its highest number and one for its word.
    pub fn window(&self, highest: &str, word: &str) -> Result<Window, String> {
        Ok(Window { highest: self.number(highest)?, word: u64::from_be_bytes(self.bytes_of(word)?) })
    }

    /// The width of the link, 0 or 1.
    pub fn width(&self) -> Result<Width, String> {
        match self.number("wide")? {
            0 => Ok(Width::Narrow),
            1 => Ok(Width::Wide),
            _ => Err(self.flaw("'wide' is neither 0 nor 1")),
        }
    }

    /// A number of whatever range its type has.
    pub fn number<N: FromStr + ToString>(&self, name: &str) -> Result<N, String> {
        decimal(self.text(name)?).ok_or(self.flaw(&format!("'{name}' is not a number")))
    }

    /// The mark of a body: its seconds, its fraction, its offset or `none`.
    pub fn mark(&self) -> Result<Mark, String> {
        let offset = match self.text("offset")? {
            "none" => None,
            _ => Some(self.number("offset")?),
        };
        let (seconds, fraction) = (self.number("seconds")?, self.number("fraction")?);
        Ok(Mark { seconds, fraction, offset })
    }

    /// Call, round, lane and bytes of each of its lanes.
    pub fn lanes(&self) -> Result<Vec<([u32; 3], Vec<u8>)>, String> {
        let lanes = self.fields.iter().filter_map(|(name, _)| Some((name, lane_of(name)?)));
        lanes.map(|(name, lane)| Ok((lane, self.bytes(name)?))).collect()
    }
}
