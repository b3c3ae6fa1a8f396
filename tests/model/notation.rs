//! The notation of the cases under tests/cases, which README.md there has in words.
//!
//! A file is a list of entries: what they pin (`#`), the calls where it is not a plain request (`@`), a text,
//! what is due (`>`) from each call, and what is held (`=`).  Whatever is not understood is an error: no
//! entry is left out.

use std::collections::BTreeMap;
use std::path::Path;

/// One case as it is written, with the line on which it begins.
#[derive(Debug, Default, PartialEq, Eq)]
pub struct Entry {
    pub line: usize,
    pub pins: String,
    /// One a line, from the entry's line on.
    pub calls: Vec<String>,
    pub text: Vec<u8>,
    pub due: Vec<u8>,
    pub held: Vec<u8>,
}

/// What has a name: its parameters, and its lines as they are written.
#[derive(Clone)]
struct Named {
    parameters: Vec<String>,
    lines: Vec<String>,
}

/// What has a name: `W` a text, `table W` a table.
#[derive(Clone, Default)]
pub struct Texts(BTreeMap<String, Named>);

/// What names stand for inside a text: its parameters, and the counters of the repetitions around.
pub type Scope = BTreeMap<String, Vec<u8>>;

// ---------------------------------------------------------------------------------------------
// A line
// ---------------------------------------------------------------------------------------------

/// The number that an expression of `+`, `-`, `*`, numerals and names of numbers stands for.
fn number(expression: &str, scope: &Scope) -> Result<i64, String> {
    let wrong = || format!("no number: {expression:?}");
    let (sum, sign, last) = match expression.rfind(['+', '-']) {
        Some(at) if at > 0 => (
            &expression[..at],
            &expression[at..=at],
            &expression[at + 1..],
        ),
        _ => ("", "+", expression),
    };
    let mut product: i64 = 1;
    for factor in last.split('*') {
        let digits = match scope.get(factor) {
            Some(text) => std::str::from_utf8(text).map_err(|_| wrong())?,
            None => factor,
        };
        let factor: u32 = digits.parse().map_err(|_| wrong())?;
        if factor.to_string() != digits {
            return Err(wrong());
        }
        product = product.checked_mul(factor.into()).ok_or_else(wrong)?;
    }
    let before = if sum.is_empty() {
        Ok(0)
    } else {
        number(sum, scope)
    };
    let sign = if sign == "+" { 1 } else { -1 };
    Ok(before? + sign * product)
}

impl Texts {
    /// A text by its name and its arguments, as they stand between braces.
    pub fn text(&self, group: &str) -> Result<String, String> {
        let text = self.group(group, &Scope::new())?;
        String::from_utf8(text).map_err(|error| error.to_string())
    }

    /// What stands between braces: a repetition, a text by its name, or a number.
    fn group(&self, group: &str, scope: &Scope) -> Result<Vec<u8>, String> {
        if let [head, body] = outside(group, ':')[..] {
            return self.repetition(head, body, scope);
        }
        let (name, arguments) = group.split_once(' ').unwrap_or((group, ""));
        if let Some(text) = scope.get(name).filter(|_| arguments.is_empty()) {
            return Ok(text.clone());
        }
        if self.0.contains_key(name) {
            return self.named(name, arguments, scope);
        }
        let number = u64::try_from(number(group, scope)?).map_err(|error| error.to_string())?;
        Ok(number.to_string().into_bytes())
    }

    /// `{16:,0}` and `{i=1..3:row,{i},0,1\n}`.
    fn repetition(&self, head: &str, body: &str, scope: &Scope) -> Result<Vec<u8>, String> {
        let Some((counter, range)) = head.split_once('=') else {
            let count = usize::try_from(number(head, scope)?).map_err(|error| error.to_string())?;
            return Ok(self.expand(body, scope)?.repeat(count));
        };
        let (first, last) = range
            .split_once("..")
            .ok_or(format!("no range: {range:?}"))?;
        let (first, last) = (number(first, scope)?, number(last, scope)?);
        let taken = scope.contains_key(counter) || self.0.contains_key(counter);
        if taken || !is_name(counter) || first < 0 || first > last {
            return Err(format!("no repetition: {head:?}"));
        }
        let mut inner = scope.clone();
        let mut text = Vec::new();
        for count in first..=last {
            inner.insert(counter.to_string(), count.to_string().into_bytes());
            text.extend(self.expand(body, &inner)?);
        }
        Ok(text)
    }

    /// A text by its name, with these arguments, which `;` parts.
    fn named(&self, name: &str, arguments: &str, scope: &Scope) -> Result<Vec<u8>, String> {
        let lines = self.lines(name, arguments, scope)?;
        Ok(lines.concat())
    }

    /// The lines of what has a name, one by one.
    pub fn lines(
        &self,
        name: &str,
        arguments: &str,
        scope: &Scope,
    ) -> Result<Vec<Vec<u8>>, String> {
        let named = self.0.get(name).ok_or(format!("no text {name:?}"))?;
        let arguments: Vec<&str> = match arguments {
            "" => Vec::new(),
            some => outside(some, ';'),
        };
        if arguments.len() != named.parameters.len() {
            return Err(format!("{} parameters of {name:?}", named.parameters.len()));
        }
        let mut inner = Scope::new();
        for (parameter, argument) in named.parameters.iter().zip(arguments) {
            inner.insert(parameter.clone(), self.expand(argument, scope)?);
        }
        named
            .lines
            .iter()
            .map(|line| self.line(line, &inner))
            .collect()
    }

    /// What a part of a line stands for.
    fn expand(&self, source: &str, scope: &Scope) -> Result<Vec<u8>, String> {
        let mut text = Vec::new();
        let mut rest = source;
        while let Some(at) = rest.find(['{', '}', '\\']) {
            text.extend(plain(&rest[..at])?);
            let special = &rest[at..];
            let (more, length) = match special.as_bytes() {
                [b'{', ..] => {
                    let length = closing(special)?;
                    (self.group(&special[1..length], scope)?, length + 1)
                }
                [b'\\', b'n', ..] => (vec![b'\n'], 2),
                [b'\\', b'x', _, _, ..] => {
                    let digits = special.get(2..4).unwrap_or_default();
                    if !digits.bytes().all(|digit| digit.is_ascii_hexdigit()) {
                        return Err(format!("not understood: {special:?}"));
                    }
                    let byte = u8::from_str_radix(digits, 16).map_err(|error| error.to_string())?;
                    (vec![byte], 4)
                }
                _ => return Err(format!("not understood: {special:?}")),
            };
            text.extend(more);
            rest = &special[length..];
        }
        text.extend(plain(rest)?);
        Ok(text)
    }

    /// A whole line: it ends in one LF, unless `\` ends it.
    fn line(&self, source: &str, scope: &Scope) -> Result<Vec<u8>, String> {
        if let Some(open) = source.strip_suffix('\\') {
            return self.expand(open, scope);
        }
        let mut text = self.expand(source, scope)?;
        if text.last() != Some(&b'\n') {
            text.push(b'\n');
        }
        Ok(text)
    }
}

/// Letters, digits and `_`, of which a letter comes first.
fn is_name(word: &str) -> bool {
    word.starts_with(|first: char| first.is_ascii_alphabetic())
        && word
            .bytes()
            .all(|byte| byte.is_ascii_alphanumeric() || byte == b'_')
}

/// Letters that stand for themselves.
fn plain(letters: &str) -> Result<&[u8], String> {
    match letters.bytes().all(|byte| (b' '..=b'~').contains(&byte)) {
        true => Ok(letters.as_bytes()),
        false => Err(format!("a byte that is not written out: {letters:?}")),
    }
}

/// The parts of a text between these signs, but for those that stand within braces.
fn outside(text: &str, sign: char) -> Vec<&str> {
    let mut open = 0;
    let mut parted = |letter: char| {
        open += i32::from(letter == '{') - i32::from(letter == '}');
        open == 0 && letter == sign
    };
    text.split(&mut parted).collect()
}

/// Where the brace that a text begins with is closed.
fn closing(text: &str) -> Result<usize, String> {
    let mut open = 0;
    for (at, byte) in text.bytes().enumerate() {
        open += i32::from(byte == b'{') - i32::from(byte == b'}');
        if open == 0 {
            return Ok(at);
        }
    }
    Err(format!("a brace stays open: {text:?}"))
}

// ---------------------------------------------------------------------------------------------
// A file
// ---------------------------------------------------------------------------------------------

/// Reads a file line by line.
struct Reader<'t> {
    texts: &'t mut Texts,
    entries: Vec<Entry>,
    /// The case that is being read, if its first line was.
    open: Option<Entry>,
    pins: String,
    /// Does the line before say what is pinned?
    pinning: bool,
    /// What is being named.
    naming: Option<(String, Named)>,
}

impl<'t> Reader<'t> {
    /// A blank line ends what is being named, or the case before; above it stood a heading, if anything.
    fn blank(&mut self) -> Result<(), String> {
        if std::mem::take(&mut self.pinning) {
            self.pins.clear();
        }
        if let Some((name, named)) = self.naming.take() {
            return match self.texts.0.insert(name.clone(), named) {
                None => Ok(()),
                Some(_) => Err(format!("{name:?} has two meanings")),
            };
        }
        self.close()
    }

    /// Ends the case before, if there is one.
    fn close(&mut self) -> Result<(), String> {
        match self.open.take() {
            Some(entry) if entry.due.is_empty() => Err("nothing is due".to_string()),
            Some(entry) => {
                self.entries.push(entry);
                Ok(())
            }
            None => Ok(()),
        }
    }

    /// The case to which a line of a call or of a text belongs.
    fn entry(&mut self, line: usize) -> Result<&mut Entry, String> {
        if self
            .open
            .as_ref()
            .is_some_and(|entry| !entry.due.is_empty())
        {
            self.close()?;
        }
        if self.pins.is_empty() {
            return Err("nothing says what the case pins".to_string());
        }
        let begun = || Entry {
            line,
            pins: self.pins.clone(),
            ..Entry::default()
        };
        Ok(self.open.get_or_insert_with(begun))
    }

    /// Calls stand before the text.
    fn call(&mut self, line: usize, call: &str) -> Result<(), String> {
        let entry = self.entry(line)?;
        if entry.line + entry.calls.len() != line {
            return Err("a call in the middle of a case".to_string());
        }
        entry.calls.push(call.to_string());
        Ok(())
    }

    /// The case to which a line of what is due or held belongs.
    fn begun(&mut self) -> Result<&mut Entry, String> {
        self.open.as_mut().ok_or("no case has begun".to_string())
    }

    fn pinned(&mut self, what: &str) -> Result<(), String> {
        self.close()?;
        if !self.pinning {
            self.pins = what.trim().to_string();
        }
        Ok(())
    }

    /// What is due stands before what is held.
    fn due(&mut self, line: &str) -> Result<(), String> {
        let text = self.texts.line(line, &Scope::new())?;
        match self.begun()? {
            entry if entry.held.is_empty() => entry.due.extend(text),
            _ => return Err("what is due behind what is held".to_string()),
        }
        Ok(())
    }

    fn held(&mut self, line: &str) -> Result<(), String> {
        let text = self.texts.line(line, &Scope::new())?;
        match self.begun()? {
            entry if !entry.due.is_empty() => entry.held.extend(text),
            _ => return Err("what is held before what is due".to_string()),
        }
        Ok(())
    }

    /// What the next lines are called, and its parameters: no name stands for two things.
    fn name(&mut self, kind: &str, names: &str) -> Result<(), String> {
        self.close()?;
        self.pins.clear();
        let all: Vec<String> = names.split(' ').map(str::to_string).collect();
        let parameters = all[1..].to_vec();
        let twice = (1..all.len()).any(|place| all[..place].contains(&all[place]));
        let known = |name: &String| self.texts.0.contains_key(name);
        if twice || parameters.iter().any(known) || !all.iter().all(|name| is_name(name)) {
            return Err(format!("no names: {names:?}"));
        }
        let named = Named {
            parameters,
            lines: Vec::new(),
        };
        self.naming = Some((format!("{kind}{}", all[0]), named));
        Ok(())
    }

    fn line(&mut self, number: usize, line: &str) -> Result<(), String> {
        if line.is_empty() {
            return self.blank();
        }
        let (first, rest) = line.split_once(' ').unwrap_or((line, ""));
        if first.len() > 1 && first.starts_with(['#', '>', '@', '=']) {
            return Err(format!("a blank is due behind {:?}", &first[..1]));
        }
        let sign = matches!(first, "#" | ">" | "@" | "=" | "text" | "table");
        if let Some((_, named)) = &mut self.naming {
            named.lines.push(line.to_string());
            return match sign {
                true => Err("a blank line ends what is named".to_string()),
                false => Ok(()),
            };
        }
        match first {
            "#" => self.pinned(rest)?,
            "text" => self.name("", rest)?,
            "table" => self.name("table ", rest)?,
            "@" => self.call(number, rest)?,
            ">" => self.due(rest)?,
            "=" => self.held(rest)?,
            _ => {
                let text = self.texts.line(line, &Scope::new())?;
                self.entry(number)?.text.extend(text);
            }
        }
        self.pinning = first == "#";
        Ok(())
    }
}

/// The entries of a file; what it names joins `texts`.
pub fn entries(source: &str, texts: &mut Texts) -> Result<Vec<Entry>, String> {
    if source.contains('\r') || !source.ends_with('\n') {
        return Err("each line ends with LF alone".to_string());
    }
    let mut reader = Reader {
        texts,
        entries: Vec::new(),
        open: None,
        pins: String::new(),
        pinning: false,
        naming: None,
    };
    let lines = source.lines().chain([""]);
    for (index, line) in lines.enumerate() {
        let at = |what| format!("line {}: {what}", index + 1);
        reader.line(index + 1, line).map_err(at)?;
    }
    Ok(reader.entries)
}

/// The entries of the file at a path.
pub fn file(path: &Path, texts: &mut Texts) -> Result<Vec<Entry>, String> {
    let at = |what: String| format!("{}: {what}", path.display());
    let source = std::fs::read_to_string(path).map_err(|error| at(error.to_string()))?;
    entries(&source, texts).map_err(at)
}
