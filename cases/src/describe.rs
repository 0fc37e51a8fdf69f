//! Cases as people write them, and the bytes of their files. bench-runner.txt says how it is written.

use std::collections::HashMap;

/// A program file and the line that it must lead to.
pub struct Case {
    pub name: String,
    pub why: String,
    pub file: Vec<u8>,
    pub prints: String,
}

/// The kinds of document 01, by number.
const KINDS: [&str; 20] = [
    "",
    "str",
    "file",
    "true",
    "false",
    "variable",
    "native",
    "foreign",
    "apply",
    "future",
    "if",
    "fix",
    "nil",
    "cons",
    "isnil",
    "zip",
    "tuple",
    "project",
    "list-project",
    "let",
];

/// The kinds whose number in the description is the row's n; of the others it is the row's word.
const COUNTED: [&str; 5] = ["apply", "zip", "tuple", "project", "list-project"];

/// All cases of a description.
pub fn cases_of(text: &str) -> Result<Vec<Case>, String> {
    let mut cases: Vec<Case> = Vec::new();
    let mut making: Option<Making> = None;
    for (number, line) in text.lines().enumerate() {
        let line = line.trim();
        let at = |fault: String| format!("line {}: {fault}: {line}", number + 1);
        if line.is_empty() || line.starts_with('#') {
            continue;
        }
        if let Some(name) = line.strip_prefix("case ") {
            if making.is_some() || cases.iter().any(|case| case.name == name) {
                return Err(at("the case before has no end, or the name stands twice".to_string()));
            }
            making = Some(Making { name: name.to_string(), ..Making::default() });
            continue;
        }
        let Some(made) = making.as_mut() else {
            return Err(at("this stands in no case".to_string()));
        };
        if let Some(prints) = line.strip_prefix("prints ") {
            cases.push(making.take().expect("a case is being made").case(prints).map_err(at)?);
        } else {
            made.add(line).map_err(at)?;
        }
    }
    match making {
        Some(made) => Err(format!("{} has no end", made.name)),
        None => Ok(cases),
    }
}

/// A case whose end has not been read.
#[derive(Default)]
struct Making {
    name: String,
    why: Vec<String>,
    types: Vec<[u8; 36]>,
    numbers: HashMap<String, u16>,
    rows: Vec<[u8; 8]>,
    damage: Vec<Damage>,
}

/// What is done to a file once it is made.
enum Damage {
    Byte { at: usize, value: u8 },
    Cut { length: usize },
    Then { count: usize, value: u8 },
}

impl Making {
    fn case(self, prints: &str) -> Result<Case, String> {
        if self.why.is_empty() {
            return Err("the case does not say why".to_string());
        }
        let mut file = b"TCA\x01\0\0".to_vec();
        file.extend((self.types.len() as u16).to_le_bytes());
        file.extend((self.rows.len() as u16).to_le_bytes());
        file.extend(self.types.iter().flatten());
        file.extend(self.rows.iter().flatten());
        for damage in self.damage {
            match damage {
                Damage::Byte { at, value } => *file.get_mut(at).ok_or("the file ends before")? = value,
                Damage::Cut { length } if length < file.len() => file.truncate(length),
                Damage::Cut { .. } => return Err("the file ends before".to_string()),
                Damage::Then { count, value } => file.resize(file.len() + count, value),
            }
        }
        Ok(Case { name: self.name, why: self.why.join(" "), file, prints: prints.to_string() })
    }

    fn add(&mut self, line: &str) -> Result<(), String> {
        let words: Vec<&str> = line.split_whitespace().collect();
        match words[..] {
            ["why", ..] => self.why.push(line[3..].trim().to_string()),
            [name, "=", ref form @ ..] => {
                let row = self.type_row(form)?;
                self.numbers.insert(name.to_string(), self.types.len() as u16);
                self.types.push(row);
            }
            ["lists", "to", count] => {
                while self.types.len() < number(count)? {
                    let mut row = [0; 36];
                    row[0] = 4;
                    row[2..4].copy_from_slice(&(self.types.len() as u16 - 1).to_le_bytes());
                    self.types.push(row);
                }
            }
            ["byte", at, "=", value] => self.damage.push(Damage::Byte { at: number(at)?, value: number(value)? }),
            ["cut", "to", length] => self.damage.push(Damage::Cut { length: number(length)? }),
            ["then", count, "times", value] => {
                self.damage.push(Damage::Then { count: number(count)?, value: number(value)? })
            }
            [count, "times", ..] => {
                let (_, repeated) = line.split_once("times").ok_or("nothing is repeated")?;
                for _ in 0..number::<usize>(count)? {
                    for row in repeated.split(',') {
                        self.add_row(&row.split_whitespace().collect::<Vec<_>>())?;
                    }
                }
            }
            _ => self.add_row(&words)?,
        }
        Ok(())
    }

    fn type_number(&self, name: &str) -> Result<u16, String> {
        self.numbers.get(name).copied().map_or_else(|| number(name), Ok)
    }

    /// A type row: a form with its parts, or `row` with the bare numbers of form, n, result and pairs.
    fn type_row(&self, form: &[&str]) -> Result<[u8; 36], String> {
        let (number_of_form, n, result, parts): (u8, u8, u16, &[&str]) = match form {
            ["Str"] => (1, 0, 0, &[]),
            ["File"] => (2, 0, 0, &[]),
            ["Bool"] => (3, 0, 0, &[]),
            ["List", element] => (4, 0, self.type_number(element)?, &[]),
            ["Tuple", parts @ ..] => (5, parts.len() as u8, 0, parts),
            ["Native", parts @ .., "->", result] => (6, parts.len() as u8, self.type_number(result)?, parts),
            ["Foreign", parts @ .., "->", result] => (7, parts.len() as u8, self.type_number(result)?, parts),
            ["row", form, n, result, parts @ ..] => (number(form)?, number(n)?, self.type_number(result)?, parts),
            _ => return Err("this is no type".to_string()),
        };
        let mut row = [0; 36];
        (row[0], row[1]) = (number_of_form, n);
        row[2..4].copy_from_slice(&result.to_le_bytes());
        for (pair, part) in row[4..].chunks_exact_mut(4).zip(parts) {
            let (name, ty) = part.split_once(':').unwrap_or(("0", part));
            pair[..2].copy_from_slice(&number::<u16>(name)?.to_le_bytes());
            pair[2..].copy_from_slice(&self.type_number(ty)?.to_le_bytes());
        }
        Ok(row)
    }

    /// A term row: a kind, a type and a number, or `row` with the bare numbers of kind, n, type and word.
    fn add_row(&mut self, words: &[&str]) -> Result<(), String> {
        let (kind, n, ty, word): (u8, u8, &str, u32) = match words {
            ["row", kind, n, ty, word] => (number(kind)?, number(n)?, ty, number(word)?),
            [name, ty, value @ ..] if value.len() < 2 => {
                let kind = KINDS.iter().position(|kind| kind == name).ok_or("this is no kind")? as u8;
                let value = value.first().copied().unwrap_or("0");
                let counted = COUNTED.contains(name);
                (kind, if counted { number(value)? } else { 0 }, ty, if counted { 0 } else { number(value)? })
            }
            _ => return Err("this is no row".to_string()),
        };
        let ([t0, t1], [w0, w1, w2, w3]) = (self.type_number(ty)?.to_le_bytes(), word.to_le_bytes());
        self.rows.push([kind, n, t0, t1, w0, w1, w2, w3]);
        Ok(())
    }
}

fn number<N: std::str::FromStr>(word: &str) -> Result<N, String> {
    word.replace(',', "").parse().map_err(|_| format!("`{word}` is no number, or too large"))
}

#[cfg(test)]
mod tests {
    use super::*;

    /// The bench runner's own input is document 01's first file.
    #[test]
    fn the_first_case_is_document_01s_file() {
        let text = include_str!("../bench-runner.txt");
        assert_eq!(cases_of(text).unwrap()[0].file, include_bytes!("../../crates/bench/stdin"));
    }

    #[test]
    fn a_row_is_written_by_its_kind() {
        let text = "case a\nwhy so\nS = Str\nF = Foreign 258:S -> S\napply F 1\nvariable S 65,535\nrow 99 7 513 1\nprints 0 0 0";
        let file = &cases_of(text).unwrap()[0].file;
        assert_eq!(file[..10], [0x54, 0x43, 0x41, 1, 0, 0, 2, 0, 3, 0]);
        assert_eq!(file[46..54], [7, 1, 0, 0, 2, 1, 0, 0]);
        assert_eq!(file[82..], [8, 1, 1, 0, 0, 0, 0, 0, 5, 0, 0, 0, 255, 255, 0, 0, 99, 7, 1, 2, 1, 0, 0, 0]);
    }

    #[test]
    fn what_is_no_case_is_told() {
        for text in [
            "str S 1",
            "case a\nprints 1",
            "case a\nwhy so",
            "case a\nwhy so\nX = Strg",
            "case a\nwhy so\nbyte 900 = 1\nprints 0",
        ] {
            assert!(cases_of(text).is_err(), "{text}");
        }
    }
}
