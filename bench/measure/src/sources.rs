//! The sources that are measured, the same in every build. Those of hostile names and of prophets are in hostile.rs.
use crate::mixed::mixed;

pub struct Source {
    pub name: &'static str,
    pub text: String,
    /// The same rows in decimal, where the text has hexadecimal numbers.
    pub decimal: Option<String>,
    /// The listed prophets.
    pub prophets: Vec<String>,
}

impl Source {
    /// A source without prophets, all of it in decimal.
    pub fn of(name: &'static str, text: String) -> Source {
        Source { name, text, decimal: None, prophets: vec![] }
    }

    /// As the Rust gets it, which has decimal numbers only.
    pub fn in_decimal(&self) -> &str {
        self.decimal.as_deref().unwrap_or(&self.text)
    }

    /// The prophet list.
    pub fn list(&self) -> String {
        if self.prophets.is_empty() {
            return String::new();
        }
        format!("label\n{}", self.prophets.join("\n"))
    }
}

/// Scopes of eleven rows each, of the operations of ordinary programs, main last, up to so many bytes.
fn ordinary(size: usize) -> String {
    let main = "main:\nadd r9 r9 4\nmov r1 7\ncall f0\nmstore [r9,-1] r0\nend\n";
    let mut text = String::new();
    for n in 0.. {
        let scope = format!(
            "f{n}:\n.LBL{n}_0:\nadd r9 r9 {}\nmov r1 {}\nmload r2 [r9,-3]\ngte r3 r1 r2\ncjmp r3 .LBL{n}_1\nmstore [r9,-2] r3\ncall f{}\n.LBL{n}_1:\nret\n",
            n % 9 + 1,
            n * 37,
            n / 2
        );
        if text.len() + scope.len() + main.len() > size {
            break;
        }
        text.push_str(&scope);
    }
    if text.is_empty() {
        text = "f0:\nret\n".to_string();
    }
    text + main
}

/// The same rows with each number in hexadecimal, a negative one as p less its size.
fn hexadecimal(source: &str) -> String {
    let order = 0xFFFF_FFFF_0000_0001_i128;
    let spelt = |piece: &str| match piece.parse::<i128>() {
        Ok(number) => format!("0x{:x}", number.rem_euclid(order)),
        Err(_) => piece.to_string(),
    };
    let mut text = String::new();
    for piece in source.split_inclusive([' ', ',', ']', '\n']) {
        let (body, end) = piece.split_at(piece.len() - 1);
        text.push_str(&spelt(body));
        text.push_str(end);
    }
    text
}

/// As many labels and jumps as fit: each jump names the first label, the last that a search from the end finds.
pub fn look_ups(size: usize, name: &str) -> String {
    let mut text = format!("main:\n{name}:\n");
    let jump = format!("jmp {name}\n");
    text.push_str(&"b:\n".repeat(size / 6));
    text.push_str(&jump.repeat((size - text.len()) / jump.len()));
    text
}

/// Of 4 KB with its numbers in hexadecimal: as many rows as are so many bytes at most in decimal.
const IN_DECIMAL: usize = 3_200;

pub fn assembled() -> Vec<Source> {
    let decimal = ordinary(IN_DECIMAL);
    vec![
        Source::of("200 bytes", ordinary(200)),
        Source::of("4 KB", ordinary(4_096)),
        Source { decimal: Some(decimal.clone()), ..Source::of("4 KB, hexadecimal", hexadecimal(&decimal)) },
        Source::of("64 KB", ordinary(65_536)),
        Source::of("4 KB, mixed", mixed(4_096)),
        Source::of("64 KB, mixed", mixed(65_536)),
        Source::of("64 KB of look-ups", look_ups(65_536, "a")),
    ]
}

/// Those whose bytecode is read and written, and made a source of.
pub fn of_bytecodes() -> Vec<Source> {
    assembled().into_iter().filter(|source| ["4 KB", "64 KB"].contains(&source.name)).collect()
}
