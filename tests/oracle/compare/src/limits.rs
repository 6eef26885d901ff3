//! Cases at the limits of what is given, and such as have very many rows, words or names.
use crate::check::Expected;
use crate::named::{bytecode, hosts, listed, refused, room, row, source, words, Named, CALL};
use crate::paper::ORDER;

/// A text of so many bytes, filled with comment.
fn filled(text: &str, size: usize) -> String {
    let mut text = format!("{text};");
    text.extend(std::iter::repeat('x').take(size - text.len()));
    text
}

pub fn limits() -> Vec<Named> {
    let host = "main:\n.PROPHET0_0:\nend";
    let list = |size: usize| {
        let mut list = "label".to_string();
        while list.len() + 12 <= size {
            list.push_str("\n.PROPHET0_0");
        }
        list.extend(std::iter::repeat('\n').take(size - list.len()));
        list
    };
    let ends = |size: usize| "end\n".repeat(size / 4);
    let like_label = |n: u64| format!("{}LBL{n}_0", ["x", "r", "L", "_"][n as usize % 4]);
    let calls: String = (0..2_000).map(|n| format!("{0}:\ncall {0}\n", like_label(n))).collect();
    let code = |size: usize| format!("{}{}", "0x0000000000800000\n".repeat(size / 19 - 1), "0".repeat(size % 19 + 19 - 6) + "800000");
    vec![
        source("65,536 bytes", &filled("main:\nend", 65_536), words(&[0x0000000000100000])),
        source("65,537 bytes", &filled("main:\nend", 65_537), refused(1, 0)),
        source("65,536 bytes, more in decimal", &filled("main:\nmov r1 0xffffffff00000000", 65_536), words(&[0x4000000208000000, ORDER - 1])),
        source("65,537 bytes, fewer in decimal", &filled("main:\nmov r1 0x0000000000000005", 65_537), refused(1, 0)),
        source("65,534 bytes of rows", &format!("main:\n\n\n\n\n{}", ends(65_526)), room(1, 16_381, 16_381, 16_381)),
        source("as many words as fit", &format!("main:\n{}end", "jmp 1\n".repeat(10_921)), room(1, 10_922, 21_843, 21_843)),
        source("as many label rows as fit", &format!("main:\n{}", "b:\n".repeat(21_843)), words(&[])),
        source("as many label rows as fit, mapped", &format!("main:\n{}end", "b:\n".repeat(21_842)), words(&[0x0000000000100000])),
        source("labels and jumps", &format!("main:\na:\n{}{}", "b:\n".repeat(3_000), "jmp a\n".repeat(1_500)), room(3_002, 1_500, 3_000, 3_000)),
        row("names like labels, 2,000 of them", &calls, Expected::Words((0..2_000).flat_map(|n| [CALL, 2 * n]).collect())),
        source("65,537 bytes, no row", &" ".repeat(65_537), refused(1, 0)),
        source("65,536 bytes, no row", &" ".repeat(65_536), refused(4, 0)),
        source("65,536 bytes above 127", &"\u{e4}".repeat(32_768), refused(2, 0)),
        listed("16,373 bytes", host, &list(16_373), hosts(&vec![0; 1364])),
        listed("16,384 bytes", host, &list(16_384), refused(9, 1364)),
        listed("16,385 bytes", host, &list(16_385), refused(8, 0)),
        bytecode("524,288 bytes", &code(524_288), Expected::Nothing),
        bytecode("524,289 bytes", &code(524_289), Expected::Nothing),
        bytecode("524,289 line feeds", &"\n".repeat(524_289), Expected::Nothing),
    ]
}
