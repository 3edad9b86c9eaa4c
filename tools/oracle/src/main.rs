//! Prints the Rust's answer to an input. A HEX of `-` is read from standard input; spaces and newlines in it are skipped.

use oracle::lines::{block_line, functions_line, section_line, span_line};
use oracle::messages;
use oracle::text::{string, text};
use std::io::Read;

const USAGE: &str = "usage: oracle section HEX CURSOR    of schema 2, which the Rust does not read, the model's answer
       oracle block HEX BASE REVISION
       oracle functions HEX CURSOR REVISION
       oracle text HEX AT      a text of a section
       oracle string HEX AT    a string of a function
       oracle messages         that every message of the sources has a number";

fn main() {
    let args: Vec<String> = std::env::args().skip(1).collect();
    let args: Vec<&str> = args.iter().map(String::as_str).collect();
    let answer = match args[..] {
        ["section", hex, cursor] => section_line(&bytes(hex), number(cursor)),
        ["block", hex, base, revision] => {
            block_line(&bytes(hex), number(base), revision_of(revision))
        }
        ["functions", hex, cursor, revision] => {
            functions_line(&bytes(hex), number(cursor), revision_of(revision))
        }
        ["text", hex, at] => text(&bytes(hex), number(at)).map(span_line),
        ["string", hex, at] => string(&bytes(hex), number(at)).map(span_line),
        ["messages"] => {
            let count = messages::check().expect("a map of all messages");
            println!("{count} messages, each with its number");
            return;
        }
        _ => {
            eprintln!("{USAGE}");
            std::process::exit(2);
        }
    };
    match answer {
        Ok(line) => println!("ok {line}"),
        Err(refusal) => println!("{refusal}"),
    }
}

fn number(text: &str) -> usize {
    text.parse().expect("a decimal number of 64 bits")
}

fn revision_of(text: &str) -> u16 {
    u16::try_from(number(text)).expect("a revision of 16 bits")
}

fn bytes(hex: &str) -> Vec<u8> {
    let mut text = hex.to_string();
    if hex == "-" {
        text.clear();
        std::io::stdin().read_to_string(&mut text).expect("hex");
    }
    let digits: Vec<u8> = text
        .chars()
        .filter(|c| !c.is_whitespace())
        .map(|c| c.to_digit(16).expect("a hexadecimal digit") as u8)
        .collect();
    assert!(digits.len().is_multiple_of(2), "half a byte is left over");
    digits
        .chunks(2)
        .map(|pair| pair[0] * 16 + pair[1])
        .collect()
}
