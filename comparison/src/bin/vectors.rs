//! Puts requests of the line protocol to the proved library and to the plain one, runs to the one written for speed as well and checks to
//! those that choose block by block, and compares with the right answers: `vectors REQUESTS ANSWERS ..`. Where a line is no request, the
//! plain reader must find the same place.

use ramdulsi_comparison::{choice, fast, Proved};
use ramdulsi_reference::protocol::{answer, passed_over, read};
use ramdulsi_reference::Plain;
use std::fs::read_to_string;
use std::process::exit;

fn text(path: &str) -> String {
    read_to_string(path).unwrap_or_else(|e| {
        println!("vectors: {path}: {e}");
        exit(2)
    })
}

/// The requests of a text, each with the comment that stands before it.
fn labelled(text: &str) -> Vec<(&str, &str)> {
    let mut label = "";
    let mut requests = Vec::new();
    for line in text.split('\n') {
        if !passed_over(line.as_bytes()) {
            requests.push((label, line));
        } else if line.contains('#') {
            label = line;
        }
    }
    requests
}

/// What each side answers to a line.
fn answers(line: &str) -> Vec<(&'static str, String)> {
    let (request, c) = match read(line.as_bytes()) {
        Ok(read) => read,
        Err(place) => return vec![("plain", format!("malformed {place}"))],
    };
    let mut all = vec![("proved", answer::<Proved>(request, &c)), ("plain", answer::<Plain>(request, &c))];
    match request {
        "check" => all.extend(choice::answers(&c).map(|given| ("by blocks", given))),
        "run" => all.extend(fast::answers(&c).map(|given| ("fast", given))),
        _ => (),
    }
    all.into_iter().map(|(name, given)| (name, given.to_string())).collect()
}

fn main() {
    let paths: Vec<String> = std::env::args().skip(1).collect();
    for pair in paths.chunks_exact(2) {
        let (requests, stored) = (text(&pair[0]), text(&pair[1]));
        let asked = labelled(&requests);
        let wanted: Vec<&str> = stored.lines().collect();
        assert_eq!(asked.len(), wanted.len(), "{}: as many answers as requests", pair[0]);
        let mut malformed = 0;
        for ((label, line), right) in asked.iter().zip(&wanted) {
            let answers = answers(line);
            if let Some((name, given)) = answers.iter().find(|(_, given)| given != right) {
                println!("vectors: {}\n{label}\n{line}\nright:  {right}\n{name}: {given}", pair[0]);
                exit(1);
            }
            malformed += usize::from(answers.len() == 1);
        }
        println!("vectors: {}: {} requests answered alike by all", pair[0], asked.len() - malformed);
        println!("vectors: {}: {malformed} lines that are no requests, at the places where the plain reader stops", pair[0]);
    }
}
