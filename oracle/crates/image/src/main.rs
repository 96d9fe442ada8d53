//! `image` turns a description on standard input into an image on standard
//! output; `image --dump` goes the other way.

use std::{
    env,
    io::{self, Read, Write},
    process::ExitCode,
};

use image::describe;

fn main() -> ExitCode {
    match run() {
        Ok(()) => ExitCode::SUCCESS,
        Err(message) => {
            eprintln!("{message}");
            ExitCode::FAILURE
        }
    }
}

fn run() -> Result<(), String> {
    let arguments: Vec<String> = env::args().skip(1).collect();
    let turn = match arguments.as_slice() {
        [] => to_image,
        [word] if word == "--dump" => to_description,
        _ => return Err("usage: image [--dump]".to_owned()),
    };
    let mut input = Vec::new();
    io::stdin()
        .read_to_end(&mut input)
        .map_err(|e| format!("standard input: {e}"))?;
    io::stdout()
        .write_all(&turn(input)?)
        .map_err(|e| format!("standard output: {e}"))
}

fn to_image(description: Vec<u8>) -> Result<Vec<u8>, String> {
    let text = String::from_utf8(description).map_err(|_| "the description is not UTF-8")?;
    Ok(image::write(&describe::read(&text)?))
}

fn to_description(image: Vec<u8>) -> Result<Vec<u8>, String> {
    let elements = image::read(&image)
        .map_err(|f| format!("refusal {} at element {}", f.number, f.element))?;
    Ok(describe::write(&elements).into_bytes())
}
