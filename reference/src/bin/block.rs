//! Makes a block file from its text, and shows one as text (src/text.rs says how it is written).
//!
//!     cargo run --release --offline --bin block -- make < x.txt > x.block
//!     cargo run --release --offline --bin block -- show < x.block

use reference::text;
use std::io::{Read, Write};
use std::process::ExitCode;

fn main() -> std::io::Result<ExitCode> {
    let mut input = Vec::new();
    let act = std::env::args().nth(1);
    let output = match act.as_deref() {
        Some("make") => {
            std::io::stdin().read_to_end(&mut input)?;
            text::make(&input).map_err(|mistake| mistake.to_string())
        }
        Some("show") => {
            std::io::stdin().read_to_end(&mut input)?;
            Ok(text::show(&input).into_bytes())
        }
        _ => Err("usage: block make < TEXT > BLOCK, or block show < BLOCK > TEXT".to_string()),
    };
    match output {
        Ok(bytes) => {
            std::io::stdout().write_all(&bytes)?;
            Ok(ExitCode::SUCCESS)
        }
        Err(reason) => {
            eprintln!("{reason}");
            Ok(ExitCode::FAILURE)
        }
    }
}
