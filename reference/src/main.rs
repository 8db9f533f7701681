//! Plays the script on standard input as `rehearse` does.

use std::io::{self, BufWriter, Read, Write};
use std::process::ExitCode;

use reference::player::Player;

/// The status is 1 if a line was no command.
fn main() -> io::Result<ExitCode> {
    let mut script = Vec::new();
    io::stdin().read_to_end(&mut script)?;

    let mut out = BufWriter::new(io::stdout().lock());
    let mut err = BufWriter::new(io::stderr().lock());
    let mut player = Player::default();
    player.play(&script, &mut out, &mut err)?;
    out.flush()?;
    err.flush()?;

    Ok(ExitCode::from(u8::from(player.failed())))
}
