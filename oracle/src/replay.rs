// Runs the program replay on a script.
use crate::script::{encode, Call};
use std::fs::{read, write, File};
use std::path::PathBuf;
use std::process::{Command, Stdio};
use std::time::{Duration, Instant};

pub struct Replay {
    // the program, with what runs it before it, if anything does
    pub command: Vec<String>,
    pub folder: PathBuf,
    pub seconds: u64,
}

impl Replay {
    // What replay writes. An error says that it did not end in time, or ended badly.
    pub fn run(&self, calls: &[Call]) -> Result<Vec<u8>, String> {
        let script = self.folder.join("script");
        let answers = self.folder.join("answers");
        write(&script, encode(calls)).map_err(|e| e.to_string())?;
        let input = File::open(&script).map_err(|e| e.to_string())?;
        let output = File::create(&answers).map_err(|e| e.to_string())?;
        let mut child = Command::new(&self.command[0])
            .args(&self.command[1..])
            .stdin(Stdio::from(input))
            .stdout(Stdio::from(output))
            .spawn()
            .map_err(|e| format!("{}: {e}", self.command[0]))?;
        let began = Instant::now();
        loop {
            if let Some(status) = child.try_wait().map_err(|e| e.to_string())? {
                if !status.success() {
                    return Err(format!("replay ended with {status}"));
                }
                return read(&answers).map_err(|e| e.to_string());
            }
            if began.elapsed() > Duration::from_secs(self.seconds) {
                let _ = child.kill();
                let _ = child.wait();
                return Err(format!("replay did not end in {} s", self.seconds));
            }
            std::thread::sleep(Duration::from_millis(1));
        }
    }
}
