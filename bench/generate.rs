//! Writes a replay of about 16 MB to standard output: 64 rows, of which 63 are threads of the first, and rounds of
//! stops, claims and restarts, with refusals and looks among them. The same text each time.
use std::io::{self, BufWriter, Write};

const MOST: usize = 16_777_216;

fn main() -> io::Result<()> {
    let mut out = BufWriter::new(io::stdout().lock());
    let mut size = 0;
    let mut line = |text: String| -> io::Result<bool> {
        if size + text.len() + 1 > MOST {
            return Ok(false);
        }
        size += text.len() + 1;
        writeln!(out, "{text}")?;
        Ok(true)
    };
    line("row 1000 1000 77 0".to_string())?;
    for tid in 1001..1064 {
        line(format!("row {tid} 1000 77 1000"))?;
    }
    line("publish 1000 start".to_string())?;
    line("claim 1000 0".to_string())?;
    line("resume 1000 0 syscall 0".to_string())?;
    for tid in 1001..1064 {
        line(format!("publish 1000 clone {tid}"))?;
        line("claim 1000 0".to_string())?;
        line("resume 1000 0 cont 0".to_string())?;
    }
    for turn in 0u32.. {
        for tid in 1000..1064u32 {
            let tracer = (tid + turn) % 16;
            let (stop, kind) = match turn % 4 {
                0 => ("enter".to_string(), "syscall"),
                1 => ("exit".to_string(), "syscall"),
                2 => (format!("seccomp {}", tid % 100), "cont"),
                _ => (format!("signal {}", 1 + tid % 31), "cont"),
            };
            let lines = [
                format!("publish {tid} {stop}"),
                format!("claim {tid} {tracer}"),
                format!("claim {tid} {}", (tracer + 1) % 16),
                format!("resume {tid} {tracer} {kind} {}", turn % 3),
                format!("state {tid}"),
            ];
            for text in lines {
                if !line(text)? {
                    return out.flush();
                }
            }
        }
    }
    Ok(())
}
