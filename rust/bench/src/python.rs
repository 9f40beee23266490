//! CPython beside the others: a child that loads the same values, or reads the same exception tables, as often as it is told to, one
//! line for each time.
use std::io::{BufRead, BufReader, Write};
use std::path::PathBuf;
use std::process::{Child, ChildStdin, ChildStdout, Command, Stdio};
use std::time::Duration;

const SCRIPT: &str = "\
import dis, gc, marshal, sys, time, types
data = open(sys.argv[1], 'rb').read()
sizes = list(map(int, sys.argv[2].split(',')))
parts, at = [], 0
for size in sizes:
    parts.append(data[at:at + size])
    at += size
work = marshal.loads
if sys.argv[3] == 'handlers':
    work = dis._parse_exception_table
    parts = [types.SimpleNamespace(co_exceptiontable=part) for part in parts]
gc.disable()
print('ready', flush=True)
for _ in sys.stdin:
    start = time.thread_time_ns()
    for part in parts:
        work(part)
    print(time.thread_time_ns() - start, flush=True)
";

pub struct Python {
    child: Child,
    asked: Option<ChildStdin>,
    said: BufReader<ChildStdout>,
    file: PathBuf,
}

impl Python {
    /// marshal.loads; none where there is no python3, or one that cannot load this.
    pub fn loading(inputs: &[Vec<u8>]) -> Option<Self> {
        Self::new(inputs, "values")
    }

    /// What `dis` reads exception tables with; none where there is no python3, or one that cannot.
    pub fn reading_handlers(tables: &[Vec<u8>]) -> Option<Self> {
        Self::new(tables, "handlers")
    }

    fn new(inputs: &[Vec<u8>], what: &str) -> Option<Self> {
        let file = std::env::temp_dir().join(format!("sillgarland-bench-{}", std::process::id()));
        std::fs::write(&file, inputs.concat()).ok()?;
        let sizes: Vec<String> = inputs.iter().map(|input| input.len().to_string()).collect();
        let mut command = Command::new("python3");
        command
            .args(["-c", SCRIPT])
            .arg(&file)
            .args([&sizes.join(","), what])
            .stdin(Stdio::piped())
            .stdout(Stdio::piped());
        let mut child = command.spawn().ok()?;
        let (asked, said) = (child.stdin.take(), BufReader::new(child.stdout.take()?));
        let mut python = Self { child, asked, said, file };
        (python.line() == "ready").then_some(python)
    }

    fn line(&mut self) -> String {
        let mut line = String::new();
        let _ = self.said.read_line(&mut line);
        line.trim_end().to_string()
    }

    /// Does everything once; the processor time that took, as the child says.
    pub fn do_all(&mut self) -> Duration {
        if let Some(asked) = &mut self.asked {
            let _ = asked.write_all(b"\n").and_then(|()| asked.flush());
        }
        Duration::from_nanos(self.line().parse().expect("CPython refuses"))
    }
}

impl Drop for Python {
    fn drop(&mut self) {
        drop(self.asked.take());
        let _ = self.child.wait();
        let _ = std::fs::remove_file(&self.file);
    }
}
