//! The proved calls, asked over a pipe. For each archive one process answers for the whole run: the
//! program of `tests/c/serve.c`, where the form of requests and replies is told, with that archive. It
//! isn't linked here, so that a call that ends its process ends no more than that.

use crate::call::{Call, Layout, Outcome};
use std::collections::BTreeMap;
use std::io::{self, BufReader, BufWriter, Read, Write};
use std::process::{Child, ChildStdin, ChildStdout, Command, ExitStatus, Stdio};

const NAME_BYTES: usize = 16;
const SAME_AS: u32 = 256;

/// The processes, each started when the first call is put to it.
pub struct Proved {
    line: String,
    quiet: bool,
    servers: BTreeMap<&'static str, Server>,
}

struct Server {
    process: Child,
    requests: BufWriter<ChildStdin>,
    replies: BufReader<ChildStdout>,
}

/// A command line's words, with pipes for its input and output.
pub fn piped(line: &str) -> Command {
    let mut words = line.split_whitespace();
    let mut command = Command::new(words.next().unwrap_or_default());
    command.args(words).stdin(Stdio::piped()).stdout(Stdio::piped());
    command
}

fn layout(layout: Layout) -> u32 {
    match layout {
        Layout::BeforeWall => 0,
        Layout::AfterWall(bytes) => 1 + bytes,
        Layout::SameAs(place) => SAME_AS + place as u32,
    }
}

impl Proved {
    /// Whoever runs a server is this command line with the server's name after it. What the servers say
    /// on standard error is left out where they are meant to fail.
    pub fn new(line: &str, quiet: bool) -> Proved {
        Proved { line: line.to_string(), quiet, servers: BTreeMap::new() }
    }

    /// Sends a call. What else is to be done can be done before `hear`.
    pub fn ask(&mut self, call: &Call, mischief: u32) -> io::Result<()> {
        let name = call.operation.server;
        if !self.servers.contains_key(name) {
            let server = Server::start(&format!("{} {name}", self.line), self.quiet)?;
            self.servers.insert(name, server);
        }
        self.servers.get_mut(name).expect("it was started").ask(call, mischief)
    }

    /// What came of the call that was sent last.
    pub fn hear(&mut self, call: &Call) -> io::Result<Outcome> {
        let server = self.servers.get_mut(call.operation.server);
        server.ok_or(io::Error::other("nothing was asked"))?.hear(call)
    }

    /// Ends every process; the first one that ends badly is told.
    pub fn end(self) -> io::Result<()> {
        for (name, server) in self.servers {
            let status = server.end()?;
            if !status.success() {
                return Err(io::Error::other(format!("{name} ended with {status}")));
            }
        }
        Ok(())
    }
}

impl Server {
    fn start(line: &str, quiet: bool) -> io::Result<Server> {
        let mut command = piped(line);
        if quiet {
            command.stderr(Stdio::null());
        }
        let mut process = command.spawn()?;
        let requests = BufWriter::new(process.stdin.take().expect("the input is piped"));
        let replies = BufReader::new(process.stdout.take().expect("the output is piped"));
        Ok(Server { process, requests, replies })
    }

    fn ask(&mut self, call: &Call, mischief: u32) -> io::Result<()> {
        let mut name = [0; NAME_BYTES];
        name[..call.operation.name.len()].copy_from_slice(call.operation.name.as_bytes());
        self.requests.write_all(&name)?;
        let mut numbers = vec![call.numbers.len() as u32, call.buffers.len() as u32, mischief];
        numbers.extend(&call.numbers);
        for buffer in &call.buffers {
            numbers.extend([buffer.bytes.len() as u32, layout(buffer.layout)]);
        }
        for number in numbers {
            self.requests.write_all(&number.to_le_bytes())?;
        }
        for buffer in &call.buffers {
            self.requests.write_all(&buffer.bytes)?;
        }
        self.requests.flush()
    }

    fn hear(&mut self, call: &Call) -> io::Result<Outcome> {
        let mut result = [0; 4];
        self.replies.read_exact(&mut result)?;
        let mut outcome = Outcome::result_only(call, u32::from_le_bytes(result));
        for buffer in &mut outcome.buffers {
            self.replies.read_exact(buffer)?;
        }
        Ok(outcome)
    }

    /// Ends the input, and with it the process. It has nothing more to say.
    fn end(mut self) -> io::Result<ExitStatus> {
        drop(self.requests);
        let more = self.replies.read(&mut [0])?;
        if more > 0 {
            return Err(io::Error::other("there is more than was asked for"));
        }
        self.process.wait()
    }
}
