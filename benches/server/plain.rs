//! A plain server over a Unix socket, to compare with: a thread for each connection, which reads each line as a request,
//! takes the lock of what all connections share, notes the request in a history there, and writes the reply. It answers
//! what it is measured with, and nothing of it is proved. Beside std it needs no crate.
//! usage: plain SOCKET CONNECTIONS

use std::collections::HashMap;
use std::io::{self, BufRead, BufReader, Write};
use std::os::unix::net::{UnixListener, UnixStream};
use std::sync::Mutex;
use std::{env, fs, thread};

/// A request that was answered, by the number of its connection.
#[allow(dead_code)]
struct Entry {
    connection: usize,
    op: String,
}

struct Tenant {
    reserved: u8,
    slots: u8,
    priority: &'static str,
    history: Vec<Entry>,
}

/// The members of an object whose values are strings, or None if the line is no such object.
fn members(line: &str) -> Option<HashMap<String, String>> {
    let inner = line.trim().strip_prefix('{')?.strip_suffix('}')?;
    let mut found = HashMap::new();
    for member in inner.split(',') {
        let (name, value) = member.split_once(':')?;
        let bare = |text: &str| Some(text.trim().strip_prefix('"')?.strip_suffix('"')?.to_owned());
        found.insert(bare(name)?, bare(value)?);
    }
    Some(found)
}

fn reply(tenant: &Mutex<Tenant>, connection: usize, line: &str) -> String {
    let Some(members) = members(line) else {
        return "{\"code\":2,\"error\":\"bad_json\"}\n".to_owned();
    };
    match (members.get("op").map(String::as_str), members.get("tenant")) {
        (Some("hello"), Some(name)) => format!("{{\"tenant\":\"{name}\"}}\n"),
        (Some("arena"), None) => {
            let mut tenant = tenant.lock().unwrap();
            tenant.history.push(Entry { connection, op: "arena".to_owned() });
            let Tenant { priority, reserved, slots, .. } = &*tenant;
            format!("{{\"priority\":\"{priority}\",\"reserved\":{reserved},\"slots\":{slots}}}\n")
        }
        _ => "{\"code\":3,\"error\":\"bad_request\"}\n".to_owned(),
    }
}

fn serve(tenant: &Mutex<Tenant>, connection: usize, stream: UnixStream) -> io::Result<()> {
    let mut writer = stream.try_clone()?;
    let mut reader = BufReader::new(stream);
    let mut line = String::new();
    while reader.read_line(&mut line)? > 0 {
        writer.write_all(reply(tenant, connection, &line).as_bytes())?;
        line.clear();
    }
    Ok(())
}

fn main() -> io::Result<()> {
    let words: Vec<String> = env::args().collect();
    let [_, path, connections] = &words[..] else {
        return Err(io::Error::other("usage: plain SOCKET CONNECTIONS"));
    };
    let connections: usize = connections.parse().map_err(io::Error::other)?;
    let history = Vec::with_capacity(1 << 20);
    let tenant = Mutex::new(Tenant { reserved: 1, slots: 2, priority: "normal", history });
    let listener = UnixListener::bind(path)?;
    println!("listening");
    thread::scope(|scope| -> io::Result<()> {
        for connection in 0..connections {
            let (stream, _) = listener.accept()?;
            let tenant = &tenant;
            scope.spawn(move || serve(tenant, connection, stream));
        }
        Ok(())
    })?;
    fs::remove_file(path)
}
