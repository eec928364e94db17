//! The sessions of a site in two ordered maps: for each id its session, and for each nonce its id.
//!
//! It reads and prints what `sessions_check` does.
use std::collections::BTreeMap;
use std::io::{Read, Write};

const SESSIONS: usize = 1024;
const PENDING: u64 = 300;
const KEPT: u64 = 3600;

enum Event {
    Open { id: String, nonce: String },
    Post { id: String, yes: bool },
    Look { id: String },
}

struct Session {
    nonce: String,
    opened: u64,
    refusals: u8,
    accepted: bool,
}

enum Stand {
    Unknown,
    Pending(u8),
    Yes(u8),
    Closed,
    Expired(u8),
}

enum Reply {
    Opened,
    Full,
    DrawInUse(String),
    Turned,
    Counted,
    Stands(Stand),
}

#[derive(Default)]
struct Table {
    latest: u64,
    sessions: BTreeMap<String, Session>,
    nonces: BTreeMap<String, String>,
}

fn is_kept(now: u64, session: &Session) -> bool {
    now - session.opened < KEPT
}

fn stand(now: u64, session: Option<&Session>) -> Stand {
    match session {
        None => Stand::Unknown,
        Some(session) if !is_kept(now, session) => Stand::Unknown,
        Some(session) if session.refusals >= 8 => Stand::Closed,
        Some(session) if session.accepted => Stand::Yes(session.refusals),
        Some(session) if now - session.opened >= PENDING => Stand::Expired(session.refusals),
        Some(session) => Stand::Pending(session.refusals),
    }
}

impl Table {
    fn apply(&mut self, moment: u64, event: &Event) -> Reply {
        self.latest = self.latest.max(moment);
        let now = self.latest;
        match event {
            Event::Open { id, nonce } => self.open(now, id, nonce),
            Event::Post { id, yes } => match stand(now, self.sessions.get(id)) {
                Stand::Pending(_) => self.post(id, *yes),
                other => Reply::Stands(other),
            },
            Event::Look { id } => Reply::Stands(stand(now, self.sessions.get(id))),
        }
    }

    fn post(&mut self, id: &str, yes: bool) -> Reply {
        let session = self.sessions.get_mut(id).unwrap();
        if yes {
            session.accepted = true;
            Reply::Turned
        } else {
            session.refusals += 1;
            Reply::Counted
        }
    }

    fn open(&mut self, now: u64, id: &str, nonce: &str) -> Reply {
        if self.sessions.len() >= SESSIONS {
            self.sweep(now);
            if self.sessions.len() >= SESSIONS {
                return Reply::Full;
            }
        }
        if self.is_in_use(now, Some(id)) {
            return Reply::DrawInUse(id.to_string());
        }
        if self.is_in_use(now, self.nonces.get(nonce).map(String::as_str)) {
            return Reply::DrawInUse(nonce.to_string());
        }
        let session = Session { nonce: nonce.to_string(), opened: now, refusals: 0, accepted: false };
        if let Some(old) = self.sessions.insert(id.to_string(), session) {
            self.nonces.remove(&old.nonce);
        }
        if let Some(old) = self.nonces.insert(nonce.to_string(), id.to_string()) {
            if old != id {
                self.sessions.remove(&old);
            }
        }
        Reply::Opened
    }

    fn is_in_use(&self, now: u64, id: Option<&str>) -> bool {
        id.and_then(|id| self.sessions.get(id)).is_some_and(|session| is_kept(now, session))
    }

    fn sweep(&mut self, now: u64) {
        let nonces = &mut self.nonces;
        self.sessions.retain(|_, session| {
            let kept = is_kept(now, session);
            if !kept {
                nonces.remove(&session.nonce);
            }
            kept
        });
    }
}

fn read_event(line: &str) -> Option<(u64, Event)> {
    let (word, rest) = line.split_once(' ')?;
    let (moment, rest) = rest.split_once(' ')?;
    let event = match word {
        "open" => {
            let (id, nonce) = rest.split_once(' ')?;
            Event::Open { id: id.to_string(), nonce: nonce.to_string() }
        }
        "post" => {
            let (id, verdict) = rest.split_once(' ')?;
            Event::Post { id: id.to_string(), yes: verdict == "yes" }
        }
        "look" => Event::Look { id: rest.to_string() },
        _ => return None,
    };
    Some((moment.parse().ok()?, event))
}

fn told(reply: &Reply) -> String {
    match reply {
        Reply::Opened => "opened\n".to_string(),
        Reply::Full => "full\n".to_string(),
        Reply::DrawInUse(text) => format!("draw in use {text}\n"),
        Reply::Turned => "turned\n".to_string(),
        Reply::Counted => "counted\n".to_string(),
        Reply::Stands(Stand::Unknown) => "unknown\n".to_string(),
        Reply::Stands(Stand::Pending(refusals)) => format!("pending {refusals}\n"),
        Reply::Stands(Stand::Yes(refusals)) => format!("yes {refusals}\n"),
        Reply::Stands(Stand::Closed) => "closed\n".to_string(),
        Reply::Stands(Stand::Expired(refusals)) => format!("expired {refusals}\n"),
    }
}

fn main() {
    let mut text = String::new();
    std::io::stdin().read_to_string(&mut text).unwrap();
    let mut out = String::new();
    for list in text.split("new\n") {
        let events: Vec<_> = list.lines().map(|line| read_event(line).unwrap()).collect();
        let mut table = Table::default();
        let replies: Vec<_> = events.iter().map(|(moment, event)| table.apply(*moment, event)).collect();
        replies.iter().for_each(|reply| out.push_str(&told(reply)));
    }
    std::io::stdout().write_all(out.as_bytes()).unwrap();
}
