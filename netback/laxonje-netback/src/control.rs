//! The socket on which statistics are told and filters are reloaded, and the client of it.
use std::collections::VecDeque;
use std::fs;
use std::io::{self, ErrorKind, Read, Write};
use std::os::unix::fs::PermissionsExt;
use std::os::unix::io::{AsRawFd, RawFd};
use std::os::unix::net::{UnixListener, UnixStream};
use std::path::Path;
use std::time::Duration;

/// How long one who doesn't take the answer is waited for.
const PATIENCE: Duration = Duration::from_secs(2);
/// How many may be connected and ask nothing: with one more the first of them is closed.
const MOST_SILENT: usize = 16;
/// How many connect before other events have their turn.
const AT_ONCE: usize = 64;
const LONGEST_QUESTION: usize = 16;

/// Where questions come in. Whoever may write the socket's file may ask: its owner alone.
pub struct Control {
    listener: UnixListener,
    /// They are connected, and haven't asked yet.
    silent: VecDeque<UnixStream>,
}

impl Control {
    /// An old socket that nobody answers on is taken away.
    pub fn open(path: &Path) -> io::Result<Control> {
        if UnixStream::connect(path).is_ok() {
            return Err(io::Error::new(io::ErrorKind::AddrInUse, format!("{} is another laxonje-netback's", path.display())));
        }
        let _ = fs::remove_file(path);
        let listener = UnixListener::bind(path)?;
        fs::set_permissions(path, fs::Permissions::from_mode(0o600))?;
        listener.set_nonblocking(true)?;
        Ok(Control { listener, silent: VecDeque::new() })
    }

    /// Returns the descriptors by which a question may come in.
    pub fn fds(&self) -> impl Iterator<Item = RawFd> + '_ {
        [self.listener.as_raw_fd()].into_iter().chain(self.silent.iter().map(AsRawFd::as_raw_fd))
    }

    /// Takes the questions that have come in. Nobody is waited for.
    pub fn questions(&mut self) -> Vec<io::Result<Asked>> {
        let mut clients: Vec<_> = self.silent.drain(..).map(Ok).collect();
        while clients.len() < MOST_SILENT + AT_ONCE {
            match self.listener.accept() {
                Err(error) if error.kind() == ErrorKind::WouldBlock => break,
                accepted => clients.push(accepted.map(|(client, _)| client)),
            }
            if matches!(clients.last(), Some(Err(_))) {
                break;
            }
        }
        clients.into_iter().filter_map(|client| client.and_then(|client| self.look(client)).transpose()).collect()
    }

    /// The question of one who is connected. `None`: it hasn't come yet.
    fn look(&mut self, mut client: UnixStream) -> io::Result<Option<Asked>> {
        client.set_nonblocking(true)?;
        let mut question = [0; LONGEST_QUESTION];
        match client.read(&mut question) {
            Err(error) if error.kind() == ErrorKind::WouldBlock => {
                self.silent.push_back(client);
                self.silent.drain(..self.silent.len().saturating_sub(MOST_SILENT));
                Ok(None)
            }
            Ok(0) => Ok(None),
            read => Ok(Some(Asked { question: String::from_utf8_lossy(&question[..read?]).trim().to_owned(), from: client })),
        }
    }
}

/// A question, and who waits for its answer.
pub struct Asked {
    pub question: String,
    from: UnixStream,
}

impl Asked {
    pub fn answer(mut self, answer: &str) -> io::Result<()> {
        self.from.set_nonblocking(false)?;
        self.from.set_write_timeout(Some(PATIENCE))?;
        self.from.write_all(answer.as_bytes())
    }
}

/// What the program that serves answers to a question.
pub fn ask(path: &Path, question: &str) -> io::Result<String> {
    let mut to = UnixStream::connect(path)?;
    to.write_all(format!("{question}\n").as_bytes())?;
    let mut answer = String::new();
    to.read_to_string(&mut answer)?;
    Ok(answer)
}

#[cfg(test)]
mod tests {
    use super::*;

    /// A child that another test starts has a copy of each descriptor until it runs its own program, and so a socket may
    /// be open for a moment more.
    fn is_soon(mut what: impl FnMut() -> bool) -> bool {
        (0..500).any(|_| {
            let is_so = what();
            if !is_so {
                std::thread::sleep(Duration::from_millis(10));
            }
            is_so
        })
    }

    /// The next question that comes in.
    fn next(control: &mut Control) -> Asked {
        let mut questions = std::iter::repeat_with(|| control.questions()).flatten();
        questions.find_map(|asked| asked.ok()).unwrap()
    }

    fn asks(path: &Path) -> std::thread::JoinHandle<io::Result<String>> {
        let path = path.to_owned();
        std::thread::spawn(move || ask(&path, "stats"))
    }

    fn place(name: &str) -> std::path::PathBuf {
        std::env::temp_dir().join(format!("laxonje-{name}-{}.sock", std::process::id()))
    }

    #[test]
    fn a_question_is_answered_and_one_program_has_the_socket() {
        let path = place("control");
        let mut control = Control::open(&path).unwrap();
        let client = asks(&path);
        let asked = next(&mut control);
        assert_eq!(asked.question, "stats");
        asked.answer("an answer").unwrap();
        assert_eq!(client.join().unwrap().unwrap(), "an answer");
        assert_eq!(Control::open(&path).err().unwrap().kind(), io::ErrorKind::AddrInUse);
        drop(control);
        assert!(is_soon(|| Control::open(&path).is_ok()));
        fs::remove_file(&path).unwrap();
    }

    #[test]
    fn one_who_says_nothing_is_not_waited_for_and_may_ask_later() {
        let path = place("silent");
        let mut control = Control::open(&path).unwrap();
        let mut silent: Vec<_> = (0..40).map(|_| UnixStream::connect(&path).unwrap()).collect();
        assert!(control.questions().is_empty());
        assert_eq!(control.fds().count(), 1 + MOST_SILENT);
        let (client, began) = (asks(&path), std::time::Instant::now());
        next(&mut control).answer("at once").unwrap();
        assert_eq!(client.join().unwrap().unwrap(), "at once");
        assert!(began.elapsed() < PATIENCE);
        // the first ones were closed
        assert_eq!(silent[0].read(&mut [0]).unwrap(), 0);
        silent[39].write_all(b"reload\n").unwrap();
        assert_eq!(next(&mut control).question, "reload");
        drop(silent);
        let are_gone = |control: &mut Control| control.questions().is_empty() && control.fds().count() == 1;
        assert!(is_soon(|| are_gone(&mut control)));
        fs::remove_file(&path).unwrap();
    }
}
