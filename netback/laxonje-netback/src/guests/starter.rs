//! The process that starts those of guests. The main process can't: of its system calls none executes a program. This one has one thread,
//! no capability, and takes orders of the main process alone.
use super::messages::{Exit, Wish, MOST_MESSAGE};
use crate::ffi::SIGCHLD;
use crate::os::{close_inherited, keep_capabilities, wait, Keeps, Signals, Socket, Wanted, FROM_USERS};
use std::collections::BTreeMap;
use std::fs::File;
use std::io;
use std::os::unix::io::OwnedFd;
use std::os::unix::process::CommandExt;
use std::process::{Child, Command, Stdio};

/// This program, also once another file has its name.
pub const OWN_PROGRAM: &str = "/proc/self/exe";
pub const NAME: &str = "laxonje-netback";

struct Starter {
    main: Socket,
    ended: Signals,
    /// The words of each process behind its guest's number.
    words: Vec<String>,
    /// Each process keeps it open as long as it lives.
    lock: File,
    running: BTreeMap<u64, Child>,
}

/// Starts processes as the main process wishes, until that has ended: then it ends them all.
pub fn start_guests(words: Vec<String>, restricted: bool) -> io::Result<()> {
    close_inherited();
    let _from_users = Signals::block(&FROM_USERS)?;
    if restricted {
        keep_capabilities(Keeps::Nothing)?;
    }
    let (main, ended) = (Socket::of_input()?, Signals::block(&[SIGCHLD])?);
    let lock = File::from(std::os::unix::io::AsFd::as_fd(&io::stdout()).try_clone_to_owned()?);
    let mut starter = Starter { main, ended, words, lock, running: BTreeMap::new() };
    let served = starter.serve();
    for child in starter.running.values_mut() {
        let _ = child.kill();
        let _ = child.wait();
    }
    served
}

impl Starter {
    fn serve(&mut self) -> io::Result<()> {
        while self.round()? {}
        Ok(())
    }

    /// Returns whether to go on.
    fn round(&mut self) -> io::Result<bool> {
        let mut wanted = [Wanted::of(self.main.fd()), Wanted::of(self.ended.fd())];
        wait(&mut wanted, None)?;
        if wanted[1].ready {
            while self.ended.next().is_some() {}
            self.reap()?;
        }
        if !wanted[0].ready {
            return Ok(true);
        }
        let mut room = [0; MOST_MESSAGE];
        match self.main.take_with(&mut room) {
            Ok(None) => Ok(true),
            Ok(Some((length, descriptors))) => self.obey(Wish::decode(&room[..length]), descriptors).map(|()| true),
            Err(_) => Ok(false),
        }
    }

    fn obey(&mut self, wish: Option<Wish>, mut descriptors: Vec<OwnedFd>) -> io::Result<()> {
        match (wish, descriptors.pop()) {
            (Some(Wish::Start { number, domain }), Some(socket)) => match self.start(domain, socket) {
                Ok(child) => drop(self.running.insert(number, child)),
                Err(error) => self.tell(number, format!("it can't be started: {error}"))?,
            },
            (Some(Wish::Kill { number }), None) => drop(self.running.get_mut(&number).map(Child::kill)),
            _ => return Err(io::Error::from(io::ErrorKind::InvalidData)),
        }
        Ok(())
    }

    fn start(&self, domain: u16, socket: OwnedFd) -> io::Result<Child> {
        let mut command = Command::new(OWN_PROGRAM);
        command.arg0(NAME).arg("serve-guest").arg(domain.to_string()).args(&self.words);
        command.stdin(Stdio::from(socket)).stdout(Stdio::from(self.lock.try_clone()?)).stderr(Stdio::null());
        command.spawn()
    }

    fn reap(&mut self) -> io::Result<()> {
        let has_ended = |(number, child): (&u64, &mut Child)| Some((*number, child.try_wait().ok().flatten()?));
        let ended: Vec<_> = self.running.iter_mut().filter_map(has_ended).collect();
        for (number, status) in ended {
            self.running.remove(&number);
            self.tell(number, status.to_string())?;
        }
        Ok(())
    }

    fn tell(&self, number: u64, how: String) -> io::Result<()> {
        self.main.send(&Exit { number, how }.encode())
    }
}
