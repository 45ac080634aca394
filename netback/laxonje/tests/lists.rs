//! Lists that are replaced.
#[allow(dead_code)]
mod memory;

use laxonje::{Action, Fault, Guest, Indices, Program, Queue, QueueRelistError, RelistError, Turn};
use memory::Memory;
use std::panic::{catch_unwind, AssertUnwindSafe};

/// The settings of a program that looks up the key 1, of four bytes: it drops the packet if the key is among these rows.
fn settings(rows: &str) -> String {
    let looks_up = r#"program = ["620afcff01000000", "bfa2000000000000", "07020000fcffffff", "1811000000000000", "0000000000000000",
        "8500000001000000", "1500020000000000", "b700000001000000", "9500000000000000", "b700000002000000", "9500000000000000"]"#;
    format!("{looks_up}\n[[map]]\nname = \"listed\"\nentries = 2\ncounters = 1\nkey = \"exact\"\nsize = 4\nrows = [{rows}]\n")
}

fn program(rows: &str) -> Program {
    Program::from_settings(settings(rows).as_bytes()).unwrap()
}

const WITHOUT: &str = "\"02000000\"";
const WITH: &str = "\"02000000\", \"01000000\"";

fn run(program: &mut Program) -> Action {
    program.run(&mut [0; 2], &mut [0; 60], 0, 0).unwrap().action
}

fn turn(queue: &mut Queue, guest: &mut Memory, index: u32) -> Action {
    let reference = guest.grant(0, false);
    guest.send(index, reference, 0, 60);
    match queue.turn(guest) {
        Turn::Ran(run) => run.action,
        other => panic!("{other:?}"),
    }
}

#[test]
fn a_program_takes_the_lists_of_other_settings() {
    let mut own = program(WITHOUT);
    let mut before = own.try_clone().unwrap();
    assert_eq!(run(&mut own), Action::Pass);
    own.relist(settings(WITH).as_bytes()).unwrap();
    assert_eq!((run(&mut own), run(&mut before)), (Action::Drop, Action::Pass));
    assert_eq!(own.try_clone().map(|mut clone| run(&mut clone)), Ok(Action::Drop));
}

#[test]
fn other_settings_change_nothing() {
    let mut own = program(WITH);
    let other = settings(WITHOUT).replace("b700000002000000", "b700000003000000");
    let keys = settings("\"0200\"").replace("size = 4", "size = 2");
    assert_eq!(own.relist(other.as_bytes()), Err(RelistError::Other));
    assert_eq!(own.relist(keys.as_bytes()), Err(RelistError::Other));
    assert_eq!(own.relist(b"x"), Err(RelistError::Settings(Fault::SYNTAX)));
    let repeated = own.relist(settings("\"01000000\", \"01000000\"").as_bytes()).unwrap_err();
    assert_eq!((repeated, repeated.to_string()), (RelistError::Settings(Fault::ROWS), format!("L8: {}", Fault::ROWS)));
    assert_eq!(run(&mut own), Action::Drop);
}

#[test]
fn a_queue_takes_them_between_two_turns() {
    let (mut own, mut guest) = (program(WITHOUT), Memory::new());
    let mut queue = guest.queue(&own, Indices::default());
    assert_eq!(turn(&mut queue, &mut guest, 0), Action::Pass);
    own.relist(settings(WITH).as_bytes()).unwrap();
    assert_eq!(turn(&mut queue, &mut guest, 1), Action::Pass);
    assert_eq!(queue.relist(&own), Ok(()));
    assert_eq!(turn(&mut queue, &mut guest, 2), Action::Drop);
    assert_eq!(queue.indices(), Ok(Indices { tx: 3, rx: 0 }));
    let others = Program::load(&[0xb7, 0, 0, 0, 2, 0, 0, 0, 0x95, 0, 0, 0, 0, 0, 0, 0], &[]).unwrap();
    assert_eq!(queue.relist(&others), Err(QueueRelistError::Maps));
    assert_eq!(turn(&mut queue, &mut guest, 3), Action::Drop);
}

/// A guest whose pages can't be had.
struct Gone;

impl Guest for Gone {
    fn read(&mut self, _frame: u32, _word: usize, _into: &mut [u32]) {
        panic!("no page")
    }

    fn write(&mut self, _frame: u32, _word: usize, _from: &[u32]) {}

    fn push(&mut self, _frame: u32, _word: usize, _value: u32, _then: usize) -> u32 {
        0
    }

    fn notify(&mut self, _port: u32) {}
}

#[test]
fn an_abandoned_queue_takes_none() {
    let own = program(WITHOUT);
    let mut queue = Memory::new().queue(&own, Indices::default());
    assert!(catch_unwind(AssertUnwindSafe(|| queue.turn(&mut Gone))).is_err());
    assert_eq!(queue.relist(&own), Err(QueueRelistError::Abandoned));
}
