//! The library that is linked together with those for other processors, each of which answers in a process of its own
//! (`serve.c`): all are asked the same, and have to answer the same.

use crate::ffi::{Face, Library};
use crate::hex;
use std::cell::RefCell;
use std::io::{BufReader, Read, Write};
use std::process::{ChildStdin, ChildStdout, Command, Stdio};

pub struct Together(Vec<Served>);

/// The library for one processor, at the other end of two pipes.
struct Served {
    target: &'static str,
    questions: RefCell<ChildStdin>,
    replies: RefCell<BufReader<ChildStdout>>,
}

impl Served {
    fn start(target: &'static str) -> Served {
        let mut process = Command::new("tools/run")
            .args([target, &format!("target/opinion/serve-{target}")])
            .stdin(Stdio::piped())
            .stdout(Stdio::piped())
            .spawn()
            .expect("tools/run starts");
        let questions = RefCell::new(process.stdin.take().expect("its standard input"));
        let replies = RefCell::new(BufReader::new(process.stdout.take().expect("its standard output")));
        Served { target, questions, replies }
    }

    fn ask(&self, question: &[u8]) {
        self.questions.borrow_mut().write_all(question).expect("a question taken");
    }

    fn take(&self, length: usize) -> Vec<u8> {
        let mut bytes = vec![0; length];
        self.replies.borrow_mut().read_exact(&mut bytes).expect("a reply");
        bytes
    }
}

impl Together {
    /// The processors are those that the runner was built for.
    pub fn start() -> Together {
        Together(env!("OTHERS").split_whitespace().map(Served::start).collect())
    }

    /// Asks the others, with numbers and then blocks of bytes.
    fn ask(&self, kind: u8, numbers: [u64; 2], blocks: &[&[u8]]) {
        let question = [&[kind][..], numbers.map(u64::to_le_bytes).as_flattened(), &blocks.concat()].concat();
        self.0.iter().for_each(|other| other.ask(&question));
    }

    /// Holds the others to the reply of the library that is linked, and to the blocks as it has left them.
    fn hold(&self, reply: u64, blocks: &[&[u8]]) -> u64 {
        for other in &self.0 {
            let same =
                other.take(8) == reply.to_le_bytes() && blocks.iter().all(|block| other.take(block.len()) == **block);
            if !same {
                let blocks: Vec<String> = blocks.iter().map(|block| hex::show(block)).collect();
                let here = format!("the reply here is {reply:#x}, with {}", blocks.join(" and "));
                crate::fail(1, &format!("DISAGREEMENT: {} answers otherwise: {here}", other.target));
            }
        }
        reply
    }
}

impl Face for Together {
    fn judge(&self, table: &[u8], sheet: &mut [u8]) -> u64 {
        self.ask(b'J', [table.len() as u64, sheet.len() as u64], &[table, sheet]);
        self.hold(Library.judge(table, sheet), &[table, sheet])
    }
    fn ask_wire(&self, sheet: &[u8], wire: u64) -> u64 {
        self.ask(b'W', [sheet.len() as u64, wire], &[sheet]);
        self.hold(Library.ask_wire(sheet, wire), &[sheet])
    }
    fn ask_channel(&self, sheet: &[u8], channel: u64) -> u64 {
        self.ask(b'C', [sheet.len() as u64, channel], &[sheet]);
        self.hold(Library.ask_channel(sheet, channel), &[sheet])
    }
    fn price(&self, framing: u64, payload: u64) -> u64 {
        self.ask(b'P', [framing, payload], &[]);
        self.hold(Library.price(framing, payload), &[])
    }
    fn label(&self, roll: &[u8], number: u64) -> u64 {
        self.ask(b'L', [roll.len() as u64, number], &[roll]);
        self.hold(Library.label(roll, number), &[roll])
    }
    fn name(&self) -> &'static str {
        concat!("libmagsurinda.a, here and for ", env!("OTHERS"))
    }
    fn null_is_empty(&self) -> bool {
        self.ask(b'N', [0, 0], &[]);
        self.hold(Library.null_is_empty() as u64, &[]) == 1
    }
}
