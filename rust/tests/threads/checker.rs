//! What the lines of all threads have to be, one after another.
use std::collections::{HashMap, HashSet, VecDeque};
use std::sync::mpsc::Receiver;
use std::time::Duration;

/// A thread that takes longer to say what it did is lost.
const LONG: Duration = Duration::from_secs(60);

/// What the lines so far say of an open span.
struct Open {
    path: String,
    fields: String,
    parent: u64,
    maker: u32,
    handles: u32,
    // For each thread that is inside, how often.
    inside: HashMap<u32, u32>,
    children: u32,
}

/// What a thread says that its lines have to be, but for the worker's number.
pub type Told = Receiver<String>;

/// A thread is known by its worker's number in the part of its roots.
pub struct Checker {
    // How many workers' numbers each part has.
    workers: u32,
    introduced: Receiver<(u32, Told)>,
    told: HashMap<u32, Told>,
    // By thread and part: exits that were told, and came to be owed while the thread left spans of other parts.
    owed: HashMap<(u32, u32), VecDeque<String>>,
    // Whose the numbers in other parts are.
    threads: HashMap<u32, u32>,
    open: HashMap<u64, Open>,
    // By thread and part: the span there that may close now by what the thread did last in that part.
    may_close: HashMap<(u32, u32), u64>,
    // The last generation of each slot of each part.
    generations: HashMap<(u32, u32), u64>,
    pub lines: u64,
    pub made: u64,
    pub closed_elsewhere: u64,
}

impl Checker {
    pub fn new(workers: u32, introduced: Receiver<(u32, Told)>) -> Checker {
        Checker {
            workers,
            introduced,
            told: HashMap::new(),
            owed: HashMap::new(),
            threads: HashMap::new(),
            open: HashMap::new(),
            may_close: HashMap::new(),
            generations: HashMap::new(),
            lines: 0,
            made: 0,
            closed_elsewhere: 0,
        }
    }

    pub fn check(&mut self, line: &str) {
        self.lines += 1;
        let mut words = line.splitn(4, ' ');
        let mut word = || words.next().expect("four words");
        let (kind, id, worker, rest) = (word(), word().parse().expect("an id"), &word()[1..], word());
        let worker = worker.parse().expect("a worker's number");
        assert!(id == 0 || part_of(id) == worker / self.workers, "{line}");
        let (thread, part) = (self.thread(kind, worker, rest), worker / self.workers);
        if kind != "close" {
            assert_eq!(self.told(thread, part), format!("{kind} {id} {rest}"));
            let mut owed = self.owed.iter().filter(|((who, _), _)| *who == thread);
            assert!(kind == "exit" || owed.all(|(_, exits)| exits.is_empty()), "{line}");
        }
        let closing = self.may_close.remove(&(thread, part));
        match kind {
            "new" => self.made(id, thread, rest),
            "enter" => *self.span(id).inside.entry(thread).or_default() += 1,
            "exit" => self.left(id, thread),
            "record" => {
                let fields = &rest[self.span(id).path.len()..];
                self.span(id).fields.push_str(fields);
            }
            "event" => self.announced(thread, rest),
            "close" => {
                assert_eq!(closing, Some(id), "{line}");
                self.closed(id, thread, rest);
            }
            _ => panic!("no such kind: {line}"),
        }
    }

    // The next line of a thread in a part, as it told. Only exits of other parts may come later than it said.
    fn told(&mut self, thread: u32, part: u32) -> String {
        if let Some(exit) = self.owed.entry((thread, part)).or_default().pop_front() {
            return exit;
        }
        loop {
            let told = self.told[&thread].recv_timeout(LONG).expect("it tells what it does");
            let id = told.split(' ').nth(1).expect("an id").parse().expect("an id");
            let place = if id == 0 { thread / self.workers } else { part_of(id) };
            if place == part {
                return told;
            }
            assert!(told.starts_with("exit "), "{told} of w{thread} comes later");
            self.owed.entry((thread, place)).or_default().push_back(told);
        }
    }

    // Whose line it is. A thread introduces itself before its first call that has a line; in another part than that of
    // its roots, its first line is a record that says whose it is.
    fn thread(&mut self, kind: &str, worker: u32, rest: &str) -> u32 {
        if let Some(&thread) = self.threads.get(&worker) {
            return thread;
        }
        let by = rest.rsplit_once(" by=").filter(|_| kind == "record");
        let thread = by.map_or(worker, |(_, thread)| thread.parse().expect("a number"));
        while !self.told.contains_key(&thread) {
            let (thread, told) = self.introduced.recv_timeout(LONG).expect("each thread does");
            self.told.insert(thread, told);
        }
        self.threads.insert(worker, thread);
        thread
    }

    /// In how many parts threads called, and how often a thread did in another one than that of its roots.
    pub fn parts(&self) -> (usize, usize) {
        let parts: HashSet<u32> = self.threads.keys().map(|worker| worker / self.workers).collect();
        (parts.len(), self.threads.len() - self.told.len())
    }

    fn span(&mut self, id: u64) -> &mut Open {
        self.open.get_mut(&id).unwrap_or_else(|| panic!("span {id} isn't open"))
    }

    fn made(&mut self, id: u64, thread: u32, rest: &str) {
        let (path, fields) = rest.split_once(' ').expect("a field");
        let parent: u64 = fields.strip_prefix("p=").expect("its parent").parse().expect("an id");
        if parent != 0 {
            assert_eq!(part_of(parent), part_of(id), "span {id} under {parent}");
            let above = self.span(parent);
            above.children += 1;
            let name = path.strip_prefix(&above.path).and_then(|rest| rest.strip_prefix(':'));
            assert!(
                name.is_some_and(|name| !name.contains(':')),
                "{path} under {}",
                above.path
            );
        }
        let (slot, generation) = ((part_of(id), slot_of(id)), ((id - 1) >> 24) & 0xffff_ffff);
        let wanted = self.generations.get(&slot).map_or(0, |last| last + 1);
        assert_eq!(generation, wanted, "span {id}");
        self.generations.insert(slot, generation);
        let (path, fields) = (path.to_owned(), format!(" {fields}"));
        let open = Open {
            path,
            fields,
            parent,
            maker: thread,
            handles: 1,
            inside: HashMap::new(),
            children: 0,
        };
        assert!(self.open.insert(id, open).is_none(), "span {id} was open");
        self.made += 1;
    }

    fn left(&mut self, id: u64, thread: u32) {
        let inside = &mut self.span(id).inside;
        let times = inside.get_mut(&thread).expect("the thread is inside");
        *times -= 1;
        if *times == 0 {
            inside.remove(&thread);
            self.may_close.insert((thread, part_of(id)), id);
        }
    }

    // An event says which handle is made or dropped right after it.
    fn announced(&mut self, thread: u32, rest: &str) {
        let (_, message) = rest.split_once(" INFO ").expect("a message");
        if let Some(id) = message.strip_prefix("own ") {
            self.span(id.parse().expect("an id")).handles += 1;
        }
        if let Some(id) = message.strip_prefix("drop ") {
            let id = id.parse().expect("an id");
            self.span(id).handles -= 1;
            self.may_close.insert((thread, part_of(id)), id);
        }
    }

    fn closed(&mut self, id: u64, thread: u32, rest: &str) {
        let open = self.open.remove(&id).unwrap_or_else(|| panic!("span {id} isn't open"));
        assert_eq!(rest, format!("{}{}", open.path, open.fields));
        assert_eq!(
            (open.handles, open.children, open.inside.len()),
            (0, 0, 0),
            "{id} {rest}"
        );
        self.closed_elsewhere += u64::from(open.maker != thread);
        if open.parent != 0 {
            self.span(open.parent).children -= 1;
            self.may_close.insert((thread, part_of(id)), open.parent);
        }
    }

    /// After the last line.
    pub fn finish(self) -> Checker {
        assert_eq!(self.open.len(), 0, "spans are left open");
        assert!(self.owed.values().all(VecDeque::is_empty), "an exit is missing");
        for told in self.told.values() {
            assert_eq!(told.try_recv().ok(), None, "a line is missing");
        }
        self
    }
}

fn part_of(id: u64) -> u32 {
    (id >> 57) as u32
}

fn slot_of(id: u64) -> u32 {
    (id - 1) as u32 & 0xff_ffff
}
