//! One tenant's arena in plain Rust, beside which the proved one is measured. It has the same parts and does the same
//! for each step of a slot: rows by their places, rows that wait in four lists and filed by their contexts, contexts
//! that are bound and released, regions, groups, fuel, and the count of entries. It knows the instructions of the
//! Fibonacci job alone, and nothing of it is proved.
//!
//! usage: plain N JOBS
// The parts hold what they hold in the proved arena, also where no Fibonacci job reads it.
#![allow(dead_code)]

const ROWS: usize = 4_096;
const STEPS: usize = 1_048_576;
const SLOTS: usize = 2;
const CONTEXTS: usize = 256 + 5 * ROWS;
const DOOMED: usize = CONTEXTS;

#[derive(Clone, Copy)]
enum Instr {
    Set(usize, i64),
    Less(usize, usize, usize),
    Subtract(usize, usize, usize),
    JumpIfZero(usize, u8),
    Spawn(usize, u8, usize, usize),
    Wait(usize, usize, usize),
    Return(usize),
}

#[derive(Clone, Copy)]
struct Frame {
    procedure: u8,
    place: u8,
    registers: [i64; 8],
}

impl Frame {
    fn new(procedure: u8, first: i64, second: i64) -> Frame {
        let mut registers = [0; 8];
        registers[0] = first;
        registers[1] = second;
        Frame {
            procedure,
            place: 0,
            registers,
        }
    }

    fn next(self) -> Frame {
        Frame {
            place: self.place + 1,
            ..self
        }
    }
}

#[derive(Clone, Copy, PartialEq)]
struct RowId {
    number: u64,
    place: usize,
}

#[derive(Clone, Copy, Default)]
struct Group {
    total: i64,
    pending: u32,
    is_used: bool,
}

#[derive(Clone, Copy)]
enum Source {
    Root,
    Spawned(RowId, usize),
}

#[derive(Clone, Copy)]
enum Stage {
    Waiting(Frame),
    Live(u8, u64),
}

#[derive(Clone, Copy)]
struct Row {
    number: u64,
    source: Source,
    job: usize,
    made_on: Option<u8>,
    stage: Stage,
    groups: [Group; 4],
    group_contexts: [Option<usize>; 4],
    context: usize,
}

#[derive(Clone, Copy)]
struct Nested {
    frame: Frame,
    row: RowId,
    is_region: bool,
}

/// Lists of places, each of which is in one list at most.
struct Lists {
    ends: Vec<Option<(usize, usize)>>,
    links: Vec<(Option<usize>, Option<usize>)>,
}

impl Lists {
    fn new(lists: usize, places: usize) -> Lists {
        Lists {
            ends: vec![None; lists],
            links: vec![(None, None); places],
        }
    }

    fn join(&mut self, list: usize, place: usize) {
        match self.ends[list] {
            None => {
                self.ends[list] = Some((place, place));
                self.links[place] = (None, None);
            }
            Some((first, last)) => {
                self.links[last].1 = Some(place);
                self.links[place] = (Some(last), None);
                self.ends[list] = Some((first, place));
            }
        }
    }

    fn leave(&mut self, list: usize, place: usize) {
        let (before, after) = self.links[place];
        let Some((first, last)) = self.ends[list] else {
            return;
        };
        match before {
            Some(before) => self.links[before].1 = after,
            None => self.ends[list] = after.map(|after| (after, last)),
        }
        match after {
            Some(after) => self.links[after].0 = before,
            None => self.ends[list] = before.map(|before| (first, before)),
        }
        self.links[place] = (None, None);
    }
}

#[derive(Clone, Copy)]
struct Binding {
    parent: Option<usize>,
    is_asked: bool,
    is_orphan: bool,
}

/// Contexts that are bound to one another.
struct Contexts {
    bindings: Vec<Option<Binding>>,
    next_free: Vec<Option<usize>>,
    first_free: Option<usize>,
    below: Lists,
    is_cancelled: Vec<bool>,
}

impl Contexts {
    fn new() -> Contexts {
        Contexts {
            bindings: vec![None; CONTEXTS],
            next_free: (1..CONTEXTS).map(Some).chain([None]).collect(),
            first_free: Some(0),
            below: Lists::new(CONTEXTS, CONTEXTS),
            is_cancelled: vec![false; CONTEXTS],
        }
    }

    fn bind(&mut self, parent: Option<usize>) -> usize {
        let place = self.first_free.expect("a free context");
        self.first_free = self.next_free[place];
        self.bindings[place] = Some(Binding {
            parent,
            is_asked: false,
            is_orphan: false,
        });
        if let Some(parent) = parent {
            self.below.join(parent, place);
        }
        self.is_cancelled[place] = parent.is_some_and(|parent| self.is_cancelled[parent]);
        place
    }

    fn release(&mut self, context: usize) {
        let parent = self.bindings[context].and_then(|binding| binding.parent);
        while let Some((first, _)) = self.below.ends[context] {
            self.below.leave(context, first);
            if let Some(binding) = &mut self.bindings[first] {
                binding.parent = None;
                binding.is_orphan = true;
            }
        }
        if let Some(parent) = parent {
            self.below.leave(parent, context);
        }
        self.bindings[context] = None;
        self.next_free[context] = self.first_free;
        self.first_free = Some(context);
    }

    fn reset(&mut self, context: usize) {
        let Some(binding) = &mut self.bindings[context] else {
            return;
        };
        binding.is_asked = false;
        let from_above = binding.parent.is_some_and({
            let is_cancelled = &self.is_cancelled;
            move |parent| is_cancelled[parent]
        });
        self.is_cancelled[context] = binding.is_orphan || from_above;
    }
}

#[derive(Clone, Copy)]
struct Waiting {
    row: RowId,
    made_on: Option<usize>,
    region: Option<RowId>,
}

/// The rows that wait.
struct Pool {
    rows: Vec<Option<Waiting>>,
    all: Lists,
    by_slot: Lists,
    by_region: Lists,
    by_both: Lists,
}

impl Pool {
    fn new() -> Pool {
        Pool {
            rows: vec![None; ROWS],
            all: Lists::new(1, ROWS),
            by_slot: Lists::new(SLOTS, ROWS),
            by_region: Lists::new(ROWS, ROWS),
            by_both: Lists::new(ROWS * SLOTS, ROWS),
        }
    }

    fn put(&mut self, row: RowId, made_on: Option<usize>, region: Option<RowId>) {
        self.all.join(0, row.place);
        if let Some(slot) = made_on {
            self.by_slot.join(slot, row.place);
        }
        if let Some(region) = region {
            self.by_region.join(region.place, row.place);
            if let Some(slot) = made_on {
                self.by_both.join(region.place * SLOTS + slot, row.place);
            }
        }
        self.rows[row.place] = Some(Waiting {
            row,
            made_on,
            region,
        });
    }

    fn remove(&mut self, row: RowId) {
        let Some(waiting) = self.rows[row.place].filter(|waiting| waiting.row == row) else {
            return;
        };
        self.all.leave(0, row.place);
        if let Some(slot) = waiting.made_on {
            self.by_slot.leave(slot, row.place);
        }
        if let Some(region) = waiting.region {
            self.by_region.leave(region.place, row.place);
            if let Some(slot) = waiting.made_on {
                self.by_both.leave(region.place * SLOTS + slot, row.place);
            }
        }
        self.rows[row.place] = None;
    }

    fn pick(&self, slot: usize, region: Option<RowId>) -> Option<RowId> {
        let place = match region {
            None => self.by_slot.ends[slot]
                .map(|ends| ends.1)
                .or(self.all.ends[0].map(|ends| ends.0))?,
            Some(region) => {
                let first = self.by_region.ends[region.place]?.0;
                if self.rows[first]?.region != Some(region) {
                    return None;
                }
                self.by_both.ends[region.place * SLOTS + slot].map_or(first, |ends| ends.1)
            }
        };
        Some(self.rows[place]?.row)
    }
}

#[derive(Clone, Copy)]
struct Tag {
    number: u64,
    outer: Option<RowId>,
    is_region: bool,
}

struct Job {
    program: Vec<Vec<Instr>>,
    fuel: u64,
    has_fault: bool,
    is_cancelled: bool,
    root: u64,
    value: i64,
    open_rows: usize,
    context: usize,
}

enum Stop {
    Shared(Instr),
    Yield,
}

struct Run {
    end: Frame,
    count: u32,
    stop: Stop,
}

#[derive(Clone, Copy, PartialEq)]
enum Moved {
    Ran,
    Nested(u64),
    Freed,
    Idle,
}

struct Arena {
    table: Vec<Option<Row>>,
    contexts: Contexts,
    filing: Lists,
    filed: Vec<Option<usize>>,
    free: Vec<usize>,
    made: u64,
    jobs: Vec<Job>,
    entries: usize,
    regions: Vec<Option<Tag>>,
    pool: Pool,
    nests: Vec<Vec<Nested>>,
}

impl Arena {
    fn new() -> Arena {
        Arena {
            table: vec![None; ROWS],
            contexts: Contexts::new(),
            filing: Lists::new(CONTEXTS + 1, ROWS),
            filed: vec![None; ROWS],
            free: (0..ROWS).rev().collect(),
            made: 0,
            jobs: Vec::with_capacity(64),
            entries: 0,
            regions: vec![None; ROWS],
            pool: Pool::new(),
            nests: (0..SLOTS).map(|_| Vec::with_capacity(128)).collect(),
        }
    }

    fn file(&mut self, place: usize, list: Option<usize>) {
        if let Some(old) = self.filed[place] {
            self.filing.leave(old, place);
        }
        if let Some(list) = list {
            self.filing.join(list, place);
        }
        self.filed[place] = list;
    }

    fn top(&self, slot: u8) -> Option<&Nested> {
        self.nests[slot as usize].last()
    }

    fn top_row(&mut self, slot: u8) -> &mut Row {
        let place = self.top(slot).expect("a topmost row").row.place;
        self.table[place].as_mut().expect("an open row")
    }

    fn set_frame(&mut self, slot: u8, frame: Frame) {
        self.nests[slot as usize]
            .last_mut()
            .expect("a topmost row")
            .frame = frame;
    }

    fn enter_row(
        &mut self,
        source: Source,
        job: usize,
        made_on: Option<u8>,
        stage: Stage,
        context: usize,
    ) -> RowId {
        let place = self.free.pop().expect("a free place");
        self.made += 1;
        let row = RowId {
            number: self.made,
            place,
        };
        let outer = match source {
            Source::Root => None,
            Source::Spawned(maker, _) => self.region_of(maker),
        };
        self.regions[place] = Some(Tag {
            number: row.number,
            outer,
            is_region: false,
        });
        self.table[place] = Some(Row {
            number: row.number,
            source,
            job,
            made_on,
            stage,
            groups: [Group::default(); 4],
            group_contexts: [None; 4],
            context,
        });
        let waits = matches!(stage, Stage::Waiting(_));
        let list = if self.contexts.is_cancelled[context] {
            DOOMED
        } else {
            context
        };
        self.file(place, waits.then_some(list));
        row
    }

    fn region_of(&self, row: RowId) -> Option<RowId> {
        let tag = self.regions[row.place].filter(|tag| tag.number == row.number)?;
        if tag.is_region {
            Some(row)
        } else {
            tag.outer
        }
    }

    fn execute(&mut self, program: Vec<Vec<Instr>>, first: i64) -> usize {
        let context = self.contexts.bind(None);
        let number = self.jobs.len();
        let stage = Stage::Live(0, self.nests[0].len() as u64 + 1);
        let row = self.enter_row(Source::Root, number, None, stage, context);
        self.jobs.push(Job {
            program,
            fuel: 1_000_000,
            has_fault: false,
            is_cancelled: false,
            root: row.number,
            value: 0,
            open_rows: 1,
            context,
        });
        self.nests[0].push(Nested {
            frame: Frame::new(0, first, 0),
            row,
            is_region: false,
        });
        self.entries += 1;
        number
    }

    fn run_top(&mut self, slot: u8) -> Run {
        let mut frame = self.top(slot).expect("a topmost row").frame;
        let job = self.top_row(slot).job;
        let code = &self.jobs[job].program[frame.procedure as usize];
        for count in 0..1_000 {
            let instr = code[frame.place as usize];
            match instr {
                Instr::Set(to, value) => frame.registers[to] = value,
                Instr::Less(to, left, right) => {
                    frame.registers[to] = (frame.registers[left] < frame.registers[right]).into()
                }
                Instr::Subtract(to, left, right) => {
                    frame.registers[to] =
                        frame.registers[left].wrapping_sub(frame.registers[right]);
                }
                Instr::JumpIfZero(register, place) => {
                    if frame.registers[register] == 0 {
                        frame.place = place;
                        continue;
                    }
                }
                shared => {
                    return Run {
                        end: frame,
                        count,
                        stop: Stop::Shared(shared),
                    }
                }
            }
            frame.place += 1;
        }
        Run {
            end: frame,
            count: 1_000,
            stop: Stop::Yield,
        }
    }

    fn pay(&mut self, slot: u8, cost: u64) {
        let job = self.top_row(slot).job;
        let fuel = &mut self.jobs[job].fuel;
        assert!(cost <= *fuel, "no job of ours runs out of fuel");
        *fuel -= cost;
    }

    fn enter(&mut self, slot: u8) -> Moved {
        self.entries += 1;
        if self.nests[slot as usize].is_empty() {
            Moved::Freed
        } else {
            Moved::Ran
        }
    }

    fn advance(&mut self, slot: u8) -> Moved {
        if self.nests[slot as usize].is_empty() {
            return Moved::Idle;
        }
        let run = self.run_top(slot);
        let blocked = match run.stop {
            Stop::Shared(Instr::Wait(_, _, group)) => self.top_row(slot).groups[group].pending > 0,
            _ => false,
        };
        if blocked && run.count == 0 {
            return self.nest(slot);
        }
        assert!(self.entries < STEPS, "no job of ours fills the history");
        match run.stop {
            Stop::Shared(instr) if !blocked => {
                self.pay(slot, u64::from(run.count) + 1);
                self.execute_shared(slot, run.end, instr)
            }
            _ => {
                self.pay(slot, u64::from(run.count));
                self.set_frame(slot, run.end);
                self.enter(slot)
            }
        }
    }

    fn nest(&mut self, slot: u8) -> Moved {
        let top = self.top(slot).expect("a topmost row").row;
        let region = self.region_of(top);
        let Some(row) = self.pool.pick(slot as usize, region) else {
            return Moved::Idle;
        };
        assert!(
            self.nests[slot as usize].len() < 128,
            "no job of ours nests so deep"
        );
        let height = self.nests[slot as usize].len() as u64 + 1;
        let opened = self.table[row.place].as_mut().expect("an open row");
        let Stage::Waiting(frame) = opened.stage else {
            return Moved::Idle;
        };
        opened.stage = Stage::Live(slot, height);
        self.file(row.place, None);
        self.pool.remove(row);
        self.nests[slot as usize].push(Nested {
            frame,
            row,
            is_region: false,
        });
        self.entries += 1;
        Moved::Nested(row.number)
    }

    fn execute_shared(&mut self, slot: u8, frame: Frame, instr: Instr) -> Moved {
        match instr {
            Instr::Spawn(group, procedure, first, second) => {
                assert!(!self.free.is_empty(), "no job of ours makes so many rows");
                self.set_frame(slot, frame.next());
                let called = Frame::new(procedure, frame.registers[first], frame.registers[second]);
                self.spawn(slot, group, called);
            }
            Instr::Wait(total, status, group) => {
                let row = self.top_row(slot);
                let (sum, context) = (row.groups[group].total, row.group_contexts[group]);
                row.groups[group] = Group::default();
                let asked = context.unwrap_or(row.context);
                let mut frame = frame.next();
                frame.registers[total] = sum;
                frame.registers[status] = if self.contexts.is_cancelled[asked] {
                    2
                } else {
                    1
                };
                if let Some(context) = context {
                    self.contexts.reset(context);
                }
                self.set_frame(slot, frame);
            }
            Instr::Return(from) => {
                assert!(
                    self.top_row(slot).groups.iter().all(|group| !group.is_used),
                    "our jobs wait"
                );
                if self.top(slot).is_some_and(|top| !top.is_region) {
                    self.end(slot, frame.registers[from]);
                }
            }
            _ => unreachable!("only the private run has these"),
        }
        self.enter(slot)
    }

    fn spawn(&mut self, slot: u8, group: usize, frame: Frame) {
        let maker = self.top(slot).expect("a topmost row").row;
        let row = self.top_row(slot);
        let (job, context, given) = (row.job, row.context, row.group_contexts[group]);
        let of_group = given.unwrap_or_else(|| self.contexts.bind(Some(context)));
        self.top_row(slot).group_contexts[group] = Some(of_group);
        let noted = self.jobs[job].has_fault || self.jobs[job].is_cancelled;
        assert!(
            !noted && !self.contexts.is_cancelled[of_group],
            "no job of ours is cancelled"
        );
        let own = self.contexts.bind(Some(of_group));
        let joined = &mut self.top_row(slot).groups[group];
        joined.pending += 1;
        joined.is_used = true;
        let made = self.enter_row(
            Source::Spawned(maker, group),
            job,
            Some(slot),
            Stage::Waiting(frame),
            own,
        );
        self.jobs[job].open_rows += 1;
        let region = self.region_of(made);
        self.pool.put(made, Some(slot as usize), region);
    }

    fn end(&mut self, slot: u8, value: i64) {
        let Some(Nested { row, .. }) = self.nests[slot as usize].pop() else {
            return;
        };
        let ended = self.table[row.place].expect("an open row");
        for context in ended.group_contexts.into_iter().flatten() {
            self.contexts.release(context);
        }
        if let Source::Spawned(maker, group) = ended.source {
            self.contexts.release(ended.context);
            if let Some(maker) = self.table[maker.place]
                .as_mut()
                .filter(|row| row.number == maker.number)
            {
                maker.groups[group].pending -= 1;
                maker.groups[group].total = maker.groups[group].total.wrapping_add(value);
            }
        }
        self.table[row.place] = None;
        self.file(row.place, None);
        self.free.push(row.place);
        self.regions[row.place] = None;
        let job = &mut self.jobs[ended.job];
        job.open_rows -= 1;
        if job.root == row.number {
            job.value = value;
        }
    }
}

fn fibonacci() -> Vec<Vec<Instr>> {
    use Instr::*;
    vec![vec![
        Set(2, 2),
        Less(3, 0, 2),
        JumpIfZero(3, 4),
        Return(0),
        Set(2, 1),
        Subtract(3, 0, 2),
        Spawn(0, 0, 3, 1),
        Subtract(3, 3, 2),
        Spawn(0, 0, 3, 1),
        Wait(4, 5, 0),
        Return(4),
    ]]
}

fn main() {
    let mut words = std::env::args()
        .skip(1)
        .map(|word| word.parse::<u64>().unwrap_or(0));
    let (number, jobs) = (words.next().unwrap_or(12), words.next().unwrap_or(1));
    let (mut tasks, mut steps, mut value) = (0, 0, 0);
    for _ in 0..jobs {
        let mut arena = Arena::new();
        let job = arena.execute(fibonacci(), number as i64);
        tasks += 1;
        loop {
            steps += 1;
            match arena.advance(0) {
                Moved::Nested(_) => tasks += 1,
                Moved::Freed => break,
                Moved::Ran | Moved::Idle => {}
            }
        }
        let ended = &arena.jobs[job];
        assert!(ended.open_rows == 0 && !ended.has_fault);
        value = ended.value;
        arena.contexts.release(ended.context);
    }
    println!("plain fib {number}: {jobs} jobs, {tasks} tasks, {steps} steps, value {value}");
}
