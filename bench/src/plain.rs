// The same rules in plain Rust, over the same layout: records, heads, chains, tests for damage, sealing, tracing and querying.

pub const FORMATS: usize = 32;
const CHAINS: usize = 1024;
const MOST_RECORDS: usize = 131_072;

const NOTHING: u32 = 0;
const STAY: u32 = 1;
const STEP_KIND: u32 = 2;
const SUM_KIND: u32 = 3;
const THEN_KIND: u32 = 4;
const REPEAT_KIND: u32 = 5;

#[derive(Clone, Copy)]
pub struct Step {
    pub from: u32,
    pub to: u32,
    pub in_force: bool,
}

#[derive(Clone, Copy)]
pub struct Record {
    pub kind: u32,
    pub left: u32,
    pub right: u32,
    pub next: u32,
}

#[derive(Debug)]
pub enum Refusal {
    NoSuchFormat,
    TooShort,
    Damaged,
    StoreFull,
}

pub struct Store<'a> {
    records: &'a mut [Record],
    heads: &'a mut [u32],
    count: usize,
}

fn chain(kind: u32, left: u32, right: u32) -> usize {
    (31 * left as usize + 17 * right as usize + kind as usize) % CHAINS
}

impl Store<'_> {
    fn clear(&mut self) {
        self.records[0] = Record { kind: NOTHING, left: 0, right: 0, next: 0 };
        self.records[1] = Record { kind: STAY, left: 0, right: 0, next: 0 };
        self.heads[..CHAINS].fill(0);
        self.count = 2;
    }

    fn make(&mut self, kind: u32, left: u32, right: u32) -> Result<u32, Refusal> {
        let head = chain(kind, left, right);
        let mut at = self.heads[head];
        while at != 0 {
            let record = &self.records[at as usize];
            if record.kind == kind && record.left == left && record.right == right {
                return Ok(at);
            }
            at = record.next;
        }
        if self.count >= self.records.len().min(MOST_RECORDS) {
            return Err(Refusal::StoreFull);
        }
        let new = self.count as u32;
        self.records[self.count] = Record { kind, left, right, next: self.heads[head] };
        self.heads[head] = new;
        self.count += 1;
        Ok(new)
    }

    fn step(&mut self, j: u32) -> Result<u32, Refusal> {
        self.make(STEP_KIND, j, 0)
    }

    fn sum(&mut self, x: u32, y: u32) -> Result<u32, Refusal> {
        if x == NOTHING {
            Ok(y)
        } else if y == NOTHING || x == y {
            Ok(x)
        } else {
            self.make(SUM_KIND, x, y)
        }
    }

    fn then(&mut self, x: u32, y: u32) -> Result<u32, Refusal> {
        if x == NOTHING || y == NOTHING {
            Ok(NOTHING)
        } else if x == STAY {
            Ok(y)
        } else if y == STAY {
            Ok(x)
        } else {
            self.make(THEN_KIND, x, y)
        }
    }

    fn repeat(&mut self, x: u32) -> Result<u32, Refusal> {
        if x == NOTHING || x == STAY { Ok(STAY) } else { self.make(REPEAT_KIND, x, 0) }
    }
}

fn steps_sound(formats: usize, steps: &[Step]) -> bool {
    steps.iter().all(|s| (s.from as usize) < formats && (s.to as usize) < formats)
}

fn record_sound(steps: &[Step], i: usize, record: &Record) -> bool {
    let left = record.left as usize;
    let right = record.right as usize;
    let formed = if i < 2 {
        record.kind as usize == i && left == 0 && right == 0
    } else {
        match record.kind {
            STEP_KIND => right == 0,
            SUM_KIND | THEN_KIND => left < i && right < i,
            REPEAT_KIND => left < i && right == 0,
            _ => false,
        }
    };
    let next = record.next as usize;
    formed
        && (next == 0 || next < i)
        && (record.kind != STEP_KIND || steps.get(left).is_some_and(|s| s.in_force))
}

fn records_sound(steps: &[Step], records: &[Record]) -> bool {
    records.iter().enumerate().all(|(i, record)| record_sound(steps, i, record))
}

fn heads_sound(count: usize, heads: &[u32]) -> bool {
    heads.iter().all(|head| (*head as usize) < count)
}

pub struct Plan {
    formats: usize,
    components: usize,
    records: usize,
    order: [u32; 32],
    component: [u32; 32],
    rows: [[u32; 32]; 32],
}

impl Plan {
    pub fn new() -> Plan {
        Plan {
            formats: 0,
            components: 0,
            records: 0,
            order: [0; 32],
            component: [0; 32],
            rows: [[0; 32]; 32],
        }
    }

    fn is_sound(&self, formats: usize, records: usize) -> bool {
        self.formats == formats
            && (self.records <= records
                || self.rows[..formats]
                    .iter()
                    .all(|row| row[..formats].iter().all(|x| (*x as usize) < records)))
    }

    fn members(&self, c: usize) -> &[u32] {
        let order = &self.order[..self.formats];
        let is_of = |v: &&u32| self.component[**v as usize] as usize == c;
        let start = order.iter().take_while(|v| !is_of(v)).count();
        let len = order[start..].iter().take_while(is_of).count();
        &order[start..start + len]
    }
}

// The component of each format, and how many there are.
fn list(formats: usize, steps: &[Step]) -> ([u32; 32], usize) {
    let mut reach = [0u32; 32];
    for (v, mask) in reach.iter_mut().enumerate() {
        *mask = 1 << v;
    }
    for step in steps.iter().filter(|s| s.in_force) {
        reach[step.from as usize] |= 1 << step.to;
    }
    for k in 0..formats {
        for u in 0..formats {
            if reach[u] >> k & 1 == 1 {
                reach[u] |= reach[k];
            }
        }
    }
    let mut into = [0u32; 32];
    for u in 0..formats {
        for v in 0..formats {
            into[v] |= (reach[u] >> v & 1) << u;
        }
    }
    let mut of = [0; 32];
    let mut count = 0;
    let mut listed = 0u32;
    while let Some(v) = (0..formats).find(|v| listed >> v & 1 == 0 && into[*v] & !(reach[*v] | listed) == 0) {
        let component = reach[v] & into[v];
        for u in (0..formats).filter(|u| component >> u & 1 == 1) {
            of[u] = count as u32;
        }
        listed |= component;
        count += 1;
    }
    (of, count)
}

fn eliminate(store: &mut Store, rows: &mut [[u32; 32]; 32], formats: &[u32]) -> Result<(), Refusal> {
    for (i, v) in formats.iter().enumerate() {
        let v = *v as usize;
        let later = &formats[i + 1..];
        rows[v][v] = store.repeat(rows[v][v])?;
        for u in later {
            let u = *u as usize;
            rows[u][v] = store.then(rows[u][v], rows[v][v])?;
            for w in later {
                let w = *w as usize;
                let carried = store.then(rows[u][v], rows[v][w])?;
                rows[u][w] = store.sum(rows[u][w], carried)?;
            }
        }
    }
    Ok(())
}

pub struct Network {
    pub steps: Vec<Step>,
    pub records: Vec<Record>,
    pub heads: Vec<u32>,
    pub row: Vec<u32>,
    pub weights: Vec<u32>,
    pub memo: Vec<u32>,
    pub answers: Vec<u32>,
    pub plan: Plan,
    pub count: usize,
}

impl Network {
    pub fn seal(&mut self) -> Result<(), Refusal> {
        if self.records.len() < 2 || self.heads.len() < CHAINS {
            return Err(Refusal::TooShort);
        }
        if !steps_sound(FORMATS, &self.steps) {
            return Err(Refusal::Damaged);
        }
        let mut store = Store { records: &mut self.records, heads: &mut self.heads, count: 0 };
        store.clear();
        let (component, components) = list(FORMATS, &self.steps);
        let mut order = [0; 32];
        let mut end = 0;
        for c in 0..components {
            for v in (0..FORMATS).filter(|v| component[*v] as usize == c) {
                order[end] = v as u32;
                end += 1;
            }
        }
        let mut rows = [[0; 32]; 32];
        for (j, step) in self.steps.iter().enumerate().filter(|(_, s)| s.in_force) {
            let made = store.step(j as u32)?;
            let (from, to) = (step.from as usize, step.to as usize);
            if component[from] == component[to] {
                rows[from][to] = store.sum(rows[from][to], made)?;
            }
        }
        let mut plan = Plan { formats: FORMATS, components, records: 0, order, component, rows };
        for c in 0..components {
            let members = plan.members(c).to_vec();
            eliminate(&mut store, &mut plan.rows, &members)?;
        }
        plan.records = store.count;
        self.count = store.count;
        self.plan = plan;
        Ok(())
    }

    fn check(&self, source: usize) -> Result<(), Refusal> {
        if self.records.len() < self.count || self.heads.len() < CHAINS || self.row.len() < FORMATS {
            return Err(Refusal::TooShort);
        }
        if !steps_sound(FORMATS, &self.steps)
            || !records_sound(&self.steps, &self.records[..self.count])
            || !heads_sound(self.count, &self.heads[..CHAINS])
            || !self.plan.is_sound(FORMATS, self.count)
        {
            return Err(Refusal::Damaged);
        }
        if source < FORMATS { Ok(()) } else { Err(Refusal::NoSuchFormat) }
    }

    fn track(&mut self, source: usize) -> Result<[u32; 32], Refusal> {
        let mut store = Store { records: &mut self.records, heads: &mut self.heads, count: self.count };
        let traced = sweep(&mut store, &self.plan, &self.steps, source);
        self.count = store.count;
        traced
    }

    pub fn trace(&mut self, source: usize) -> Result<(), Refusal> {
        self.check(source)?;
        let traced = self.track(source)?;
        self.row[..FORMATS].copy_from_slice(&traced);
        Ok(())
    }

    // A query for costs.
    pub fn query(&mut self, source: usize) -> Result<(), Refusal> {
        if self.weights.len() < self.steps.len()
            || self.memo.len() < self.records.len().min(MOST_RECORDS)
            || self.answers.len() < FORMATS
        {
            return Err(Refusal::TooShort);
        }
        self.check(source)?;
        let traced = self.track(source)?;
        self.row[..FORMATS].copy_from_slice(&traced);
        for (i, record) in self.records[..self.count].iter().enumerate() {
            self.memo[i] = match record.kind {
                STAY => 0,
                STEP_KIND => self.weights[record.left as usize],
                SUM_KIND => self.memo[record.left as usize].min(self.memo[record.right as usize]),
                THEN_KIND => self.memo[record.left as usize].saturating_add(self.memo[record.right as usize]),
                REPEAT_KIND => 0,
                _ => u32::MAX,
            };
        }
        for (answer, x) in self.answers.iter_mut().zip(traced) {
            *answer = self.memo[x as usize];
        }
        Ok(())
    }
}

fn sweep(store: &mut Store, plan: &Plan, steps: &[Step], source: usize) -> Result<[u32; 32], Refusal> {
    let mut row = [NOTHING; 32];
    row[source] = STAY;
    for c in 0..plan.components {
        let formats = plan.members(c);
        for (i, v) in formats.iter().enumerate() {
            let v = *v as usize;
            row[v] = store.then(row[v], plan.rows[v][v])?;
            pass_all(store, &mut row, plan, v, &formats[i + 1..])?;
        }
        for (i, u) in formats.iter().enumerate().rev() {
            pass_all(store, &mut row, plan, *u as usize, &formats[..i])?;
        }
        for (j, step) in steps.iter().enumerate().filter(|(_, s)| s.in_force) {
            let (from, to) = (step.from as usize, step.to as usize);
            if plan.component[from] as usize == c && plan.component[to] as usize != c {
                let made = store.step(j as u32)?;
                let carried = store.then(row[from], made)?;
                row[to] = store.sum(row[to], carried)?;
            }
        }
    }
    Ok(row)
}

fn pass_all(store: &mut Store, row: &mut [u32; 32], plan: &Plan, v: usize, formats: &[u32]) -> Result<(), Refusal> {
    for w in formats {
        let w = *w as usize;
        let carried = store.then(row[v], plan.rows[v][w])?;
        row[w] = store.sum(row[w], carried)?;
    }
    Ok(())
}
