//! The search for detours again, in plain Rust and step for step: the floor answers through a trait, the free actions are
//! gathered once for each detour, and the totals stand in a table of 64 that the caller lends.

pub trait Task {
    fn variables(&self) -> u8;
    fn actions(&self) -> u16;
    fn value_live(&self, variable: u8, value: u8) -> bool;
    fn action_live(&self, action: u16) -> bool;
    fn precondition(&self, action: u16, variable: u8) -> Option<u8>;
    fn effect(&self, action: u16, variable: u8) -> Option<u8>;
    fn price(&self, action: u16) -> u16;
}

pub trait Measure {
    type Total: Copy;
    fn nothing() -> Self::Total;
    fn weight(price: u16) -> Self::Total;
    fn join(x: Self::Total, y: Self::Total) -> Self::Total;
    fn at_most(x: Self::Total, y: Self::Total) -> bool;
}

pub struct Charge;

impl Measure for Charge {
    type Total = u32;

    fn nothing() -> u32 {
        0
    }

    fn weight(price: u16) -> u32 {
        u32::from(price)
    }

    fn join(x: u32, y: u32) -> u32 {
        x.saturating_add(y)
    }

    fn at_most(x: u32, y: u32) -> bool {
        x <= y
    }
}

pub struct Floor {
    pub width: u8,
    pub height: u8,
    pub blocked: u64,
    pub prices: Vec<u16>,
    pub points: Vec<u8>,
    pub sampling: u16,
}

#[derive(Clone, Copy)]
enum Deed {
    Move { from: u8, to: u8 },
    Sample { point: u8, cell: u8 },
}

impl Floor {
    fn cells(&self) -> u8 {
        self.width * self.height
    }

    fn is_open(&self, cell: u8) -> bool {
        cell < self.cells() && (self.blocked >> cell) & 1 == 0
    }

    fn neighbour(&self, cell: u8, direction: u16) -> Option<u8> {
        match direction {
            0 if self.width <= cell => Some(cell - self.width),
            1 if cell % self.width + 1 < self.width => Some(cell + 1),
            2 if self.width < self.cells() - cell => Some(cell + self.width),
            3 if 0 < cell % self.width => Some(cell - 1),
            _ => None,
        }
    }

    fn deed(&self, action: u16) -> Option<Deed> {
        let moves = 4 * u16::from(self.cells());
        if action < moves {
            let from = (action / 4) as u8;
            let to = self.neighbour(from, action % 4)?;
            (self.is_open(from) && self.is_open(to)).then_some(Deed::Move { from, to })
        } else {
            let index = usize::from(action - moves);
            let cell = *self.points.get(index)?;
            Some(Deed::Sample { point: index as u8 + 1, cell })
        }
    }
}

impl Task for Floor {
    fn variables(&self) -> u8 {
        1 + self.points.len() as u8
    }

    fn actions(&self) -> u16 {
        4 * u16::from(self.cells()) + self.points.len() as u16
    }

    fn value_live(&self, variable: u8, value: u8) -> bool {
        if variable == 0 {
            self.is_open(value)
        } else {
            usize::from(variable) <= self.points.len() && value < 2
        }
    }

    fn action_live(&self, action: u16) -> bool {
        self.deed(action).is_some()
    }

    fn precondition(&self, action: u16, variable: u8) -> Option<u8> {
        match self.deed(action)? {
            Deed::Move { from, .. } if variable == 0 => Some(from),
            Deed::Sample { cell, .. } if variable == 0 => Some(cell),
            _ => None,
        }
    }

    fn effect(&self, action: u16, variable: u8) -> Option<u8> {
        match self.deed(action)? {
            Deed::Move { to, .. } if variable == 0 => Some(to),
            Deed::Sample { point, .. } if variable == point => Some(1),
            _ => None,
        }
    }

    fn price(&self, action: u16) -> u16 {
        match self.deed(action) {
            Some(Deed::Move { to, .. }) => self.prices[usize::from(to)],
            Some(Deed::Sample { .. }) => self.sampling,
            None => 0,
        }
    }
}

#[derive(Clone, Copy)]
struct Edge {
    action: u16,
    from: Option<u8>,
    to: u8,
    price: u16,
}

struct Edges {
    list: [Edge; 512],
    count: usize,
}

fn is_free<T: Task>(task: &T, variable: u8, action: u16) -> bool {
    if !task.action_live(action) || task.effect(action, variable).is_none() {
        return false;
    }
    (0..task.variables()).all(|w| {
        w == variable || (task.precondition(action, w).is_none() && task.effect(action, w).is_none())
    })
}

fn edge<T: Task>(task: &T, variable: u8, action: u16) -> Option<Edge> {
    match task.effect(action, variable) {
        Some(to) if is_free(task, variable, action) => Some(Edge {
            action,
            from: task.precondition(action, variable),
            to,
            price: task.price(action),
        }),
        _ => None,
    }
}

fn gather<T: Task>(task: &T, variable: u8) -> Edges {
    let none = Edge { action: 0, from: None, to: 0, price: 0 };
    let mut edges = Edges { list: [none; 512], count: 0 };
    for action in 0..task.actions() {
        if let Some(edge) = edge(task, variable, action) {
            edges.list[edges.count] = edge;
            edges.count += 1;
        }
    }
    edges
}

#[derive(Clone, Copy)]
struct Mark {
    reached: bool,
    settled: bool,
    via: u16,
    from: u8,
}

const UNREACHED: Mark = Mark { reached: false, settled: false, via: 0, from: 0 };

fn least_open<M: Measure>(marks: &[Mark; 64], table: &[M::Total]) -> Option<u8> {
    let mut at = None;
    let mut best = None;
    for value in 0..64u8 {
        let mark = marks[usize::from(value)];
        let total = table[usize::from(value)];
        if mark.reached && !mark.settled && best.is_none_or(|old| !M::at_most(old, total)) {
            at = Some(value);
            best = Some(total);
        }
    }
    at
}

fn relax_all<M: Measure>(marks: &mut [Mark; 64], table: &mut [M::Total], edges: &[Edge], value: u8, total: M::Total) {
    for edge in edges {
        if edge.from.is_none_or(|from| from == value) {
            let to = usize::from(edge.to);
            let sum = M::join(total, M::weight(edge.price));
            if !marks[to].settled && (!marks[to].reached || !M::at_most(table[to], sum)) {
                marks[to] = Mark { reached: true, settled: false, via: edge.action, from: value };
                table[to] = sum;
            }
        }
    }
}

pub struct Path<S> {
    actions: [u16; 64],
    first: usize,
    total: S,
}

impl<S: Copy> Path<S> {
    pub fn actions(&self) -> &[u16] {
        &self.actions[self.first..]
    }

    pub fn total(&self) -> S {
        self.total
    }
}

fn trace_back<S: Copy>(marks: &[Mark; 64], from: u8, to: u8, total: S) -> Path<S> {
    let mut path = Path { actions: [0; 64], first: 64, total };
    let mut value = to;
    while value != from && path.first > 0 {
        let mark = marks[usize::from(value)];
        path.first -= 1;
        path.actions[path.first] = mark.via;
        value = mark.from;
    }
    path
}

fn find<T: Task, M: Measure>(task: &T, variable: u8, from: u8, to: u8, table: &mut [M::Total]) -> Option<Path<M::Total>> {
    if !task.value_live(variable, from) || !task.value_live(variable, to) {
        return None;
    }
    let edges = gather(task, variable);
    let mut marks = [UNREACHED; 64];
    marks[usize::from(from)].reached = true;
    table[usize::from(from)] = M::nothing();
    for _ in 0..64 {
        let Some(value) = least_open::<M>(&marks, table) else {
            break;
        };
        marks[usize::from(value)].settled = true;
        let total = table[usize::from(value)];
        relax_all::<M>(&mut marks, table, &edges.list[..edges.count], value, total);
    }
    if !marks[usize::from(to)].reached {
        return None;
    }
    Some(trace_back(&marks, from, to, table[usize::from(to)]))
}

pub fn detour<T: Task, M: Measure>(task: &T, variable: u8, from: u8, to: u8, table: &mut [M::Total]) -> Option<Path<M::Total>> {
    if table.len() != 64 {
        return None;
    }
    let found = find::<T, M>(task, variable, from, to, table);
    table.fill(M::nothing());
    found
}
