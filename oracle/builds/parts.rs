//! Compiled with debugging sections of many sorts; never run.
use std::collections::HashMap;

pub enum Shape {
    None,
    Circle { radius: f64 },
    Polygon(Vec<(f64, f64)>),
}

pub trait Area {
    fn area(&self) -> f64;
    fn double(&self) -> f64 {
        self.area() * 2.0
    }
}

impl Area for Shape {
    fn area(&self) -> f64 {
        match self {
            Shape::None => 0.0,
            Shape::Circle { radius } => radius * radius * 3.0,
            Shape::Polygon(points) => points.iter().map(|(x, y)| x * y).sum(),
        }
    }
}

pub struct Store<K, const N: usize> {
    pub names: HashMap<String, K>,
    pub cells: [Option<Box<dyn Area>>; N],
    pub wide: i128,
}

impl<K: Copy, const N: usize> Store<K, N> {
    pub fn find(&self, name: &str) -> Option<K> {
        self.names.get(name).copied()
    }
    pub fn total(&self) -> f64 {
        let mut sum = 0.0;
        for c in self.cells.iter().flatten() {
            let here = c.double();
            sum += here;
        }
        sum
    }
}

pub fn run(text: &str) -> Result<u64, std::num::ParseIntError> {
    let mut store = Store::<u64, 3> { names: HashMap::new(), cells: [const { None }; 3], wide: -1 };
    store.names.insert(text.to_string(), text.parse()?);
    store.cells[0] = Some(Box::new(Shape::Circle { radius: 2.0 }));
    let more = |n: u64| n + store.total() as u64 + store.wide as u64;
    Ok(more(store.find(text).unwrap_or(0)))
}
