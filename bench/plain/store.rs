//! Values by key; a key that is free is used again.

pub struct Store<T> {
    cells: Vec<Option<T>>,
    free: Vec<usize>,
}

impl<T> Store<T> {
    pub fn new() -> Store<T> {
        Store {
            cells: Vec::new(),
            free: Vec::new(),
        }
    }

    /// Stores a value, and gives its key.
    pub fn insert(&mut self, value: T) -> usize {
        match self.free.pop() {
            Some(key) => {
                self.cells[key] = Some(value);
                key
            }
            None => {
                self.cells.push(Some(value));
                self.cells.len() - 1
            }
        }
    }

    pub fn get(&self, key: usize) -> Option<&T> {
        self.cells.get(key)?.as_ref()
    }

    pub fn get_mut(&mut self, key: usize) -> Option<&mut T> {
        self.cells.get_mut(key)?.as_mut()
    }

    /// Takes a value out.
    pub fn remove(&mut self, key: usize) -> Option<T> {
        let value = self.cells.get_mut(key)?.take()?;
        self.free.push(key);
        Some(value)
    }
}
