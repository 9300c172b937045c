// What the product takes of the kit's crate arrayvec, for the plain Rust that the benchmark compares with: items in place, and how many there are.
pub struct ArrayVec<T, const CAP: usize> {
    items: [T; CAP],
    len: usize,
}

impl<T: Copy + Default, const CAP: usize> ArrayVec<T, CAP> {
    pub fn new() -> Self {
        ArrayVec { items: [T::default(); CAP], len: 0 }
    }

    pub fn is_full(&self) -> bool {
        self.len == CAP
    }

    pub fn push(&mut self, item: T) {
        self.items[self.len] = item;
        self.len += 1;
    }
}

impl<T, const CAP: usize> std::ops::Deref for ArrayVec<T, CAP> {
    type Target = [T];

    fn deref(&self) -> &[T] {
        &self.items[..self.len]
    }
}
