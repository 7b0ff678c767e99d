//! Space that a sheet lies in.

/// Space of elements, lent or owned. What is lent stays as large as it is; what
/// is owned grows before an entry runs, and gives back what the answer leaves.
pub trait Room<T>: AsRef<[T]> + AsMut<[T]> {
    /// Makes room for at least so many elements, if that can be done. What is
    /// there stays.
    fn make(&mut self, _count: usize) {}

    /// Gives back what lies past so many elements, if that can be done.
    fn settle(&mut self, _count: usize) {}
}

impl<T> Room<T> for &mut [T] {}

impl<T, const COUNT: usize> Room<T> for [T; COUNT] {}

#[cfg(feature = "std")]
impl<T: Clone + Default> Room<T> for Vec<T> {
    fn make(&mut self, count: usize) {
        if self.len() < count {
            self.resize(count, T::default());
        }
    }

    fn settle(&mut self, count: usize) {
        self.truncate(count);
        self.shrink_to_fit();
    }
}
