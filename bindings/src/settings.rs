//! A setting as C has it: whether it is given, and its value, which is not read where it is left out.

pub(crate) fn given<T: Default>(setting: Option<T>) -> (u64, T) {
    match setting {
        Some(value) => (1, value),
        None => (0, T::default()),
    }
}
