//! Stand-in for the crate of that name: its lock, over the standard library's, or over a plain cell where `cells` is set.
#[cfg(cells)]
use std::cell;
#[cfg(not(cells))]
use std::sync;

#[cfg(not(cells))]
#[derive(Debug)]
pub struct RwLock<T>(sync::RwLock<T>);

#[cfg(not(cells))]
impl<T> RwLock<T> {
    pub fn new(value: T) -> Self {
        RwLock(sync::RwLock::new(value))
    }

    pub fn read(&self) -> sync::RwLockReadGuard<'_, T> {
        self.0.read().unwrap_or_else(sync::PoisonError::into_inner)
    }

    pub fn write(&self) -> sync::RwLockWriteGuard<'_, T> {
        self.0.write().unwrap_or_else(sync::PoisonError::into_inner)
    }

    pub fn try_read(&self) -> Option<sync::RwLockReadGuard<'_, T>> {
        self.0.try_read().ok()
    }

    pub fn try_write(&self) -> Option<sync::RwLockWriteGuard<'_, T>> {
        self.0.try_write().ok()
    }
}

#[cfg(cells)]
#[derive(Debug)]
pub struct RwLock<T>(cell::RefCell<T>);

#[cfg(cells)]
impl<T> RwLock<T> {
    pub fn new(value: T) -> Self {
        RwLock(cell::RefCell::new(value))
    }

    pub fn read(&self) -> cell::Ref<'_, T> {
        self.0.borrow()
    }

    pub fn write(&self) -> cell::RefMut<'_, T> {
        self.0.borrow_mut()
    }

    pub fn try_read(&self) -> Option<cell::Ref<'_, T>> {
        self.0.try_borrow().ok()
    }

    pub fn try_write(&self) -> Option<cell::RefMut<'_, T>> {
        self.0.try_borrow_mut().ok()
    }
}
