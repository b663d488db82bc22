//! Stand-in for `linebender_resource_handle`: shared bytes.

use std::{
    fmt,
    sync::{Arc, Weak},
};

type Bytes<T> = dyn AsRef<[T]> + Send + Sync;

pub struct Blob<T>(Arc<Bytes<T>>);

impl<T> Blob<T> {
    pub fn new(data: Arc<Bytes<T>>) -> Self {
        Self(data)
    }

    pub fn downgrade(&self) -> WeakBlob<T> {
        WeakBlob(Arc::downgrade(&self.0))
    }
}

impl<T> Clone for Blob<T> {
    fn clone(&self) -> Self {
        Self(self.0.clone())
    }
}

impl<T> AsRef<[T]> for Blob<T> {
    fn as_ref(&self) -> &[T] {
        (*self.0).as_ref()
    }
}

impl<T> fmt::Debug for Blob<T> {
    fn fmt(&self, f: &mut fmt::Formatter<'_>) -> fmt::Result {
        write!(f, "Blob({})", self.as_ref().len())
    }
}

pub struct WeakBlob<T>(Weak<Bytes<T>>);

impl<T> WeakBlob<T> {
    pub fn upgrade(&self) -> Option<Blob<T>> {
        self.0.upgrade().map(Blob)
    }
}

impl<T> Clone for WeakBlob<T> {
    fn clone(&self) -> Self {
        Self(self.0.clone())
    }
}
