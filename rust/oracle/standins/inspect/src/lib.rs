//! Stand-in: inspection that answers nobody.

pub use standin_derive::Inspect;
use std::marker::PhantomData;

/// What can be looked at in a running paravisor.
pub trait Inspect {
    fn inspect(&self, request: Request<'_>);
}

/// A request to look.
pub struct Request<'a>(PhantomData<&'a ()>);

impl Request<'_> {
    pub fn respond(self) -> Response {
        Response
    }
}

/// An answer that drops its fields.
pub struct Response;

impl Response {
    pub fn field<T>(&mut self, _name: &str, _value: T) -> &mut Self {
        self
    }

    pub fn field_with<T>(&mut self, _name: &str, _value: impl FnOnce() -> T) -> &mut Self {
        self
    }

    pub fn hex<T>(&mut self, _name: &str, _value: T) -> &mut Self {
        self
    }
}
