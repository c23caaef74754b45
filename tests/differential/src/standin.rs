//! The stand-in for the library as an archive for C.

#[allow(dead_code)] // A call is made on the model alone here.
mod call;
mod calls;
mod encode;
#[allow(dead_code)] // The names of the faults are listed by the test.
mod faults;
#[allow(dead_code)]
mod ffi;
mod layout;
mod record_stub;
mod stub;
mod trace_stub;
mod writers;
