//! One host call as a value, its answer as a value, and how to make it on either side.

use crate::calls::calls;
use crate::ffi;
use crate::layout::table_suffices;
use model::limits::Capacities;
use model::trace::Field;
use model::{Advanced, Copied, Ended, Made, Model, Numbers, Received, Report, Shown, Turn};

/// What a call answers that was lent a slice to write to, and what is in the slice then.
#[derive(Debug, Clone, PartialEq)]
pub struct Written {
    pub copied: Copied,
    pub slice: Vec<u8>,
}

impl Numbers for Written {
    fn numbers(&self) -> Vec<u64> {
        self.copied.numbers()
    }
}

/// Makes the answers as values: what a call answers, wrapped and taken out again.
macro_rules! answers {
    ($($name:ident($kind:ty) = $no:expr;)*) => {
        #[derive(Debug, Clone, PartialEq)]
        pub enum Answer {
            $($name($kind),)*
        }

        impl Answer {
            pub fn no(&self) -> u64 {
                match self {
                    $(Answer::$name(answer) => $no(answer),)*
                }
            }

            pub fn numbers(&self) -> Vec<u64> {
                match self {
                    $(Answer::$name(answer) => answer.numbers(),)*
                }
            }
        }

        $(
            impl From<$kind> for Answer {
                fn from(answer: $kind) -> Answer {
                    Answer::$name(answer)
                }
            }

            impl From<Answer> for $kind {
                fn from(answer: Answer) -> $kind {
                    match answer {
                        Answer::$name(answer) => answer,
                        _ => unreachable!("a call answers one kind"),
                    }
                }
            }
        )*
    };
}

answers! {
    Number(u64) = |no: &u64| *no;
    Made(Made) = |a: &Made| a.no;
    Turn(Turn) = |a: &Turn| a.no;
    Received(Received) = |a: &Received| a.no;
    Shown(Shown) = |a: &Shown| a.no;
    Ended(Ended) = |a: &Ended| a.no;
    Advanced(Advanced) = |a: &Advanced| a.no;
    Report(Report) = |a: &Report| a.no;
    Written(Written) = |a: &Written| a.copied.no;
}

impl Answer {
    /// The answer as a trace records it: its numbers, and of a slice that was written to the bytes that were copied.
    pub fn fields(&self) -> Vec<Field> {
        match self {
            Answer::Written(Written { copied, slice }) => {
                vec![Field::Number(copied.no), Field::payload(&slice[..copied.length as usize])]
            }
            answer => answer.numbers().into_iter().map(Field::Number).collect(),
        }
    }
}

/// Makes the calls as values, with their functions on either side.
macro_rules! call_values {
    (
        numbers { $($call:ident $(($($arg:ident: $ty:ty),*))? = $c:ident, $method:ident -> $answer:ty, $chances:expr, $chosen:expr;)* }
        payloads { $($sent:ident($($with:ident: $kind:ty),*) = $sent_c:ident, $sent_method:ident -> $sent_answer:ty, $sent_chances:expr, $sent_chosen:expr;)* }
        slices { $($lent:ident($($by:ident: $sort:ty),*) = $lent_c:ident, $lent_method:ident -> $lent_answer:ty, $lent_chances:expr, $lent_chosen:expr;)* }
    ) => {
        #[derive(Debug, Clone, PartialEq)]
        pub enum Call {
            Start(Capacities),
            $($call $(($($ty),*))?,)*
            $($sent($($kind,)* Vec<u8>),)*
            /// The slice that is lent, as it is before the call.
            $($lent($($sort,)* Vec<u8>),)*
        }

        impl Call {
            /// Its name in C, without the prefix.
            pub fn name(&self) -> &'static str {
                match self {
                    Call::Start(_) => "start",
                    $(Call::$call { .. } => &stringify!($c)[3..],)*
                    $(Call::$sent { .. } => &stringify!($sent_c)[3..],)*
                    $(Call::$lent { .. } => &stringify!($lent_c)[3..],)*
                }
            }

            /// Its arguments as a trace records them; a start's without the lengths of its buffers.
            pub fn fields(&self) -> Vec<Field> {
                match self {
                    Call::Start(caps) => caps.map(Field::Number).to_vec(),
                    $(Call::$call $(($($arg),*))? => vec![$($(Field::Number(*$arg as u64)),*)?],)*
                    $(Call::$sent($($with,)* payload) => vec![$(Field::Number(*$with as u64),)* Field::payload(payload)],)*
                    $(Call::$lent($($by,)* slice) => vec![$(Field::Number(*$by as u64),)* Field::Number(slice.len() as u64)],)*
                }
            }

            pub fn on_library(&self, t: &mut [u64], p: &mut [u8]) -> Answer {
                match self {
                    Call::Start(caps) => ffi::start(t, p, *caps).into(),
                    $(Call::$call $(($($arg),*))? => ffi::$method(t, p $($(, *$arg)*)?).into(),)*
                    $(Call::$sent($($with,)* payload) => ffi::$sent_method(t, p, $(*$with,)* payload).into(),)*
                    $(Call::$lent($($by,)* slice) => written(slice, |out| ffi::$lent_method(t, p, $(*$by,)* out)),)*
                }
            }

            /// The same call on the model, whose buffers would have so many words and bytes.
            pub fn on_model(&self, m: &mut Model, words: usize, bytes: usize) -> Answer {
                match self {
                    Call::Start(caps) => m.start(table_suffices(words, caps), bytes as u64, *caps).into(),
                    $(Call::$call $(($($arg),*))? => m.$method($($(*$arg),*)?).into(),)*
                    $(Call::$sent($($with,)* payload) => m.$sent_method($(*$with,)* payload).into(),)*
                    $(Call::$lent($($by,)* slice) => written(slice, |out| m.$lent_method($(*$by,)* out)),)*
                }
            }
        }
    };
}

calls!(call_values);

/// Lends a copy of a slice to a call.
pub fn written(slice: &[u8], call: impl FnOnce(&mut [u8]) -> Copied) -> Answer {
    let mut slice = slice.to_vec();
    let copied = call(&mut slice);
    Written { copied, slice }.into()
}

impl Call {
    pub fn is_start(&self) -> bool {
        matches!(self, Call::Start(_))
    }

    /// Calls that change nothing, whatever they answer.
    pub fn only_reads(&self) -> bool {
        matches!(self, Call::Shown | Call::Report)
    }
}
