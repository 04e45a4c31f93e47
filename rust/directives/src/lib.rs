//! The directives: one table of their names, keys, functions and statuses.
//!
//! Everything that knows the directives reads it here: the calls themselves,
//! the writer of scripts, the second program's reader, the tests of the
//! library (which link the functions that the table names) and the benchmarks.

pub mod words;

use words::{status, ORDERS};

/// Hands the table to a macro. Each row has the directive, its name in a
/// script, its function in the library, its keys in order (with the name in a
/// script, where that is another) and the statuses that it can be answered
/// with, beside 25 for unsound records. `SCRIPT` are the calls of a script,
/// `LIBRARY` those that only the library has: over the words of a segment.
#[macro_export]
macro_rules! with_table {
    ($callback:ident) => {
        $callback! {
            SCRIPT {
                CreateRegion "create-region" sc_region_create
                    { name, start, length, page, order } [0, 3, 5, 8, 9];
                IdentRegion "ident-region" sc_region_ident { name } [0, 3];
                DeleteRegion "delete-region" sc_region_delete { id } [0, 4, 12];
                Get "get" sc_region_get_segment
                    { id, size, alignment = "align", wait, task, priority, ticks }
                    [0, 4, 8, 10, 11, 13, 14, 19, 255];
                Return "return" sc_region_return_segment { id, address } [0, 4, 9];
                Size "size" sc_region_get_segment_size { id, address } [0, 4, 9];
                Resize "resize" sc_region_resize_segment { id, address, size } [0, 4, 8, 9, 13];
                Information "info" sc_region_get_information { id } [0, 4];
                CreatePartition "create-partition" sc_partition_create
                    { name, start, length, size } [0, 3, 5, 8, 9];
                IdentPartition "ident-partition" sc_partition_ident { name } [0, 3];
                DeletePartition "delete-partition" sc_partition_delete { id } [0, 4, 12];
                GetBuffer "get-buffer" sc_partition_get_buffer { id } [0, 4, 13];
                ReturnBuffer "return-buffer" sc_partition_return_buffer { id, address } [0, 4, 9];
                Tick "tick" sc_clock_tick [0];
            }
            LIBRARY {
                Read "read" sc_segment_read { id, address } [];
                Write "write" sc_segment_write { id, address, first; words } [0, 4, 8, 9];
            }
        }
    };
}

/// The name of a key in a script.
macro_rules! name_of {
    ($key:ident) => {
        stringify!($key)
    };
    ($key:ident $name:literal) => {
        $name
    };
}

macro_rules! define {
    ($($GROUP:ident {
        $($Variant:ident $name:literal $function:ident
            $({ $($key:ident $(= $text:literal)?),* $(; $data:ident)? })?
            [$($status:literal),*];)*
    })*) => {
        $(
            pub const $GROUP: &[Directive] = &[$(Directive::$Variant),*];
        )*

        /// A call with its arguments. Choices (`order`, `wait`) are plain words,
        /// so that wrong ones can be passed too.
        #[derive(Clone, Debug, PartialEq, Eq)]
        pub enum Call {
            $($($Variant $({ $($key: u32,)* $($data: Vec<u32>,)? })?,)*)*
        }

        /// Which directive a call is.
        #[derive(Clone, Copy, Debug, PartialEq, Eq, PartialOrd, Ord)]
        pub enum Directive {
            $($($Variant,)*)*
        }

        impl Directive {
            pub const ALL: &[Directive] = &[$($(Directive::$Variant,)*)*];

            /// The name in a script.
            pub fn name(self) -> &'static str {
                match self {
                    $($(Directive::$Variant => $name,)*)*
                }
            }

            /// The name of the library's function.
            pub fn function(self) -> &'static str {
                match self {
                    $($(Directive::$Variant => stringify!($function),)*)*
                }
            }

            /// The keys in a script, and so the arguments of the function, in order.
            pub fn keys(self) -> &'static [&'static str] {
                match self {
                    $($(Directive::$Variant => &[$($(name_of!($key $($text)?)),*)?],)*)*
                }
            }

            /// Every status that it can be answered with on sound records. A read has none.
            pub fn statuses(self) -> &'static [u32] {
                match self {
                    $($(Directive::$Variant => &[$($status),*],)*)*
                }
            }

            /// The call with these arguments, one for each key. A write has no words.
            pub fn call(self, arguments: &[u32]) -> Call {
                assert_eq!(arguments.len(), self.keys().len(), "arguments of {}", self.name());
                let mut rest = arguments.iter().copied();
                let mut next = || rest.next().expect("there are as many as keys");
                match self {
                    $($(Directive::$Variant => {
                        let _ = &mut next;
                        Call::$Variant $({ $($key: next(),)* $($data: Vec::new(),)? })?
                    })*)*
                }
            }
        }

        impl Call {
            pub fn directive(&self) -> Directive {
                match self {
                    $($(Call::$Variant { .. } => Directive::$Variant,)*)*
                }
            }

            /// The arguments, one for each key.
            pub fn arguments(&self) -> Vec<u32> {
                match self {
                    $($(Call::$Variant $({ $($key,)* $($data: _,)? })? => vec![$($(*$key),*)?],)*)*
                }
            }
        }
    };
}

with_table!(define);

impl Directive {
    /// The directive with this name in a script.
    pub fn of_script(name: &[u8]) -> Option<Directive> {
        let mut all = SCRIPT.iter().copied();
        all.find(|directive| directive.name().as_bytes() == name)
    }

    /// Whether it is about partitions.
    pub fn is_of_partitions(self) -> bool {
        self.function().starts_with("sc_partition_")
    }

    /// Whether its first key is the id of an object.
    pub fn has_id(self) -> bool {
        self.keys().first() == Some(&"id")
    }

    /// Whether the library's function fills in an answer.
    pub fn has_answer(self) -> bool {
        SCRIPT.contains(&self)
    }
}

/// How many choices there are for this key, from 0 on; none where it takes any
/// number.
pub fn choices(key: &str) -> Option<u32> {
    match key {
        "order" => Some(ORDERS),
        "wait" => Some(2),
        _ => None,
    }
}

/// Whether a key takes an argument.
pub fn is_allowed(key: &str, argument: u32) -> bool {
    choices(key).is_none_or(|choices| argument < choices)
}

impl Call {
    /// Whether an argument of the call is no choice, where it has to be one.
    pub fn has_wrong_choice(&self) -> bool {
        match *self {
            Call::CreateRegion { order, .. } => !is_allowed("order", order),
            Call::Get { wait, .. } => !is_allowed("wait", wait),
            _ => false,
        }
    }

    /// The same call, but for its id if it has one.
    pub fn with_id(&self, id: u32) -> Call {
        let mut arguments = self.arguments();
        if self.directive().has_id() {
            arguments[0] = id;
        }
        let mut call = self.directive().call(&arguments);
        if let (Call::Write { words, .. }, Call::Write { words: own, .. }) = (&mut call, self) {
            words.clone_from(own);
        }
        call
    }

    /// The lines of the call in a script.
    pub fn to_script(&self) -> String {
        let mut text = format!("call={}\n", self.directive().name());
        for (key, argument) in self.directive().keys().iter().zip(self.arguments()) {
            text.push_str(&format!("{key}={argument}\n"));
        }
        text
    }
}

/// The most bytes of a script.
pub const MAX_SCRIPT: usize = 32_768;
/// The most bytes of a script's line, its newline included.
pub const MAX_LINE: usize = 64;

/// The end of a task's wait.
#[derive(Clone, Copy, Debug, PartialEq, Eq)]
pub struct Notice {
    pub task: u32,
    pub status: u32,
    pub address: u32,
}

/// What a call answers.
#[derive(Clone, Debug, Default, PartialEq, Eq)]
pub struct Answer {
    pub status: u32,
    pub value: u32,
    pub information: [u32; 6],
    pub notices: Vec<Notice>,
    /// The words of a segment that was read. Only a read has them, and it has
    /// no status.
    pub words: Vec<u32>,
}

impl Answer {
    pub fn value(value: u32) -> Answer {
        Answer {
            value,
            ..Answer::default()
        }
    }

    pub fn status(status: u32) -> Answer {
        Answer {
            status,
            ..Answer::default()
        }
    }

    pub fn notices(notices: Vec<Notice>) -> Answer {
        Answer {
            notices,
            ..Answer::default()
        }
    }

    pub fn is_internal_error(&self) -> bool {
        self.status == status::INTERNAL_ERROR
    }

    /// The words of the answer, as the library writes them.
    pub fn to_words(&self) -> [u32; words::ANSWER_WORDS] {
        let notices = self.notices.iter();
        let notices = notices.flat_map(|notice| [notice.task, notice.status, notice.address]);
        let parts = [self.value].into_iter().chain(self.information);
        let mut words = [0; words::ANSWER_WORDS];
        for (word, value) in words.iter_mut().zip(parts.chain(notices)) {
            *word = value;
        }
        words
    }
}

#[cfg(test)]
mod tests {
    use super::words::*;
    use super::*;

    #[test]
    fn calls_and_arguments() {
        for &directive in Directive::ALL {
            let arguments: Vec<u32> = (1..).take(directive.keys().len()).collect();
            let call = directive.call(&arguments);
            assert_eq!(call.directive(), directive);
            assert_eq!(call.arguments(), arguments);
        }
        assert_eq!(Directive::of_script(b"info"), Some(Directive::Information));
        assert_eq!(Directive::of_script(b"read"), None);
    }

    #[test]
    fn choices_are_told_from_numbers() {
        let get = |wait| Directive::Get.call(&[9, 9, 9, wait, 9, 9, 9]);
        let create = |order| Directive::CreateRegion.call(&[9, 9, 9, 9, order]);
        for choice in [0, 1, 2, 3, 4, 256, u32::MAX] {
            assert_eq!(get(choice).has_wrong_choice(), choice > 1);
            assert_eq!(create(choice).has_wrong_choice(), choice > 3);
        }
        assert!(!Directive::Resize.call(&[9, 9, 9]).has_wrong_choice());
    }

    #[test]
    fn calls_with_another_id() {
        let call = |id| Call::Write {
            id,
            address: 64,
            first: 1,
            words: vec![5, 6],
        };
        assert_eq!(call(1).with_id(17), call(17));
        let ident = Directive::IdentRegion.call(&[1]);
        assert_eq!(ident.with_id(17), ident);
    }

    #[test]
    fn calls_are_written_as_lines() {
        let text = "call=get\nid=1\nsize=65\nalign=128\nwait=1\ntask=2\npriority=3\nticks=4\n";
        let call = Directive::Get.call(&[1, 65, 128, 1, 2, 3, 4]);
        assert_eq!(call.to_script(), text);
        assert_eq!(Call::Tick.to_script(), "call=tick\n");
    }

    /// The text of a file of the repository.
    fn file(path: &str) -> String {
        let root = concat!(env!("CARGO_MANIFEST_DIR"), "/../../");
        std::fs::read_to_string(format!("{root}{path}")).unwrap()
    }

    /// The number that the header gives a name.
    fn defined(header: &str, name: &str) -> u32 {
        let line = format!("#define {name} ");
        let rest = &header[header.find(&line).expect(name) + line.len()..];
        rest[..rest.find('u').unwrap()].parse().unwrap()
    }

    #[test]
    fn the_header_has_the_sizes() {
        let header = file("include/steepleclay.h");
        for (name, size) in [
            ("SC_SLOTS", SLOTS),
            ("SC_TASKS", TASKS),
            ("SC_MEMORY_WORDS", MEMORY_WORDS),
            ("SC_RECORD_WORDS", RECORD_WORDS),
            ("SC_ANSWER_WORDS", ANSWER_WORDS),
            ("SC_ANSWER_FREE_COUNT", INFORMATION_AT),
            ("SC_ANSWER_NOTICES", NOTICES_AT),
            ("SC_NOTICE_WORDS", NOTICE_WORDS),
        ] {
            assert_eq!(defined(&header, name) as usize, size, "{name}");
        }
    }

    #[test]
    fn the_header_has_the_orders() {
        let header = file("include/steepleclay.h");
        let names = [
            "SC_FIFO",
            "SC_PRIORITY",
            "SC_FIFO_HALVES",
            "SC_PRIORITY_HALVES",
        ];
        let orders = names.map(|name| defined(&header, name));
        assert_eq!(orders.map(is_by_priority), [false, true, false, true]);
        assert_eq!(orders.map(is_by_halves), [false, false, true, true]);
        assert_eq!(orders.to_vec(), (0..ORDERS).collect::<Vec<u32>>());
    }

    /// The header says of each function the statuses of the table, by their names.
    #[test]
    fn the_header_has_the_statuses() {
        let header = file("include/steepleclay.h");
        for &directive in Directive::ALL {
            let wrapper = format!("scm_{}(", &directive.function()[3..]);
            let at = header.find(&wrapper).expect("each function is there");
            let comment = &header[header[..at].rfind("/*").unwrap()..at];
            let listed = comment.split_once("Statuses:").map_or("", |parts| parts.1);
            let names = listed.split(|c: char| c != '_' && !c.is_ascii_uppercase());
            let names = names.filter(|name| name.starts_with("SC_"));
            let statuses: Vec<u32> = names.map(|name| defined(&header, name)).collect();
            assert_eq!(statuses, directive.statuses(), "{}", directive.function());
        }
    }

    /// The document of the calls has each name with its keys in order.
    #[test]
    fn the_document_has_the_keys() {
        let document = file("docs/CALLS.md");
        for &directive in SCRIPT {
            let name = format!("`{}`", directive.name());
            let mut rows = document.lines().filter(|line| line.starts_with("| `"));
            let row = rows.find(|row| row.split('|').nth(1).unwrap().contains(&name));
            let keys = row.expect("each call has a row").split('|').nth(2).unwrap();
            let keys: Vec<&str> = keys.split('`').skip(1).step_by(2).collect();
            assert_eq!(keys, directive.keys(), "{name}");
        }
    }
}
