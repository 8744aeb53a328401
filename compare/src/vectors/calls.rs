//! The calls of a recorded sequence: what a `>` line says.

use super::fields::Fields;
use crate::oracle::Key;

pub enum Call {
    Open {
        /// Whether every dropped flagged record is reported, or those alone that the Rust reports.
        every: bool,
        base: Option<Base>,
        cutoff: Option<Key>,
        list: usize,
        store: usize,
    },
    Ingest {
        key: Key,
        change: Change,
        instead: Instead,
    },
    Digest {
        area: usize,
        tickets: usize,
        instead: Instead,
    },
    Next {
        base: Base,
        cutoff: Option<Key>,
        instead: Instead,
    },
    Uncut {
        instead: Instead,
    },
    Twin {
        index: usize,
        instead: Instead,
    },
    Scope {
        key: Key,
    },
    Separator,
    Dump,
    PageKey {
        page: Vec<u8>,
        index: usize,
    },
    PageValue {
        page: Vec<u8>,
        index: usize,
    },
    PageValuesSize {
        page: Vec<u8>,
        from: usize,
        to: usize,
    },
    PageGet {
        page: Vec<u8>,
        key: Key,
    },
    Separate {
        a: Key,
        b: Key,
    },
}

pub struct Base {
    pub page: Vec<u8>,
    pub separator: Key,
}

#[derive(Clone)]
pub enum Change {
    Put { value: Vec<u8>, flag: bool },
    Delete,
}

impl Change {
    /// The length of the new value.
    pub fn length(&self) -> usize {
        match self {
            Change::Put { value, .. } => value.len(),
            Change::Delete => 0,
        }
    }
}

/// What this call is lent in place of the sequence's page, list or store, and which byte of the store is
/// spoiled while it runs.
#[derive(Default)]
pub struct Instead {
    pub page: Option<Vec<u8>>,
    pub list: Option<usize>,
    pub store: Option<usize>,
    pub dirty: Option<usize>,
}

impl Call {
    /// The call's name in the text form.
    pub fn name(&self) -> &'static str {
        match self {
            Call::Open { .. } => "open",
            Call::Ingest { .. } => "ingest",
            Call::Digest { .. } => "digest",
            Call::Next { .. } => "next",
            Call::Uncut { .. } => "uncut",
            Call::Twin { .. } => "twin",
            Call::Scope { .. } => "scope",
            Call::Separator => "separator",
            Call::Dump => "dump",
            Call::PageKey { .. } => "page_key",
            Call::PageValue { .. } => "page_value",
            Call::PageValuesSize { .. } => "page_values_size",
            Call::PageGet { .. } => "page_get",
            Call::Separate { .. } => "separate",
        }
    }

    /// What the call is lent in place of the sequence's own, where it can be.
    pub fn instead(&self) -> Option<&Instead> {
        match self {
            Call::Ingest { instead, .. }
            | Call::Digest { instead, .. }
            | Call::Next { instead, .. }
            | Call::Uncut { instead }
            | Call::Twin { instead, .. } => Some(instead),
            _ => None,
        }
    }

    /// Reads a `>` line without its mark.
    pub fn read(line: &str) -> Result<Call, String> {
        let (name, mut fields) = Fields::split(line);
        let call = match name {
            "open" => read_open(&mut fields)?,
            "ingest" => read_ingest(&mut fields)?,
            "digest" | "next" | "uncut" | "twin" => read_on_work(name, &mut fields)?,
            "scope" => Call::Scope {
                key: fields.key("key")?,
            },
            "separator" => Call::Separator,
            "dump" => Call::Dump,
            "separate" => Call::Separate {
                a: fields.key("a")?,
                b: fields.key("b")?,
            },
            _ => read_on_page(name, &mut fields)?,
        };
        fields.end()?;
        Ok(call)
    }
}

fn read_open(fields: &mut Fields) -> Result<Call, String> {
    let base = if fields.word("base=none") {
        None
    } else {
        Some(read_base(fields)?)
    };
    Ok(Call::Open {
        every: fields.word("report=every"),
        base,
        cutoff: fields.key_or_none("cutoff")?,
        list: fields.number("list")?,
        store: fields.number("store")?,
    })
}

fn read_base(fields: &mut Fields) -> Result<Base, String> {
    Ok(Base {
        page: fields.bytes("base")?,
        separator: fields.key("sep")?,
    })
}

fn read_ingest(fields: &mut Fields) -> Result<Call, String> {
    let change = if fields.word("delete") {
        Change::Delete
    } else {
        Change::Put {
            value: fields.bytes("put")?,
            flag: fields.flag("flag")?,
        }
    };
    Ok(Call::Ingest {
        key: fields.key("key")?,
        change,
        instead: read_instead(fields)?,
    })
}

fn read_on_work(name: &str, fields: &mut Fields) -> Result<Call, String> {
    if matches!(name, "next" | "uncut") && fields.has("page") {
        return Err(format!("`{name}` is not lent the current page"));
    }
    let instead = read_instead(fields)?;
    Ok(match name {
        "digest" => Call::Digest {
            area: fields.number("area")?,
            tickets: fields.number("tickets")?,
            instead,
        },
        "next" => Call::Next {
            base: read_base(fields)?,
            cutoff: fields.key_or_none("cutoff")?,
            instead,
        },
        "twin" => Call::Twin {
            index: fields.number("index")?,
            instead,
        },
        _ => Call::Uncut { instead },
    })
}

fn read_instead(fields: &mut Fields) -> Result<Instead, String> {
    Ok(Instead {
        page: fields.bytes_if_given("page")?,
        list: fields.number_if_given("list")?,
        store: fields.number_if_given("store")?,
        dirty: fields.number_if_given("dirty")?,
    })
}

fn read_on_page(name: &str, fields: &mut Fields) -> Result<Call, String> {
    match name {
        "page_key" => Ok(Call::PageKey {
            page: fields.bytes("page")?,
            index: fields.number("index")?,
        }),
        "page_value" => Ok(Call::PageValue {
            page: fields.bytes("page")?,
            index: fields.number("index")?,
        }),
        "page_values_size" => Ok(Call::PageValuesSize {
            page: fields.bytes("page")?,
            from: fields.number("from")?,
            to: fields.number("to")?,
        }),
        "page_get" => Ok(Call::PageGet {
            page: fields.bytes("page")?,
            key: fields.key("key")?,
        }),
        _ => Err(format!("unknown call `{name}`")),
    }
}
