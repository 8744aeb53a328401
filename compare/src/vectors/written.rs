//! Calls written as the `>` lines that `calls` reads, so that a made-up sequence can be kept as a recorded one.

use super::calls::{Base, Call, Change, Instead};
use crate::hex;
use crate::oracle::Key;

impl Call {
    /// The call's line, without its mark.
    pub fn line(&self) -> String {
        let fields = match self {
            Call::Open {
                every,
                base,
                cutoff,
                list,
                store,
            } => {
                let base = write_base(base.as_ref(), cutoff);
                let mode = if *every { " report=every" } else { "" };
                format!("{base} list={list} store={store}{mode}")
            }
            Call::Ingest {
                key,
                change,
                instead,
            } => {
                let (key, change) = (hex::write(key), write_change(change));
                format!(" key={key}{change}{}", write_instead(instead))
            }
            Call::Digest {
                area,
                tickets,
                instead,
            } => {
                let instead = write_instead(instead);
                format!(" area={area} tickets={tickets}{instead}")
            }
            Call::Next {
                base,
                cutoff,
                instead,
            } => write_base(Some(base), cutoff) + &write_instead(instead),
            Call::Uncut { instead } => write_instead(instead),
            Call::Twin { index, instead } => format!(" index={index}{}", write_instead(instead)),
            _ => self.reading_fields(),
        };
        format!("{}{fields}", self.name())
    }

    /// The fields of a call that only reads work record or page.
    fn reading_fields(&self) -> String {
        match self {
            Call::Scope { key } => format!(" key={}", hex::write(key)),
            Call::PageKey { page, index } | Call::PageValue { page, index } => {
                format!(" page={} index={index}", hex::write(page))
            }
            Call::PageValuesSize { page, from, to } => {
                format!(" page={} from={from} to={to}", hex::write(page))
            }
            Call::PageGet { page, key } => {
                format!(" page={} key={}", hex::write(page), hex::write(key))
            }
            Call::Separate { a, b } => format!(" a={} b={}", hex::write(a), hex::write(b)),
            _ => String::new(),
        }
    }
}

fn write_base(base: Option<&Base>, cutoff: &Option<Key>) -> String {
    let cutoff = cutoff.map_or("none".to_string(), |key| hex::write(&key));
    match base {
        Some(base) => {
            let (page, separator) = (hex::write(&base.page), hex::write(&base.separator));
            format!(" base={page} sep={separator} cutoff={cutoff}")
        }
        None => format!(" base=none cutoff={cutoff}"),
    }
}

fn write_change(change: &Change) -> String {
    match change {
        Change::Put { value, flag } => {
            format!(" put={} flag={}", hex::write(value), u8::from(*flag))
        }
        Change::Delete => " delete".to_string(),
    }
}

fn write_instead(instead: &Instead) -> String {
    let page = instead.page.as_ref();
    let page = page.map(|page| format!(" page={}", hex::write(page)));
    let numbers = [
        ("list", instead.list),
        ("store", instead.store),
        ("dirty", instead.dirty),
    ];
    let numbers = numbers
        .iter()
        .filter_map(|(name, number)| number.map(|number| format!(" {name}={number}")));
    page.into_iter().chain(numbers).collect()
}

#[cfg(test)]
mod tests {
    use super::*;

    #[test]
    fn reads_what_it_writes() {
        for line in [
            "open base=none cutoff=none list=121 store=4096",
            "open base=0000 sep=(32*01) cutoff=(32*02) list=121 store=4096",
            "ingest key=(32*01) delete page=empty list=120 store=4095 dirty=7",
            "ingest key=(32*01) put=0102 flag=1",
            "digest area=4096 tickets=65 list=120",
            "next base=00 sep=(32*01) cutoff=none dirty=1",
            "uncut",
            "uncut store=4095",
            "twin index=3 page=00",
            "scope key=(32*01)",
            "separator",
            "dump",
            "page_key page=00 index=1",
            "page_value page=00 index=1",
            "page_values_size page=00 from=1 to=2",
            "page_get page=00 key=(32*01)",
            "separate a=(32*01) b=(32*02)",
        ] {
            assert_eq!(
                Call::read(line).map(|call| call.line()).as_deref(),
                Ok(line)
            );
        }
    }
}
