//! Whether the library is the one that this crate was written for.
use super::{
    span_abi_version, span_struct_sizes, SpanCounts, SpanField, SpanFound, SpanHeld, SpanLayer, SpanLimits, SpanMeta,
    SpanRule, SpanSizes, ABI_VERSION, OK,
};
use crate::error::{Differing, Error};
use std::mem::size_of;

/// Refused where the library has another version of the interface, or another size of a struct. It comes before all
/// other calls, of which none is safe then.
pub(super) fn check() -> Result<(), Error> {
    // SAFETY: it takes nothing.
    same(Differing::Version, unsafe { span_abi_version() }, ABI_VERSION)?;
    let mut sizes = SpanSizes::default();
    // SAFETY: `sizes` is this call's, and in this version of the interface it is as large as the library has it.
    let status = unsafe { span_struct_sizes(&mut sizes) };
    debug_assert_eq!(status, OK);
    compare(&sizes)
}

/// Each size in the library beside the one here. It tells none of `SpanNote`, `SpanHeading` and `SpanSizes`: those stand
/// for what the version does, which rises where they change. `tests/header.rs` compares all with the header.
fn compare(there: &SpanSizes) -> Result<(), Error> {
    same(Differing::Limits, there.limits, size_of::<SpanLimits>() as u32)?;
    same(Differing::Layer, there.layer, size_of::<SpanLayer>() as u32)?;
    same(Differing::Rule, there.rule, size_of::<SpanRule>() as u32)?;
    same(Differing::Meta, there.meta, size_of::<SpanMeta>() as u32)?;
    same(Differing::Field, there.field, size_of::<SpanField>() as u32)?;
    same(Differing::Found, there.found, size_of::<SpanFound>() as u32)?;
    same(Differing::Held, there.held, size_of::<SpanHeld>() as u32)?;
    same(Differing::Counts, there.counts, size_of::<SpanCounts>() as u32)
}

fn same(what: Differing, library: u32, package: u32) -> Result<(), Error> {
    if library == package {
        Ok(())
    } else {
        Err(Error::OtherLibrary { what, library, package })
    }
}

#[cfg(test)]
mod tests {
    use super::{check, compare, same, SpanSizes};
    use crate::error::Differing;

    const SIZES: SpanSizes = SpanSizes {
        limits: 20,
        layer: 12,
        rule: 8,
        meta: 12,
        field: 8,
        found: 24,
        held: 16,
        counts: 40,
    };

    #[test]
    fn the_library_is_the_one_of_the_header() {
        assert_eq!(check(), Ok(()));
        assert_eq!(compare(&SIZES), Ok(()));
    }

    #[test]
    fn another_library_is_refused_with_both_numbers() {
        let text = |refused: Result<(), crate::Error>| refused.expect_err("they differ").to_string();
        assert_eq!(
            text(same(Differing::Version, 3, 2)),
            "other library: its version is 3, and this package was written for 2; \
             build both of the same sources by `rust/build`"
        );
        let others = [
            ("SpanLimits", SpanSizes { limits: 0, ..SIZES }),
            ("SpanLayer", SpanSizes { layer: 0, ..SIZES }),
            ("SpanRule", SpanSizes { rule: 0, ..SIZES }),
            ("SpanMeta", SpanSizes { meta: 0, ..SIZES }),
            ("SpanField", SpanSizes { field: 0, ..SIZES }),
            ("SpanFound", SpanSizes { found: 0, ..SIZES }),
            ("SpanHeld", SpanSizes { held: 0, ..SIZES }),
            ("SpanCounts", SpanSizes { counts: 0, ..SIZES }),
        ];
        for (name, sizes) in others {
            let text = text(compare(&sizes));
            assert!(
                text.starts_with(&format!("other library: its size of {name} is 0, and ")),
                "{text}"
            );
        }
    }
}
