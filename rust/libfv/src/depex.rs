// SPDX-License-Identifier: BSD-2-Clause-Patent
//! Dependency expressions: [`evaluate`].

use crate::call::address;
use crate::error::check;
use crate::row::kinds;
use crate::{Error, Guid};
use libfv_sys as sys;

/// The phase that a dependency expression is for.
#[derive(Clone, Copy, Debug, PartialEq, Eq, Hash)]
pub enum Phase {
    /// PEI.
    Pei = sys::FV_PHASE_PEI as isize,
    /// DXE and MM.
    Dxe = sys::FV_PHASE_DXE as isize,
}

kinds! {
    /// The value of a dependency expression.
    Truth, "truth value":
    /// The expression is false.
    False = FV_DEPEX_FALSE,
    /// The expression is true.
    True = FV_DEPEX_TRUE,
    /// The expression is BEFORE or AFTER, which only order a driver and have no truth value.
    Order = FV_DEPEX_ORDER,
}

/// Evaluates the dependency expression with which the bytes begin, as if exactly these GUIDs were
/// installed. Bytes after its END op are not read.
///
/// ```
/// use fv::depex::{evaluate, Phase, Truth};
///
/// let guid = fv::Guid::from_bytes_le([10; 16]);
/// let expression = [&[2][..], &guid.to_bytes_le(), &[5, 8]].concat(); // PUSH guid NOT END
/// assert_eq!(evaluate(&expression, Phase::Dxe, &[])?, Truth::True);
/// assert_eq!(evaluate(&expression, Phase::Dxe, &[guid])?, Truth::False);
/// # Ok::<(), fv::Error>(())
/// ```
///
/// # Errors
///
/// [`Error::Rejected`] with the first fault, whose kind is one of the `Depex..` of
/// [`FaultKind`](crate::FaultKind), or [`Error::OutOfMemory`].
pub fn evaluate(expression: &[u8], phase: Phase, installed: &[Guid]) -> Result<Truth, Error> {
    let (mut value, mut fault) = (sys::FV_DEPEX_FALSE, sys::fv_fault::default());
    // SAFETY: the expression and the GUIDs are slices, a Guid has the layout of fv_guid, and the
    // results are variables of this function.
    let result = unsafe {
        sys::fv_depex_evaluate(
            address(expression),
            expression.len(),
            phase as u32,
            installed.as_ptr().cast(),
            installed.len(),
            &mut value,
            &mut fault,
        )
    };
    check(result, fault)?;
    Ok(Truth::of(value))
}
