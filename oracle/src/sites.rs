//! The code of a diagnostic, from the place in the published sources that made it.

use std::panic::Location;

use purple_garden_frontend::diagnostic::Diagnostic;

/// The place of a `Diagnostic::new` or `Diagnostic::at_token`.
pub struct Site {
    /// file of the type checker
    pub file: &'static str,
    pub line: u32,
    /// code of document 01
    pub code: u32,
    /// how a message from there begins or, where a name stands first, what it contains
    wording: &'static str,
}

const fn lib(line: u32, code: u32, wording: &'static str) -> Site {
    Site {
        file: "lib.rs",
        line,
        code,
        wording,
    }
}

const fn err(line: u32, code: u32, wording: &'static str) -> Site {
    Site {
        file: "err.rs",
        line,
        code,
        wording,
    }
}

pub const SITES: [Site; 32] = [
    lib(274, 4, "Unsupported type "),
    lib(284, 5, "Incompatible types "),
    lib(299, 4, "Unsupported type "),
    lib(305, 5, "Incompatible types "),
    lib(320, 4, "Unsupported type "),
    lib(330, 5, "Incompatible types "),
    lib(347, 4, "Unsupported type "),
    lib(357, 5, "Incompatible types "),
    lib(393, 11, "Can not cast "),
    lib(
        418,
        14,
        "only package functions can be called through field syntax",
    ),
    lib(453, 16, "Call to undefined function `"),
    lib(538, 17, "Call to undefined function `"),
    lib(582, 19, "` requires "),
    lib(667, 1, "Can not infer the element type of an empty array"),
    lib(
        699,
        2,
        "Array members must all have the same type, expected ",
    ),
    lib(755, 3, "binding `"),
    lib(790, 6, "Unary \""),
    lib(819, 7, "RHS of let has to return a value, but it didnt"),
    lib(856, 8, "` is already defined"),
    lib(902, 9, "` should return "),
    lib(934, 12, " can not be indexed in this way"),
    lib(944, 13, " does not have a field called "),
    lib(977, 23, "Match conditions must be Bool, got "),
    lib(
        1002,
        24,
        "Match cases must resolve to the same type, but got ",
    ),
    lib(
        1018,
        25,
        "Import without any paths to import is considered invalid",
    ),
    lib(1035, 26, "Wasnt able to find a package named `"),
    err(41, 10, "Can not cast "),
    err(52, 15, "Can't find package `"),
    err(86, 18, "no specialisation of `"),
    err(108, 20, "` expected "),
    err(127, 21, "` can not bind "),
    err(133, 22, "` can not bind "),
];

/// The number in [`SITES`] of the place that made `diag`.
pub fn of(diag: &Diagnostic, at: &Location<'_>) -> Result<usize, String> {
    let file = at.file().replace('\\', "/");
    let found = SITES
        .iter()
        .position(|s| s.line == at.line() && file.ends_with(&format!("typecheck/src/{}", s.file)));
    let Some(number) = found else {
        return Err(format!("diagnostic from an unlisted place: {at}"));
    };
    let Site { code, wording, .. } = &SITES[number];
    let fits = if wording.starts_with(['`', ' ']) {
        diag.message.contains(wording)
    } else {
        diag.message.starts_with(wording)
    };
    if !fits {
        return Err(format!(
            "wording of {:?} does not fit code {code}",
            diag.message
        ));
    }
    Ok(number)
}
