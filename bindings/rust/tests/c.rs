// SPDX-License-Identifier: Apache-2.0
//! The C header and its test, over the archive that this crate links.

use std::process::Command;

#[test]
fn the_c_test_passes() {
    let program = concat!(env!("CARGO_TARGET_TMPDIR"), "/tariff-c-test");
    let source = concat!(env!("CARGO_MANIFEST_DIR"), "/../c/test.c");
    let archive = concat!(env!("TARIFF_LIB_FOLDER"), "/libtariff.a");
    let compiled = Command::new("cc")
        .args(["-std=c11", "-Wall", "-Wextra", "-Werror", "-O2"])
        .args(["-o", program, source, archive])
        .status();
    assert!(compiled.expect("a C compiler").success());
    let done = Command::new(program).output().expect("a program");
    let said = String::from_utf8_lossy(&done.stdout);
    assert!(done.status.success(), "{said}");
}
