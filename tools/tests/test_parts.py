"""The parts that a module is cut into, and that a check that does not hold ends the program."""
import os
import shutil
import subprocess
import tempfile
import unittest

import kit
import llvm_parts
import quick_build

HEAD = """; ModuleID = 'm'
target triple = "x86_64-unknown-linux-gnu"

@static.0 = private unnamed_addr constant [1 x i8] c"x", align 1

"""
CHECKED = """define internal void @"rattle-llvm-checks::Overflow"(i8 %a0) {
start:
  ret void
}
define internal i64 @"f::<#1>"(i64 %a0) {
start:
  %r0 = icmp ne i64 %a0, 7
  %r1 = zext i1 %r0 to i8
  call void @"rattle-llvm-checks::Overflow"(i8 %r1)
  ret i64 %a0
}
define internal i64 @"f::<#2>"(i64 %a0) {
start:
  %r0 = icmp ne i64 %a0, 7
  %r1 = zext i1 %r0 to i8
  call void @"rattle-llvm-checks::Overflow"(i8 %r1)
  ret i64 %a0
}
define internal i64 @"g::<#1>"(i64 %a0) {
start:
  %r0 = call i64 @"f::<#1>"(i64 %a0)
  ret i64 %r0
}
define internal i64 @"g::<#2>"(i64 %a0) {
start:
  %r0 = call i64 @"f::<#2>"(i64 %a0)
  ret i64 %r0
}
define internal void @unreached() {
start:
  ret void
}
define i32 @main() {
start:
  %r0 = call i64 @"g::<#1>"(i64 GIVEN)
  %r1 = call i64 @"g::<#2>"(i64 GIVEN)
  ret i32 0
}

attributes #2 = { nounwind }
!0 = !{}
"""


def module(given: int = 3) -> llvm_parts.Module:
    made = llvm_parts.Module(HEAD + CHECKED.replace("GIVEN", str(given)))
    made.drop_unreached()
    made.merge_equal()
    return made


def test_what_is_not_reached_is_dropped_and_what_is_equal_is_merged() -> None:
    names = sorted(module().functions)
    assert names == ['"f::<#1>"', '"g::<#1>"', '"rattle-llvm-checks::Overflow"', "main"], names
    assert module().functions["main"].text.count('@"g::<#1>"') == 2


def test_a_module_of_another_form_is_refused() -> None:
    for text in (HEAD, HEAD + "@shared = global i8 0\n" + CHECKED, "}\n}\n"):
        try:
            llvm_parts.Module(text)
        except llvm_parts.Unreadable:
            continue
        raise AssertionError(f"was read: {text[-60:]!r}")


def test_large_functions_stand_in_one_part_and_small_ones_where_they_are_called() -> None:
    small = llvm_parts.SMALL
    llvm_parts.SMALL = 60
    try:
        texts = [it.text() for it in module().parts(3)]
    finally:
        llvm_parts.SMALL = small
    for name in ('i64 @"f::<#1>"', 'i64 @"g::<#1>"'):
        assert sum(f"define hidden {name}" in it for it in texts) == 1, texts
    assert sum('declare hidden i64 @"f::<#1>"' in it for it in texts) == 1, texts
    assert all('define internal i64 @"f::<#1>"' in it.text() for it in module().parts(1)), "a small one is not inside"
    assert sum("define i32 @main" in it for it in texts) == 1


def compiled(folder: str, given: int) -> str:
    """The module as the kit's tools make it."""
    rattle, objects = kit.Kit.find(), []
    for number, part in enumerate(module(given).parts(2)):
        with open(f"{folder}/{number}.ll", "w") as out:
            out.write(part.text())
        objects.append(f"{folder}/{number}.o")
        words = [f"{rattle.folder}/toolchain/bin/clang", *quick_build.FLAGS, quick_build.LEVEL]
        subprocess.run([*words, f"{folder}/{number}.ll", "-o", objects[-1]], check=True)
    link = [f"{rattle.folder}/bin/rattle-link", *quick_build.TARGET, "--toolchain", f"{rattle.folder}/toolchain"]
    libraries = [f"{rattle.folder}/c/{name}" for name in ("libos_c.a", "liblibc_c.a")]
    subprocess.run([*link, "-o", f"{folder}/out", *objects, *libraries], check=True, capture_output=True)
    return f"{folder}/out"


def test_a_check_that_does_not_hold_ends_the_program_with_words_and_a_status_of_its_own() -> None:
    if not shutil.which("rt"):
        raise unittest.SkipTest("there is no kit")
    with tempfile.TemporaryDirectory(prefix="parts-") as folder:
        ran = subprocess.run([compiled(folder, 3)], capture_output=True, text=True)
        assert (ran.returncode, ran.stdout, ran.stderr) == (0, "", ""), ran
        ran = subprocess.run([compiled(folder, 7)], capture_output=True, text=True)
        assert (ran.returncode, ran.stdout, ran.stderr) == (llvm_parts.BROKEN_STATUS, "", llvm_parts.BROKEN_WORDS), ran
