"""Makes the library hw_c for WebAssembly with 64-bit memory, from the module that the toolchain hands to clang.

The module says nothing about x86-64 that matters here. Its exports are made visible, its target is exchanged, and it is
linked with bindings/js/heap.c. What was made stands in out/page/, under the sum of all that it was made of."""

import contextlib
import os
import re
import shutil
import tempfile

from bindings.archive import command
from bindings.unproved_archive import exports, module_of, visible
from look.build import BuildError, ended, keeping, ran
from look.kit import LINE, toolchain
from look.sources import ROOT, sum_of_file, sum_of_proofs, sum_of_sources

CRATE = "hw_c"
HEAP = f"{ROOT}/bindings/js/heap.c"
KEPT = f"{ROOT}/out/page"
LAYOUT = "e-m:e-p:64:64-p10:8:8-p20:8:8-i64:64-i128:128-n32:64-S128-ni:1:10:20"
TRIPLE = "wasm64-unknown-unknown"
# What the processor's attributes are called in a module for x86-64.
OF_PROCESSOR = (
    r' sanitize_address| "(target-cpu|target-features|tune-cpu|frame-pointer|probe-stack|stack-probe-size)"="[^"]*"'
)
OF_HEAP = ["hw_take", "hw_give", "hw_heap_limit"]
FOR_TESTS = ["hw_resize", "hw_wide"]
STACK = 1 << 20


def for_browsers(lines):
    """The lines of a module for another target."""
    for line in lines:
        if line.startswith("target datalayout"):
            line = f'target datalayout = "{LAYOUT}"\n'
        elif line.startswith("target triple"):
            line = f'target triple = "{TRIPLE}"\n'
        elif line.startswith("attributes #"):
            line = re.sub(OF_PROCESSOR, "", line).replace("= { }", "= { nounwind }")
        yield line


def compiled_heap(kit, work):
    """The allocator as an object file."""
    clang, made = f"{kit}/toolchain/bin/clang", f"{work}/heap.o"
    words = [clang, f"--target={TRIPLE}", "-mbulk-memory", "-O2", "-Wall", "-Werror", "-ffreestanding", "-fno-builtin"]
    ran([*words, "-c", HEAP, "-o", made])
    return made


def linked(kit, objects, names, made):
    """Links the object files to a module that has these exports and no imports."""
    # The linker is in the kit's clang, which looks at the name that it is called by.
    words = ["wasm-ld", "-mwasm64", "--strip-all", "--no-entry", "--gc-sections", "-z", f"stack-size={STACK}"]
    words += [*(f"--export={it}" for it in names), *objects, "-o", made]
    ran(words, executable=f"{kit}/toolchain/bin/clang")
    return made


def webassembly(kit, module, names, work, is_proved):
    """Compiles a module of hw_c for WebAssembly, links it with the allocator, and returns the file. A module that was
    proved as a library shows its exports already."""
    clang = f"{kit}/toolchain/bin/clang"
    words = [clang, "--target=x86_64-unknown-linux-gnu", "-Wno-everything", "-O0", "-S", "-emit-llvm", "-x", "ir"]
    ran([*words, module, "-o", f"{work}/text.ll"])
    with open(f"{work}/text.ll", encoding="utf-8") as it, open(f"{work}/browser.ll", "w", encoding="utf-8") as to:
        to.writelines(for_browsers(it if is_proved else visible(it, CRATE, names)))
    words = [clang, f"--target={TRIPLE}", "-mbulk-memory", "-msimd128", "-O2", "-Wno-everything", "-c", "-x", "ir"]
    ran([*words, f"{work}/browser.ll", "-o", f"{work}/hw_c.o"])
    objects = [f"{work}/hw_c.o", compiled_heap(kit, work)]
    return linked(kit, objects, [*names, *OF_HEAP], f"{work}/highway.wasm")


def names_of(crate):
    """The names of the library's exports."""
    with open(f"{crate.folder}/src/lib.rt", encoding="utf-8") as it:
        return list(exports(it.read()))


def proved_module(rtlib, crate, work):
    """Proves the library over the proved ones below it, and returns the module that was handed to clang."""
    lacking = [it.name for it in crate.below() if not os.path.isfile(f"{it.rlib}/format")]
    if lacking:
        raise BuildError(f"these libraries aren't built, so run `rt ci` first: {' '.join(lacking)}")
    words = command(rtlib, crate)
    words[words.index("--toolchain") + 1] = keeping(rtlib.KIT, work, goes_on=True)
    words[words.index("-o") + 1] = f"{work}/libhw_c.a"
    status, said = ended(words, None, cwd=crate.folder, env={**os.environ, "TMPDIR": work})
    if status or "\nlogic=proved " not in said:
        raise BuildError(f"{crate.name} wasn't proved, and ended with {status}:\n{said[-2000:]}")
    modules = [f"{work}/saved/{name}" for name in os.listdir(f"{work}/saved")]
    if not modules:
        raise BuildError("no module was handed to clang: this toolchain builds in another way")
    return max(modules, key=os.path.getsize)


def state(is_proved):
    """The sum of the sources, the file of the module that they make, and that of the module for WebAssembly."""
    sources = sum_of_proofs(CRATE) if is_proved else sum_of_sources(CRATE)
    own = sum_of_file(HEAP)[:8] + sum_of_file(os.path.realpath(__file__))[:8]
    path = f"{KEPT}/{'proved' if is_proved else 'unproved'}-{sources[:24]}"
    return sources, f"{path}.module", f"{path}-{own}.wasm"


def forget_others(paths):
    """Removes what was kept of other sources, or of another way to compile."""
    kind = os.path.basename(paths[0]).split("-")[0]
    with contextlib.suppress(OSError):
        for it in os.scandir(KEPT):
            if it.name.startswith(f"{kind}-") and it.path not in paths:
                os.remove(it.path)


def read_module(rtlib, is_proved, to, stages):
    """Reads hw_c, or proves it, and keeps the module that is handed to clang. It doesn't change with the way in which it
    is compiled then."""
    crate = crate_of(rtlib)
    with tempfile.TemporaryDirectory(prefix="page-") as work:
        with stages.stage(f"{CRATE} is {'proved' if is_proved else 'read without a proof'}"):
            found = proved_module(rtlib, crate, work) if is_proved else module_of(rtlib, crate, work)[0]
        shutil.copy(found, f"{to}.new")
    os.replace(f"{to}.new", to)


def crate_of(rtlib):
    return next(it for it in rtlib.crates_below(ROOT) if it.name == CRATE)


def made(is_proved, stages):
    """Returns the file of the module for WebAssembly, which is built where it isn't kept, and the sum of its sources."""
    sources, module, path = state(is_proved)
    if os.path.isfile(path):
        return path, sources
    rtlib = toolchain()
    if rtlib is None:
        raise BuildError(f"there is no toolchain here that this script knows: {LINE} is wanted")
    os.makedirs(KEPT, exist_ok=True)
    if not os.path.isfile(module):
        read_module(rtlib, is_proved, module, stages)
    with tempfile.TemporaryDirectory(prefix="page-") as work:
        with stages.stage("compiling it for WebAssembly"):
            names = names_of(crate_of(rtlib))
            shutil.copy(webassembly(rtlib.KIT, module, names, work, is_proved), f"{path}.new")
    os.replace(f"{path}.new", path)
    forget_others([module, path])
    return path, sources


def heap_alone(work):
    """The allocator as a module of its own, for its tests; None where there is no toolchain."""
    rtlib = toolchain()
    if rtlib is None:
        return None
    return linked(rtlib.KIT, [compiled_heap(rtlib.KIT, work)], [*OF_HEAP, *FOR_TESTS], f"{work}/heap.wasm")
