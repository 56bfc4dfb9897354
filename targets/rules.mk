# The library as WebAssembly, the page that judges by it, and the library and the commands for
# Windows: all of the LLVM module that the kit makes for x86-64 Linux.
module := out/module/vicinity_c.ll
objects := out/module
wasm := out/wasm/vicinity.wasm
heap := targets/wasm/heap.c
windows := out/windows
clang := $(kit)/toolchain/bin/clang
# as the kit calls clang
common := -ffunction-sections -fdata-sections -mllvm -trap-unreachable --no-default-config \
    -no-canonical-prefixes -fintegrated-cc1 -fno-crash-diagnostics -Werror
# but for what it says of code for x86-64 alone: here constants are taken out of loops
for_wasm64 := --target=wasm64-unknown-unknown -mcpu=lime1 -mllvm -expand-div-rem-bits=64 \
    -mllvm -expand-fp-convert-bits=64 $(common)
# but for -fPIC, which each object for Windows is
for_windows := --target=x86_64-w64-windows-gnu -march=x86-64 -mllvm -no-trap-after-noreturn \
    -mllvm -no-x86-call-frame-opt -mllvm -disable-machine-licm -mllvm -disable-postra-machine-licm \
    -mllvm -sink-common-insts=false $(common)

.PHONY: wasm page windows
wasm: $(wasm) ## out/wasm/vicinity.wasm (needs Debian's binaryen)
page: out/web/vicinity.html ## out/web/vicinity.html, the page that judges by it
windows: $(windows)/vicinity.exe ## out/windows (needs Debian's gcc-mingw-w64-x86-64)

$(module): $(archive) targets/module
	targets/module $@ $< '$(call static,vicinity_c)'

$(objects)/wasm64.o $(objects)/windows.o: $(objects)/%.o: $(module) targets/retarget
	@mkdir -p $(@D)
	targets/retarget $* $< $(@:.o=.ll)
	$(clang) $(for_$*) -c -x ir -O3 $(@:.o=.ll) -o $@

# wasm-opt turns the addresses of its memory into 32 bits, for engines without memory64.
$(wasm): $(objects)/wasm64.o $(heap)
	@mkdir -p $(@D)
	$(clang) $(for_wasm64) -c -O2 -std=c11 -ffreestanding -nostdinc -Wall -Wextra $(heap) -o $@.o
	rm -f $@.a
	$(kit)/toolchain/bin/llvm-ar rcsD --format=gnu $@.a $< $@.o
	$(kit)/bin/rattle-link --target wasm64-unknown-unknown --toolchain $(kit)/toolchain -o $@.64 $@.a
	wasm-opt --enable-memory64 --enable-bulk-memory --enable-sign-ext \
	    --enable-nontrapping-float-to-int --enable-mutable-globals --memory64-lowering -O2 \
	    --strip-debug --strip-producers $@.64 -o $@

out/web/vicinity.html: $(wasm) $(wildcard web/* web/*/*) examples/unfinished-count.log
	web/build $@ $<

$(windows)/vicinity.exe: $(objects)/windows.o targets/windows/link targets/windows/start.c \
    include/vicinity.h release/heap.c $(wildcard commands/*)
	targets/windows/link $(windows) $<
