# The proved library for other platforms, included by the Makefile.
#
#   make targets          target/windows-x86_64/{hocsimbur.dll, hocsimbur.lib}
#                         target/linux-aarch64/{libhocsimbur.so.VERSION, libhocsimbur.a}
#                         target/wasm32/{hocsimbur.wasm, hocsimbur.mjs, hocsimbur.d.mts, package.json, libhocsimbur.a}
#   make check-targets    each is asked the same questions as the native library, if this machine can run it
#
# All of them come from the bitcode that the kit's clang is given for the native archive, that is, what rattle lowers the proved crates to.
# Compiler and linkers are the kit's: its clang is also each of LLVM's tools, chosen by the first word (`llvm wasm-ld ..`).
KIT := $(patsubst %/bin/rt,%,$(realpath $(shell command -v rt)))
KIT_BIN = $(KIT)/toolchain/bin
BITCODE = target/bitcode
LLVM = $(BITCODE)/llvm
MODULES = c_entry c_questions c_lines
WINDOWS = target/windows-x86_64
AARCH64 = target/linux-aarch64
WASM = target/wasm32
# as rattle calls it, except for the target and -fPIC; a warning, such as one about the module's triple, is an error
COMPILE = $(KIT_BIN)/clang -O3 -ffunction-sections -fdata-sections -mllvm -trap-unreachable -mllvm -no-trap-after-noreturn \
    -mllvm -no-x86-call-frame-opt -mllvm -disable-machine-licm -mllvm -disable-postra-machine-licm -mllvm -sink-common-insts=false \
    --no-default-config -no-canonical-prefixes -fintegrated-cc1 -fno-crash-diagnostics -Werror -c -x ir

# the one list of wrong builds
WRONG_BUILDS := $(shell sed -n 's/^\(c_[a-z/-]*\) .*/\1/p' host/wrong-builds.txt)

.PHONY: targets check-targets wrong-builds wrong-build-names
.SECONDARY: $(foreach module, $(MODULES), $(addprefix $(BITCODE)/$(module)., bc ll parts.ll windows.ll aarch64.ll wasm.ll))

targets: $(WINDOWS)/hocsimbur.dll $(AARCH64)/$(SHARED) $(AARCH64)/libhocsimbur.a \
    $(addprefix $(WASM)/, hocsimbur.wasm hocsimbur.mjs hocsimbur.d.mts package.json libhocsimbur.a)

$(LLVM):
	mkdir -p $(BITCODE)
	ln -sf $(KIT_BIN)/clang $@

# The kit's toolchain by links, except that its clang first keeps a copy of the bitcode; rattle calls it with no environment.
target/toolchain/bin/clang: host/targets.mk
	rm -rf target/toolchain
	mkdir -p target/toolchain/bin $(BITCODE)
	ln -s $(filter-out %/bin, $(wildcard $(KIT)/toolchain/*)) target/toolchain
	ln -s $(filter-out %/clang, $(wildcard $(KIT_BIN)/*)) target/toolchain/bin
	printf '#!/bin/sh\n/bin/cp module.bc "%s" && exec "%s" "$$@"\n' $(abspath $(BITCODE)/module.bc) $(KIT_BIN)/clang > $@
	chmod +x $@

# the archive for this machine, and the bitcode that it was made of
target/staticlib/lib%.a $(BITCODE)/%.bc: target/proved target/toolchain/bin/clang
	mkdir -p target/staticlib
	rm -f $(BITCODE)/module.bc
	cd crates/$*_c && $(call BUILD,$*_c,lib) --crate-type staticlib --links $*_c= --toolchain $(abspath target/toolchain) \
	    -o $(abspath target/staticlib/lib$*.a)
	mv $(BITCODE)/module.bc $(BITCODE)/$*.bc

# as text, not optimised: the original that check-targets.sh compares each platform's text with
$(BITCODE)/%.ll: $(BITCODE)/%.bc
	$(KIT_BIN)/clang -S -emit-llvm -Xclang -disable-llvm-passes -x ir $< -o $@

# with what pointers of four bytes need, and checked for it
$(BITCODE)/%.parts.ll: $(BITCODE)/%.ll host/apart.py host/layout.py
	$(PYTHON) host/apart.py $< $@.new
	$(PYTHON) host/layout.py $@.new
	mv $@.new $@

# For each platform the same text except for its head and the lines of attributes, and on WebAssembly for what host/apart.py changes.
# The data layout is dropped (clang takes the target's); triple and processor become the target's. Windows probes the stack by a call, and
# would take "inline-asm" for that function's name; its x64 ABI wants unwind data for every function that moves the stack pointer, which
# `nounwind` alone leaves out.
HEAD = -e '/^target datalayout = /d' -e 's/^target triple = .*/target triple = "$(1)"/'
ON_WINDOWS = x86_64-pc-windows-msvc19.33.0
ON_AARCH64 = aarch64-unknown-linux-gnu
ON_WASM = wasm32-unknown-unknown

$(BITCODE)/%.windows.ll: $(BITCODE)/%.ll host/targets.mk
	sed $(call HEAD,$(ON_WINDOWS)) -e 's/ "probe-stack"="inline-asm"//' -e 's/^attributes #[0-2] = {\( alwaysinline\| noinline\)* nounwind/& uwtable/' $< > $@

$(BITCODE)/%.aarch64.ll: $(BITCODE)/%.ll host/targets.mk
	sed $(call HEAD,$(ON_AARCH64)) -e 's/ "target-cpu"="x86-64[^"]*"//' $< > $@

$(BITCODE)/%.wasm.ll: $(BITCODE)/%.parts.ll host/targets.mk
	sed $(call HEAD,$(ON_WASM)) -e 's/ "target-cpu"="x86-64[^"]*"//' -e 's/ "probe-stack"="inline-asm"//' $< > $@

$(BITCODE)/%.windows.o: $(BITCODE)/%.windows.ll
	$(COMPILE) --target=$(ON_WINDOWS) $< -o $@

$(BITCODE)/%.aarch64.o: $(BITCODE)/%.aarch64.ll
	$(COMPILE) --target=$(ON_AARCH64) -fPIC $< -o $@

$(BITCODE)/%.wasm.o: $(BITCODE)/%.wasm.ll
	$(COMPILE) --target=$(ON_WASM) $< -o $@

# No C runtime and no entry point: the DLL imports functions of ntdll.dll, which every process has.
$(WINDOWS)/hocsimbur.dll: $(MODULES:%=$(BITCODE)/%.windows.o) host/symbols.txt host/hocsimbur.rc.in include/hocsimbur.h $(LLVM)
	mkdir -p $(WINDOWS)
	printf 'LIBRARY ntdll.dll\nEXPORTS\n__chkstk\nmemcpy\nmemmove\nmemset\n' > $(BITCODE)/ntdll.def
	(printf 'LIBRARY hocsimbur.dll\nEXPORTS\n' && cat host/symbols.txt) > $(BITCODE)/hocsimbur.def
	sed 's/@VERSION@/$(VERSION)/; s/@COMMAS@/$(subst .,$(comma),$(VERSION))/' host/hocsimbur.rc.in > $(BITCODE)/hocsimbur.rc
	$(LLVM) dlltool -m i386:x86-64 -d $(BITCODE)/ntdll.def -l $(BITCODE)/ntdll.lib
	$(LLVM) rc /no-preprocess /fo $(BITCODE)/hocsimbur.res $(BITCODE)/hocsimbur.rc
	$(LLVM) lld-link /dll /noentry /nodefaultlib /Brepro /machine:x64 /def:$(BITCODE)/hocsimbur.def /implib:$(@:.dll=.lib) /out:$@ \
	    $(filter %.o, $^) $(BITCODE)/hocsimbur.res $(BITCODE)/ntdll.lib
comma = ,

$(AARCH64)/$(SHARED): $(MODULES:%=$(BITCODE)/%.aarch64.o) $(OUT)/hocsimbur.map $(LLVM)
	mkdir -p $(AARCH64)
	$(LLVM) ld.lld -shared -soname $(SONAME) --version-script=$(OUT)/hocsimbur.map -z text -z now --gc-sections --build-id=none \
	    $(filter %.o, $^) -o $@
	ln -sf $(SHARED) $(AARCH64)/$(SONAME)
	ln -sf $(SONAME) $(AARCH64)/libhocsimbur.so

# The stack stands first, so that a call that needs more of it traps below address 0 and overwrites nothing. At most 1 GiB of memory, so
# that no length or offset of a buffer in it passes 31 bits.
STACK_BYTES = 262144
LINK_WASM = $(LLVM) wasm-ld --no-entry --stack-first -z stack-size=$(STACK_BYTES) --max-memory=1073741824 --strip-debug \
    --export=__heap_base $(addprefix --export=, $(shell cat host/symbols.txt))

$(WASM)/hocsimbur.wasm: $(MODULES:%=$(BITCODE)/%.wasm.o) host/symbols.txt $(LLVM)
	mkdir -p $(WASM)
	$(LINK_WASM) $(filter %.o, $^) -o $@

$(WASM)/%: javascript/% include/hocsimbur.h
	mkdir -p $(WASM)
	sed 's/@VERSION@/$(VERSION)/' $< > $@

# for programs in C
$(AARCH64)/libhocsimbur.a: $(MODULES:%=$(BITCODE)/%.aarch64.o) $(LLVM)
$(WASM)/libhocsimbur.a: $(MODULES:%=$(BITCODE)/%.wasm.o) $(LLVM)
$(AARCH64)/libhocsimbur.a $(WASM)/libhocsimbur.a:
	mkdir -p $(@D)
	rm -f $@
	$(LLVM) ar rcsD $@ $(filter %.o, $^)

# hocsimbur.wasm with one instruction changed and one module not optimised, which takes more stack; and with none changed
wrong-builds: $(WRONG_BUILDS:%=$(BITCODE)/wrong/%.wasm) $(BITCODE)/wrong/short-stack.wasm $(BITCODE)/wrong/none-changed.wasm
$(BITCODE)/wrong/c_%.wasm $(BITCODE)/wrong/none-changed.wasm: STACK_BYTES = 4194304
$(BITCODE)/wrong/%.wasm: host/wrong-builds.txt host/wrong_build.py $(MODULES:%=$(BITCODE)/%.wasm.o) $(LLVM)
	mkdir -p $(@D)
	$(PYTHON) host/wrong_build.py $* $(BITCODE)/$(*D:%/=%).wasm.ll > $(@:.wasm=.ll)
	$(COMPILE) -O0 --target=$(ON_WASM) $(@:.wasm=.ll) -o $(@:.wasm=.o)
	$(LINK_WASM) $(@:.wasm=.o) $(patsubst %, $(BITCODE)/%.wasm.o, $(filter-out $(*D:%/=%), $(MODULES))) -o $@

$(BITCODE)/wrong/none-changed.wasm: $(MODULES:%=$(BITCODE)/%.wasm.ll) $(LLVM)
	mkdir -p $(@D)
	for module in $(MODULES); do \
	    $(COMPILE) -O0 --target=$(ON_WASM) $(BITCODE)/$$module.wasm.ll -o $(@D)/$$module.o || exit 1; \
	done
	$(LINK_WASM) $(MODULES:%=$(@D)/%.o) -o $@

wrong-build-names:
	@echo $(WRONG_BUILDS)

# with too little stack for a summary, to see a trap
$(BITCODE)/wrong/short-stack.wasm: STACK_BYTES = 65536
$(BITCODE)/wrong/short-stack.wasm: $(MODULES:%=$(BITCODE)/%.wasm.o) $(LLVM)
	mkdir -p $(@D)
	$(LINK_WASM) $(filter %.o, $^) -o $@

check-targets: targets wrong-builds libraries
	bash host/check-targets.sh
