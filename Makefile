# Proves the crates, and builds what `make help` lists. docs/WORKING.md has more.
#
# A crate is proved over what the crates below it state, not over their proofs, as `rt verdict` does
# it. It is proved again where the content of its files, or of those of a crate below it, has
# changed, or the kit; times of files don't matter.
.DEFAULT_GOAL := program
.DELETE_ON_ERROR:
# It may lead to another clone.
unexport CDPATH

# For which machine the library is, and by which of the kit's compilers: amd64 or arm64, llvm or
# rattle.
TARGET := amd64
BACKEND := llvm
# By how many processes a crate is proved; more than eight gain nothing.
JOBS ?= $(shell n=$$(nproc) && echo $$((n < 8 ? n : 8)))

triple_amd64 := x86_64-unknown-linux-gnu
triple_arm64 := aarch64-unknown-linux-gnu
triple := $(or $(triple_$(TARGET)),$(error TARGET is neither amd64 nor arm64))
$(if $(filter llvm rattle,$(BACKEND)),,$(error BACKEND is neither llvm nor rattle))
built := $(subst -amd64,,$(subst -llvm,,out/release-$(TARGET)-$(BACKEND)))

# There are other programs of this name.
kit := $(shell kit=$$(readlink -f "$$(command -v rt)") && kit=$${kit%/bin/rt} && \
    [ -e "$$kit/KIT-ID" ] && echo "$$kit")
sums := $(shell release/sums)
$(if $(filter 0,$(.SHELLSTATUS)),,$(error release/sums has failed))
crates := $(foreach it,$(sums),$(firstword $(subst =, ,$(it))))
programs := $(filter $(crates),$(patsubst crates/%/src/main.rt,%,$(wildcard crates/*/src/main.rt)))
libraries := $(filter-out $(programs) vicinity_c,$(crates))

# What is made of a crate, the file that says from what it was made, and whether that is still so.
# rt stops at code outside of folders crates/*/out/rlib. It empties those of libraries, and under
# `rt verdict` this one.
kept := crates/vicinity/out/rlib
archive := crates/vicinity_c/out/$(triple)-$(BACKEND)/libvicinity_c.a
made = $(if $(filter $1,$(programs)),crates/$1/out/$1,$(if \
    $(filter $1,vicinity_c),$(archive),$(kept)/$1.rlib))
stamp = $(kept)/$1$(if $(filter $1,vicinity_c),-$(triple)-$(BACKEND)).sum
from = $(filter $1=%,$(sums)) $(if $(kit),$(file <$(kit)/KIT-ID))
is_made = [ -e $(made) ] && [ ! $(made) -nt $(stamp) ] && grep -qsF '$(from)' $(stamp)
stale := $(shell $(foreach it,$(crates),$(call is_made,$(it)) || echo $(it);))

# The command that proves a crate and builds it, in its folder. What is proved for one compiler or
# machine is taken over for the others.
uses = $(shell sed -nE 's/^$1( staticlib)?://p' crates.txt)
rattle = $(kit)/bin/rattle build src/$(if $(filter $1,$(programs)),main,lib).rt --crate-name $1 \
    --links $1= --jobs $(JOBS) -L dependency=$(kit)/rlibs -L dependency=../../$(kept) \
    $(foreach it,std $(uses),--extern $(it)=$(if \
        $(filter $(it),$(crates)),../../$(kept),$(kit)/rlibs)/$(it).rlib) \
    --antt-project $(kit)/rattle/logic/antt-project.json --logic-built $(kit)/logic_built
static = $(rattle) --target $(triple) --backend $(BACKEND) --crate-type staticlib \
    --incremental out/proved
native = --target $(triple_amd64) --toolchain $(kit)/toolchain
$(libraries): command = $(rattle) --statements -o ../../$(made)
$(programs): command = $(rattle) --backend llvm $(native) -o out/$1.o && \
    $(kit)/bin/rattle-link $(native) -o out/$1.new out/$1.o $(kit)/c/libos_c.a \
        $(kit)/c/liblibc_c.a && mv out/$1.new out/$1
vicinity_c: command = $(static) --toolchain $(kit)/toolchain -o ../../$(archive)

.PHONY: program release definitions help $(crates)
program: vicinity ## crates/vicinity/out/vicinity (a crate's name is a target too)

# A crate that is made as it stands asks for none of those below it.
$(foreach it,$(stale),$(eval $(it): $(filter $(crates),$(call uses,$(it)))))
$(foreach it,$(filter-out $(libraries),$(stale)),$(eval $(call made,$(it)): $(it) ;))
$(stale):
	@$(if $(kit),release/prove $@ $(call made,$@) $(call stamp,$@) \
	    '$(call from,$@)' '$(call command,$@)', \
	    echo "$@ isn't built, and the Rattle kit (rt), which builds it, isn't here" >&2 && exit 1)

release: $(built)/vicinity $(built)/libvicinity.a ## with TARGET=arm64, BACKEND=rattle: out/release*
$(built)/libvicinity.a: $(archive) include/vicinity.h VERSION release/c_library \
    release/exports.map release/heap.c release/target
	@mkdir -p $(@D)
	flock $(@D) release/c_library $(@D) $< $(TARGET)

ifeq ($(TARGET),amd64)
$(built)/vicinity: crates/vicinity/out/vicinity
	install -D $< $@
else
# The kit links no program for arm64: there it is that of commands/, in C over the library.
$(built)/vicinity: $(built)/libvicinity.a $(wildcard commands/*)
	aarch64-linux-gnu-gcc -std=c99 -O2 -Wall -Wextra -Wpedantic -Werror -D_FORTIFY_SOURCE=2 \
	    -fstack-protector-strong -fPIE -pie -Wl,-z,relro,-z,now -I$(@D) commands/*.c $< -o $@
endif

definitions: ## out/DEFINITIONS.md, what the contracts behind docs/HEADLINE.md rest on
	PYTHONPATH=tests python3 -m helpers.headline

help: ## these lines
	@sed -nE 's/^([a-z]+):.*## (.*)/\1\t\2/p' $(MAKEFILE_LIST)

ifeq ($(built),out/release)
include targets/rules.mk
endif
