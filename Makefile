# Which file stands on which. `make proved` proves and builds the programs and the library, where a file that they stand on
# has changed. `make library FOLDER=..`, `make install PREFIX=..` and `make dist FOLDER=..` write what users take; with
# `FROM=cargo` the first two prove nothing, and build by cargo. `make check` runs all tests.
SHELL := bash
MAKEFLAGS += -rR
unexport MAKEFLAGS MFLAGS passed
.SECONDEXPANSION:
.DELETE_ON_ERROR:

FOLDER := out
PREFIX := /usr/local
programs := $(foreach it,wgsl_check wgsl,crates/$(it)/out/$(it))
archive := crates/wgsl_c/out/libwgsl_c.a
tests := $(shell for it in tests/*; do [ ! -f "$$it" ] || [ ! -x "$$it" ] || echo "$$it"; done)

.PHONY: programs proved library install dist check can_link tests $(tests) again
proved: $(programs) $(archive)
programs: $(programs)

# The rows of crates.txt, each a word: `NAME:` and what the crate stands on, with commas between.
comma := ,
rows := $(shell sed -E 's/\#.*//; /:/!d; s/ staticlib//; s/[ ,]*:[ ,]*/:/; s/[ ,]+/,/g; s/,$$//' crates.txt)
row_of = $(subst :, ,$(subst $(comma), ,$(filter $1:%,$(rows))))
# The crates that one stands on, each once and behind those that it stands on itself, and then the crate.
once = $(if $1,$(firstword $1) $(call once,$(filter-out $(firstword $1),$1)))
crates_of = $(or $(of_$1),$(eval of_$1 := $(call once,$(foreach it,$(wordlist 2,99,$(row_of)),$(call crates_of,$(it))) \
    $(firstword $(row_of))))$(of_$1))

# The files that crates are proved from: no test, no document, and nothing that an editor leaves.
files := $(shell find crates/*/src crates/*/specs crates/*/proofs -name tests -prune -o \
    -type f -name '[!.]*' '(' -name '*.rt' -o -name '*.antt' ')' -print 2>/dev/null)
files_of = $(filter $(patsubst %,crates/%/%,$(crates_of)),$(files))

# What a crate stands on now, and what it stood on when it was built. What the gate built has no such list yet, and gets one.
now = $(filter $(patsubst %,%:%,$(crates_of)),$(rows)) $(files_of)
list = crates/$1/out/stands_on
was = $(file <$(list))
differing = $(filter-out $(was),$(now)) $(filter-out $(now),$(was))
needs = $(files_of) $(if $(wildcard $(list)),$(if $(strip $(differing)),again),$(shell echo '$(now)' 2>/dev/null >$(list)))

crate = $(word 2,$(subst /, ,$@))
sources := $(wildcard crates/*/src/main.rt)
$(archive) $(foreach it,$(sources:crates/%/src/main.rt=%),crates/$(it)/out/$(it)): $$(call needs,$$(crate))
	@scripts/prove $@ $(call crates_of,$(crate))
	@echo '$(call now,$(crate))' >$(call list,$(crate))

# Whether C compiles, and the folder can be written: before anything is proved for it.
can_link:
	@type ar objcopy >/dev/null && echo 'int it;' | $(or $(CC),cc) -x c -c -o /dev/null -
	@mkdir -p "$(FOLDER)" && test -w "$(FOLDER)"

install: FOLDER = $(DESTDIR)$(PREFIX)
ifeq ($(FROM),cargo)
library:
	@mkdir -p "$(FOLDER)" && bindings/c/assemble cargo "$(FOLDER)"
install:
	@scripts/package --prefix "$(FOLDER)" cargo
dist:; $(error `make dist` packs what is proved, without FROM)
else
$(if $(FROM),$(error FROM is `cargo`, or isn't set))
library: can_link $(archive)
	@bindings/c/assemble $(archive) "$(FOLDER)"
install: can_link proved
	@scripts/package --prefix "$(FOLDER)"
dist: can_link proved
	@scripts/package "$(FOLDER)"
endif

# Each program in tests/ is a goal. If it passes, it leaves a file in the folder `passed`, by which ./test knows.
tests: $(tests)
tests/link tests/package: $(archive)
$(tests): $(programs)
	@echo "== $@"; $@ </dev/null 2>&1; status=$$?; echo "== $@: status $$status after $$SECONDS s" && \
	    [ $$status = 0 ] && { [ -z "$(passed)" ] || touch "$(passed)/$(@F)"; }
check:; @./test
