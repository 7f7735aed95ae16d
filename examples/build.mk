# Decides in a build whether every deadline of some sets is met: copy it next to your sets, and make it after the program.
#
#     make -f build.mk SETS="set.toml other.toml" PROGRAM=tasks.elf SCRIPTS=path/to/scripts
#
# A set is decided again after a change of it or of the program. What is wrong is written out, and the build fails.
SETS = set.toml
PROGRAM = tasks.elf
SCRIPTS = ../../scripts
CRPD ?= crpd

all: $(SETS:.toml=.decided)

%.decided: %.toml $(PROGRAM)
	$(SCRIPTS)/loops --check $<
	$(CRPD) refine $< > $*.refined || { cat $*.refined; $(SCRIPTS)/why $<; exit 1; }
	$(CRPD) analyze $< > $*.cert.json || { cat $*.cert.json; $(SCRIPTS)/why $<; exit 1; }
	$(CRPD) check $< $*.cert.json
	touch $@

.PHONY: all
