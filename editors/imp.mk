# Checks and proves .imp files by make.
#
#     include PATH/editors/imp.mk
#     all: $(patsubst %.imp,%.checked,$(wildcard src/*.imp))
#
# x.checked   is there where daig-check finds nothing in x.imp
# x.cert      is written from x.imp: what was found at its loops
# x.verified  is there where x.cert was found to hold of x.imp, whoever wrote x.cert; this says nothing of its checks
# clean-imp   takes away what was made of the files in IMP, but for the certificates
#
# Each target is one command over its own files, so `make -j` does what changed alone, and a build that distributes
# commands can carry it. A finding, a certificate that does not hold, or a loop that uses up its budget, ends the build;
# remove a stale certificate to have it written anew. After a change of the variables below remove the certificates too.

# The rules below are not what is made where nothing is named.
IMP_GOAL := $(.DEFAULT_GOAL)

# The program, and the command that checks.
DAIG ?= daig
DAIG_CHECK ?= daig-check
# interval, octagon or listseg, for certificates.
DAIG_DOMAIN ?= octagon
# More words for `daig cert`, such as `--budget 1000`, and for daig-check.
DAIG_FLAGS ?=
DAIG_CHECK_FLAGS ?=
# What everything is made anew for, such as the program's file.
DAIG_DEPENDS ?=
# The files that clean-imp is for.
IMP ?= $(wildcard *.imp */*.imp */*/*.imp)

.PRECIOUS: %.cert
.PHONY: clean-imp

%.checked: %.imp $(DAIG_DEPENDS)
	@$(DAIG_CHECK) --quiet --format brief $(DAIG_CHECK_FLAGS) '$<' >&2 || { rm -f '$@'; exit 1; }
	@touch '$@'

# What is wrong is told in lines by daig-check where that is there, else as the program tells it.
%.cert: %.imp $(DAIG_DEPENDS)
	@$(DAIG) cert --domain $(DAIG_DOMAIN) $(DAIG_FLAGS) '$<' >'$@.new' && ! head -n 1 '$@.new' | grep -q '"over":' || \
	    { $(DAIG_CHECK) --quiet --format brief --try 0 --select budget --domain $(DAIG_DOMAIN) \
	          $(filter-out --memo,$(DAIG_FLAGS)) '$<' >&2; \
	      echo '$<: no certificate:' "$$(head -c 500 '$@.new')" >&2; rm -f '$@.new'; exit 1; }
	@mv '$@.new' '$@'

%.verified: %.imp %.cert
	@$(DAIG) verify --domain $(DAIG_DOMAIN) '$<' '$*.cert' >'$@.new' && grep -qxF '{"verify":"yes"}' '$@.new' || \
	    { echo '$*.cert does not hold of $<:' "$$(head -c 500 '$@.new')" >&2; \
	      at=$$(sed -n 's/.*"at":\([0-9]*\).*/\1/p' '$@.new'); rm -f '$@.new'; \
	      [ -z "$$at" ] || $(DAIG) batch '$<' | sed -n "s/^ *$$at   */the loop is /p" | head -n 1 >&2; exit 1; }
	@mv '$@.new' '$@'

clean-imp:
	@rm -f $(foreach it,$(IMP),'$(it:.imp=.checked)' '$(it:.imp=.verified)')

.DEFAULT_GOAL := $(IMP_GOAL)
