# make         builds the command, and says where it is
# make try     that, and shows a card made, filled, checked and listed
# make release the archive, the header and the command in target/release, once the promises are proved of the library
# make test    the gate: everything proved, then the outside tests
# The first three prove the library only where it has changed since (tests/tools.sh, make_archive).
.PHONY: sfs try release test

sfs:
	@bash -c '. tests/cli/build.sh && announce && build_for && echo "The command is $$sfs"'

try:
	@tests/cli/try.sh

release:
	@tests/cli/release.sh

test:
	@.ci/run
