# shellcheck shell=sh disable=SC2034 # the scripts that source this use them
# What the scripts say on standard error, each message once; %s stands for what differs. The cards have them: docs/HELP-CARD.md and docs/NUMBERS.md.
says_no_rt='rt, the command of the Rattle toolchain, is not on the PATH'
says_missing='missing: %s; install with: apt-get install %s'
says_installing='installing %s'
says_not_writable='%s cannot be written, and what is to run is not built'
says_waiting='another run builds in this folder: waiting for it'
says_proving='proving %s, %s s so far'
says_refused='rt refuses the library'
says_not_compiled='%s could not be compiled'
says_valgrind='%s fails under valgrind'
