#!/bin/sh
# Commands on a real folder that are killed, that meet errors, and whose power is cut:
#
#     bench/faults/crash.sh [--beside | --syncs] [COMMAND]...
#
# Each command (of bench/faults/crash.py, or those named) is run under strace on a folder that is made anew for it:
#   - killed at the Nth call of each system call, for each N until it ends by itself;
#   - with EIO and with ENOSPC at the Nth call, once, and at all from there on, for each N, of each call that can fail so;
#   - after each recorded call the folder is also made anew as a power failure may leave it: each name that its folder's sync
#     has not made durable there or not, bytes that their file's sync has not made durable there, absent, cut, or zeros in part
#     (all choices together, or where they are more than 256 all old, all new and each by itself). DIR itself is such a name.
# Each folder is then opened by `query` and by `groups`, which change nothing there, and by `run`. They must find the table before
# the command or the one after it (both by hand in bench/faults/crash.py), and after status 0 the one after it alone; after
# `refused 25` and `refused 28` the one before it, but where the line before says that the change was committed: then the one after it
# alone (of a script, whose answers are lost, any); `refused 26` may come only when the next root was durable. After `run` no file
# may be left that the table does not name, and others stay.
# Of `query --out FOLDER` the folder is looked at too: after status 0 it has the whole files, after a refusal none, and after a kill or
# a power failure no file that is cut has the name of one.
# Where the table is the one before it, the command is made once more, which must be done, also if the power is cut then.
#
# With --beside a reader's lock is held while the command runs, which then has --no-wait: all part files must stay as they were.
#
# With --syncs each sync is left out of the record of a command, one at a time: which of them a power failure shows to be needed.
#
# Takes some minutes. It needs strace and python3, and runs the program of bench/tools/program.sh. With JOBS=N there are N commands
# at a time (2). Prints a line for each command, and one for each thing that may not be; the status is 1 then.
top=$(CDPATH='' cd -- "$(dirname -- "$0")/../.." && pwd) || exit 1
. "$top/bench/tools/usage.sh"
mode=
case $1 in
--beside | --syncs)
    mode=$1
    shift
    ;;
esac
no_options "$@"
needs strace python3
program=$("$top/bench/tools/program.sh") || exit 1
# shellcheck disable=SC2086
exec python3 -B "$top/bench/faults/crash.py" --jobs "${JOBS:-2}" $mode "$program" -- "$@"
