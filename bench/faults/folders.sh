#!/bin/sh
# Tries what may stand in the folder of a dataset, who may use its files, and what ends a command from outside, in a temporary
# folder, which is removed. Prints a line for each try; the status is 1 where one fails.
#
#     bench/faults/folders.sh [PROGRAM]       with this program, or that of bench/tools/program.sh
#
# - Links, pipes, sockets, devices and names that are no UTF-8, at the top and in a folder of a key, change no answer, and keep no
#   command from cleaning up after a killed one. They stay, and so does what a link leads to.
# - The same with a name that a dataset could have given: where a commit may come to it, it is a finding of `check`. Readers read the
#   table, a command that changes it is done or refused, none waits, and what a link leads to stays.
# - A folder that has the name of the next root or of a part file to come is a finding of `check`.
# - New files have the mode and the group of the root, and new folders those of the dataset's folder, whatever the umask. Where they
#   cannot be set, the change is made, and nobody may do more than before.
# - A limit of file sizes (`ulimit -f`) ends a command by SIGXFSZ, with the table as it was, or as the change left it where the file
#   that may not grow is the one of standard output.
# - Outputs that are closed or full: the table is the one before the command or after it, and a file never has what was meant for them.
# - A full disk (a small tmpfs), and a folder that may not be written to.
#
# Kills and failures need strace. Other groups, devices and small disks need the superuser, and are passed over for others.
top=$(CDPATH='' cd -- "$(dirname -- "$0")/../.." && pwd) || exit 1
. "$top/bench/tools/usage.sh"
take_program "$@"
needs python3
program=$(realpath -- "$program") || exit 1
make_room
python3 -B "$top/bench/faults/folders.py" "$program" "$room"
