#!/bin/sh
# What the examples say of a bad argument: one sentence and the usage on stderr, nothing on stdout
# unless the file alone is bad, exit status 2.
set -eu
cd "$(dirname "$0")/../../build"
rm -rf arguments
mkdir arguments

bad() { # SENTENCE PROGRAM ARGUMENT...
    sentence=$1
    program=$2
    shift 2
    status=0
    "./$program" "$@" >arguments/out 2>arguments/err || status=$?
    {
        echo "$program: $sentence"
        echo "usage: $program"
    } >arguments/want
    sed "s/^\(usage: $program\).*/\1/" arguments/err | diff arguments/want - || {
        echo "$program $*: not what it should say" >&2
        exit 1
    }
    [ "$status" -eq 2 ] || {
        echo "$program $*: exit status $status, should be 2" >&2
        exit 1
    }
}

bad 'there is no option -q' cross -q
bad 'there is no option --' cross -s --
bad 'Y and WIDTH are missing after 10' cross -f 10
bad 'WIDTH is missing after 1' cross 10 1
bad 'X is not a number: "ten"' cross ten 1 21
bad 'Y is not a number: "1a"' cross 10 1a 21
bad 'WIDTH is not a number: ""' cross 10 1 ''
bad 'X is far outside the field: 99999999999999999999' cross 99999999999999999999 1 21
bad 'X is -1 and should be 0 to 26' cross -1 1 21
bad 'X is 27 and should be 0 to 26' cross 27 1 21
bad 'Y is 3 and should be 0 to 2' cross 10 3 21
bad 'WIDTH is 0 and should be 1 to 48' cross 10 1 0
bad 'WIDTH is 49 and should be 1 to 48' cross 0 1 49
bad 'X and Y are missing after -w' cross -s -w
bad 'Y is missing after 31' cross -w 31
bad 'Y of -w is not a number: "-f"' cross -w 31 -f
bad 'X of -w is -1 and should be 0 to 47' cross -w -1 3
bad 'X of -w is 48 and should be 0 to 47' cross -w 48 3
bad 'Y of -w is 11 and should be 0 to 10' cross -w 31 11
bad 'Y of -w is far outside the field: 10000' cross -w 31 10000
bad 'WIDTH is missing after 1' cross -w 31 3 10 1
bad 'there is an argument too many: more' cross 10 1 21 arguments/x more
bad 'arguments/no/x cannot be written: No such file or directory' cross 10 1 21 arguments/no/x
[ ! -e /dev/full ] || bad '/dev/full cannot be written: No space left on device' cross 10 1 21 /dev/full
bad 'FILE is missing' boot
bad 'there is an argument too many: more' boot arguments/x 1 more
bad 'PATTERNS should be a number from 1 to 9999 and is 1x' boot arguments/x 1x
bad 'PATTERNS should be a number from 1 to 9999 and is 0' boot arguments/x 0
bad 'arguments/no/x: cannot make a new file beside it: No such file or directory' boot arguments/no/x 1
bad 'arguments/want: refused, 8: file is not a saved adapter' boot arguments/want 1
bad 'there is an argument too many: 240' border 240
bad 'there is no option -q' screen -q
bad 'there is an argument too many: more' screen arguments/x more
bad 'arguments/no/x cannot be written: No such file or directory' screen arguments/no/x
bad 'there is no option --gray' screen --gray
bad 'there is no option -q' screen --grey -q
bad 'there is no option --gre' screen arguments/x --gre
bad 'there is an argument too many: more' screen --grey arguments/x more
bad 'there is an argument too many: more' screen arguments/x --grey more
bad 'arguments/no/x cannot be written: No such file or directory' screen --grey arguments/no/x
bad 'not an argument: -q' polling -q
bad 'FILE is missing after -r' polling -r
bad 'arguments/no/x: cannot make the file: No such file or directory' polling -r arguments/no/x
bad 'FILE is missing' replay

./cross -f 0 0 48 arguments/x.pbm >/dev/null
[ "$(sed -n 2p arguments/x.pbm)" = "48 11" ]
./screen arguments/x.ppm >/dev/null
[ "$(head -n 2 arguments/x.ppm | tail -n 1)" = "640 480" ]
./screen --grey arguments/x.pgm >/dev/null
[ "$(head -n 3 arguments/x.pgm | tr '\n' ' ')" = "P5 640 480 15 " ]
./screen arguments/y.pgm --grey >/dev/null
cmp arguments/x.pgm arguments/y.pgm
echo "examples: bad arguments are said in a sentence"
