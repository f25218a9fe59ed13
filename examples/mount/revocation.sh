#!/bin/sh
# A permission is taken away while a server with an old copy is down, and the user's own `cat` is denied.
# As root, on a machine with fuse3, acl and setpriv (util-linux): examples/mount/revocation.sh
# Watch the end: server 0 is back with the list that let lisa read, and her cat says Permission denied all the same.
set -e
top=$(cd "$(dirname "$0")/../.." && pwd)
room=$(mktemp -d)
chmod 755 "$room"
mkdir "$room/m"
cd "$room"
trap 'umount "$room/m"; rm -r "$room"' EXIT
# each user's commands, by number: the owner is 1000 of group 100, lisa 2000 and bob 2001 of group 300
as() { user=$1 group=$2; shift 2; setpriv --reuid "$user" --regid "$group" --clear-groups "$@"; }
say() { echo "\$ $*"; }

"$top/suites" mount m --root 1000:100:755 --allow-other ${SUITES_SESSION:+--session "$SUITES_SESSION"}

say 'owner: echo "the plan" > plan'
as 1000 100 sh -c 'umask 077; echo "the plan" > m/plan'
say 'owner: setfacl -m u:2000:r plan'
as 1000 100 setfacl -m u:2000:r m/plan
say 'lisa: cat plan'
as 2000 300 cat m/plan
say 'bob: cat plan'
as 2001 300 cat m/plan 2>&1 || true
say 'server 0 crashes'
"$top/suites" mount --control m 'crash 0'
say 'lisa: cat plan'
as 2000 300 cat m/plan
say 'owner: setfacl -x u:2000 plan'
as 1000 100 setfacl -x u:2000 m/plan
say 'server 0 returns, with its old copy'
"$top/suites" mount --control m 'return 0'
say 'lisa: cat plan'
as 2000 300 cat m/plan 2>&1 || true
