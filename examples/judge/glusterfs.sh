#!/bin/sh
# GlusterFS without its daemon: three bricks and two mounts of them on one machine, for tools/judge/record.py. As root, with
# glusterfs-server and glusterfs-client: examples/judge/glusterfs.sh FOLDER SECONDS [OPTION..]
# Readers' answers stay SECONDS old at most; the options are those of `glusterfs` for both mounts. It leaves the mounts
# FOLDER/owner and FOLDER/readers, and ends them when its input ends.
set -e
room=$(realpath "$1")
seconds=$2
shift 2
mkdir -p "$room/owner" "$room/readers"

brick() {
    mkdir -p "$room/brick$1"
    cat > "$room/brick$1.vol" <<VOLUME
volume posix
  type storage/posix
  option directory $room/brick$1
  option update-link-count-parent off
end-volume
volume acl
  type system/posix-acl
  subvolumes posix
end-volume
volume locks
  type features/locks
  subvolumes acl
end-volume
volume brick
  type features/index
  option index-base $room/index$1
  subvolumes locks
end-volume
volume server
  type protocol/server
  option transport-type tcp
  option transport.address-family inet
  option transport.socket.listen-port 4915$1
  option auth.addr.brick.allow 127.0.0.1
  option manage-gids off
  subvolumes brick
end-volume
VOLUME
    glusterfsd -f "$room/brick$1.vol" -l "$room/brick$1.log" -p "$room/brick$1.pid" --volfile-id "brick$1"
}

remote() {
    cat <<VOLUME
volume remote$1
  type protocol/client
  option transport-type tcp
  option transport.address-family inet
  option remote-host 127.0.0.1
  option remote-port 4915$1
  option remote-subvolume brick
  option ping-timeout 3
end-volume
VOLUME
}

for number in 0 1 2; do brick $number; done
{
    for number in 0 1 2; do remote $number; done
    cat <<VOLUME
volume replicas
  type cluster/replicate
  option quorum-type auto
  option afr-pending-xattr remote0,remote1,remote2
  subvolumes remote0 remote1 remote2
end-volume
volume all
  type cluster/distribute
  subvolumes replicas
end-volume
volume acl
  type system/posix-acl
  subvolumes all
end-volume
VOLUME
} > "$room/mount.vol"
sleep 1
for name in owner readers; do
    glusterfs -f "$room/mount.vol" -l "$room/$name.log" --acl "--attribute-timeout=$seconds" \
        "--entry-timeout=$seconds" "$@" "$room/$name"
done
trap 'umount "$room/owner" "$room/readers"; kill $(cat "$room"/brick?.pid)' EXIT
echo "$room/owner and $room/readers are mounted; the end of input ends them"
cat > /dev/null
