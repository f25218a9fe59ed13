#!/bin/sh
# An NFS 4 server for tools/judge/record.py. As root, with nfs-ganesha, nfs-ganesha-vfs and libnfs13: examples/judge/ganesha.sh FOLDER
# It exports FOLDER by nfs://127.0.0.1/data?version=4&nfsport=20490, and ends when its input ends.
set -e
room=$(mktemp -d)
mkdir -p /var/run/ganesha /var/lib/nfs/ganesha
cat > "$room/conf" <<CONF
NFS_CORE_PARAM { Protocols = 4; NFS_Port = 20490; Enable_NLM = false; Enable_RQUOTA = false; Bind_addr = 127.0.0.1; }
NFSv4 { Graceless = true; RecoveryBackend = fs; }
EXPORT {
  Export_Id = 1; Path = $(realpath "$1"); Pseudo = /data; Access_Type = RW; Squash = No_Root_Squash; SecType = sys;
  Protocols = 4; Transports = TCP; FSAL { Name = VFS; }
}
CONF
ganesha.nfsd -F -L "$room/log" -f "$room/conf" -p "$room/pid" &
trap 'kill $!; wait; rm -r "$room"' EXIT
cat > /dev/null
