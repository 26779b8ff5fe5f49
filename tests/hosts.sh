#!/bin/sh
# hosts.sh FOLDER COMMAND ..: runs a command where two hosts answer over ssh, alpha and beta, and nothing outside does: three network
# namespaces on this machine, joined by cables of their own, an sshd in two of them, each with a home of its own and without the
# folder. The file FOLDER/hosts lists them. It needs root, iproute2 and openssh-server; all that it makes goes when it ends.
set -eu
folder=$(cd "$1" && pwd)
shift
mark=hkv$$
keep=$(mktemp -d /tmp/hosts.XXXXXX)
daemons=

clear() {
  for daemon in $daemons; do kill "$daemon" 2>/dev/null || true; done
  for name in hub alpha beta; do ip netns del "$mark-$name" 2>/dev/null || true; done
  rm -rf "$keep"
}
trap clear EXIT
trap 'exit 1' HUP INT TERM

ssh-keygen -q -t ed25519 -N '' -f "$keep/user"
ip netns add "$mark-hub"
mkdir -p /run/sshd
: >"$folder/hosts"
subnet=1
for name in alpha beta; do
  home=$keep/$name
  mkdir -p "$home/empty"
  ssh-keygen -q -t ed25519 -N '' -f "$keep/$name-key"
  ip netns add "$mark-$name"
  ip -n "$mark-hub" link add "$name" type veth peer name eth0 netns "$mark-$name"
  ip -n "$mark-hub" addr add "10.77.$subnet.1/24" dev "$name"
  ip -n "$mark-hub" link set "$name" up
  ip -n "$mark-$name" addr add "10.77.$subnet.2/24" dev eth0
  ip -n "$mark-$name" link set eth0 up
  cat >"$keep/$name.conf" <<CONF
ListenAddress 10.77.$subnet.2
HostKey $keep/$name-key
AuthorizedKeysFile $keep/user.pub
PidFile none
UsePAM no
StrictModes no
PermitRootLogin prohibit-password
PasswordAuthentication no
MaxStartups 100
MaxSessions 100
CONF
  ip netns exec "$mark-$name" unshare -m sh -c "mount --bind '$home' /root && mount --bind '$home/empty' '$folder' && exec /usr/sbin/sshd -D -e -f '$keep/$name.conf'" 2>"$keep/$name.log" &
  daemons="$daemons $!"
  echo "2/ssh -i $keep/user -o BatchMode=yes -o StrictHostKeyChecking=no -o UserKnownHostsFile=$keep/known -o LogLevel=ERROR root@10.77.$subnet.2" >>"$folder/hosts"
  subnet=$((subnet + 1))
done
tries=0
while ! { ip netns exec "$mark-hub" ssh -i "$keep/user" -o BatchMode=yes -o StrictHostKeyChecking=no -o UserKnownHostsFile="$keep/known" -o LogLevel=ERROR root@10.77.2.2 true &&
  ip netns exec "$mark-hub" ssh -i "$keep/user" -o BatchMode=yes -o StrictHostKeyChecking=no -o UserKnownHostsFile="$keep/known" -o LogLevel=ERROR root@10.77.1.2 true; } 2>"$keep/tried"; do
  tries=$((tries + 1))
  if [ "$tries" -gt 20 ]; then cat "$keep/tried" "$keep"/*.log >&2; exit 1; fi
  sleep 0.5
done
ip netns exec "$mark-hub" "$@"
