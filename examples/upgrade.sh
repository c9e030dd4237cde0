#!/bin/sh
# An upgrade in one script, as three shells would do it: a broker plays the kernel, a daemon mounts, and a new daemon
# takes over while the mount stays. The number that the old daemon gave out is answered by the new one.
#
#   examples/upgrade.sh [PROGRAM]     PROGRAM is crates/edend/out/edend where none is named
#
# It ends within a second, and prints what each of the three said.
top=$(cd "$(dirname "$0")/.." && pwd) || exit 1
edend=$(realpath "${1:-$top/crates/edend/out/edend}") || exit 1
room=$(mktemp -d) || exit 1
trap 'rm -rf "$room"' EXIT
cd "$room" || exit 1

cat >checkout.manifest <<'END'
commit 0123456789abcdef0123456789abcdef01234567
dir src
file 0644 12 src/a
END
# The kernel waits for a daemon, looks `src` up, waits for the next daemon, and asks for the same number again.
cat >kernel.script <<'END'
seat 1
ask lookup 1 src
seat 2
ask getattr 2
held
END

# Waits until a file has a line, at most ten seconds.
wait_for() {
  tries=0
  until grep -qsx "$2" "$1"; do
    tries=$((tries + 1))
    [ $tries -gt 1000 ] && return 1
    sleep 0.01
  done
}

# The first shell: the broker. It listens at kernel.sock.
"$edend" broker kernel.sock kernel.script >broker &
tries=0
until [ -S kernel.sock ] || [ $tries -gt 1000 ]; do
  tries=$((tries + 1))
  sleep 0.01
done

# The second shell: the daemon that runs today. It mounts, and listens for its successor at upgrade.sock.
"$edend" daemon --mount kernel.sock upgrade.sock checkout.manifest >old &
wait_for broker 'answer 1 .*'

# The third shell: the daemon of the new release.
"$edend" daemon --takeover kernel.sock upgrade.sock checkout.manifest >new
status=$?
wait

for who in broker old new; do
  sed "s/^/$who: /" "$who"
done
exit $status
