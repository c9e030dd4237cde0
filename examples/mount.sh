#!/bin/sh
# A real mount of a repository in one script, as four shells would do it: a broker mounts, a daemon serves, a person looks,
# and a new daemon takes over below that person's feet. It needs root, /dev/fuse and git.
#
#   examples/mount.sh [PROGRAM]     PROGRAM is crates/edend/out/edend where none is named
#
# It ends within a second or two, and prints what each of the four saw. The mount is gone then, however the script ends.
top=$(cd "$(dirname "$0")/.." && pwd) || exit 1
edend=$(realpath "${1:-$top/crates/edend/out/edend}") || exit 1
if ! [ -c /dev/fuse ] || ! { : <>/dev/fuse; } 2>/dev/null; then
  echo 'examples/mount.sh: /dev/fuse can not be opened'
  exit 1
fi
room=$(mktemp -d) || exit 1
broker=
# The mount dies with its broker, so that nothing waits for it any more.
clear_away() {
  cd /
  [ -z "$broker" ] || kill "$broker" 2>/dev/null
  umount -l "$room/checkout" 2>/dev/null
  rm -rf "$room"
}
trap clear_away EXIT
trap 'exit 1' HUP INT TERM
cd "$room" || exit 1
mkdir -p checkout repository/src
printf 'hello, world\n' >repository/src/a
ln -s src/a repository/link
git -C repository init -q
git -C repository add .
git -C repository -c user.name=somebody -c user.email=somebody@example.org commit -q -m 'one file and a link'

# Waits until a file has a line, at most ten seconds.
wait_for() {
  tries=0
  until grep -qsx "$2" "$1"; do
    tries=$((tries + 1))
    [ $tries -gt 1000 ] && exit 1
    sleep 0.01
  done
}

# The first shell: the broker, which owns the mount. It listens at kernel.sock, and mounts for the daemon that comes.
"$edend" mount checkout kernel.sock >mount.said &
broker=$!
tries=0
until [ -S kernel.sock ] || [ $tries -gt 1000 ]; do
  tries=$((tries + 1))
  sleep 0.01
done

# The second shell: the daemon that runs today.
"$edend" daemon --mount kernel.sock upgrade.sock --git repository >old.said &
wait_for mount.said 'mounted 1'

# The third shell: a person who works in the checkout, and stays in `src` from now on.
(
  cd checkout/src || exit 1
  mkdir made
  stat -c '%n: %A, %s bytes' a made
  cat a
  readlink ../link
  stat -c 'here: number %i' .
  until [ -e "$room/taken.over" ]; do sleep 0.01; done
  echo 'the new daemon serves'
  stat -c '%n: %A, %s bytes' a made
  cat ../link
  stat -c 'here: number %i' .
  rmdir made
) >looked.said 2>&1 &
person=$!
wait_for looked.said 'here: .*'

# The fourth shell: the daemon of the new release. Once it serves the person looks again, and then unmounts.
"$edend" daemon --takeover kernel.sock upgrade.sock --git repository >new.said &
wait_for new.said 'serving 2'
: >taken.over
wait $person
umount checkout
wait
broker=

for who in mount old looked new; do
  sed "s/^/$who: /" "$who.said"
done
