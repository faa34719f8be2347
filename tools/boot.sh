#!/usr/bin/env bash
# Installs the Debian packages of attrd in a fresh Debian 12, which is booted in a container, twice. There the unit attrd@ serves the
# calculator; attrd-hub@ does so too, is connected to at once, gets 10,000 connections, is killed with its program, is checked and
# watched, and has its edits after the second boot; a language that isn't there fails; one whose files have become wrong doesn't keep
# the package from being installed again; and the packages are purged.
#
#     tools/boot.sh PACKAGE HUB_PACKAGE [FOLDER]
#
# It needs root, the network, debootstrap and systemd-nspawn (apt-get install debootstrap systemd-container), and some minutes, or
# one where FOLDER has the system from an earlier run. The last line is `the units serve`; the status is 1 where a step failed.
set -euo pipefail
cd "$(dirname "$0")/.."
usage="name the packages, as in: tools/boot.sh dist/attrd_*.deb dist/attrd-hub_*.deb"
package=$(realpath "${1:?$usage}")
hub=$(realpath "${2:?$usage}")
system=${3:-$(mktemp -d)}

if [ ! -x "$system/bin/systemctl" ]; then
  debootstrap --variant=minbase --include=systemd,systemd-sysv,dbus,libnss-systemd,man-db,python3 bookworm "$system" > /dev/null
fi
install -d "$system"/etc/attrd/{calc,later,wrong}
for language in calc later; do
  cp samples/calculator/{calc.ast,tree.txt,calc.jrag} "$system/etc/attrd/$language/"
  echo "FILES=calc.ast tree.txt calc.jrag" > "$system/etc/attrd/$language/files"
done
cp samples/calculator/{calc.ast,tree.txt,bad.jrag} "$system/etc/attrd/wrong/"
echo "FILES=calc.ast tree.txt bad.jrag" > "$system/etc/attrd/wrong/files"
cp "$package" "$system/root/attrd.deb"
cp "$hub" "$system/root/attrd-hub.deb"
rm -f "$system"/root/{log,served,second}

# A client of a socket: it sends the lines that it is given, and prints the replies.
cat > "$system/root/ask.py" << 'END'
import socket, sys
with socket.socket(socket.AF_UNIX) as stream:
    stream.connect(sys.argv[1])
    with stream.makefile("rw", newline="\n") as lines:
        for it in sys.argv[2:]:
            lines.write(it + "\n")
            lines.flush()
            print(lines.readline(), end="")
END
cat > "$system/root/connections.py" << 'END'
import socket, sys, time
start = time.monotonic()
for number in range(10_000):
    with socket.socket(socket.AF_UNIX) as stream:
        stream.connect(sys.argv[1])
print(f"10,000 connections in {time.monotonic() - start:.1f} s")
END

# What is done at the first boot and at the second; each step that fails ends it.
cat > "$system/root/serve.sh" << 'END'
#!/bin/sh
exec >> /root/log 2>&1
set -ex
S=/run/attrd-hub/calc/socket
ask() { python3 /root/ask.py "$@" > /root/replies; }
told() { printf '%s\n' "$@" | diff - /root/replies; }

trap 'test $? = 0 || journalctl --no-pager -b | grep attrd | tail -n 60' EXIT

if [ ! -e /root/second ]; then
  dpkg -i /root/attrd.deb /root/attrd-hub.deb
  attrd --version || test $? = 2

  systemctl start attrd@calc
  ask /run/attrd/calc/socket "0 version" "0 show /Block/Stmt:0"
  told "0 ok 0" '0 = Decl("x",Num(1))'
  systemctl stop attrd@calc
  test ! -e /run/attrd/calc

  for unit in attrd@typo attrd-hub@typo attrd@wrong attrd-hub@wrong; do
    if systemctl start $unit; then false; fi
    if systemctl is-active $unit; then false; fi
  done
  journalctl -u attrd-hub@wrong | grep 'bad.jrag:.*J'

  for again in 1 2 3 4 5; do
    systemctl restart attrd-hub@calc
    ask $S "0 version"
    told "0 ok 0"
  done
  test "$(stat -c '%a %G' $S)" = "660 attrd"
  systemd-analyze security attrd-hub@calc --no-pager --threshold=25 | tail -n 1

  python3 /root/connections.py $S
  ask $S "0 token /Block/Stmt:1/Expr/Right Value 5" "0 mark u /Block/Stmt:1" "0 token \$u/Expr/Right Value 6"
  told "0 ok 1" "0 ok 1" "0 ok 2"
  grep " by [0-9]*:0:0 token " /var/lib/attrd-hub/calc/journal-*
  attrd-hub --version
  attrd-hub --status $S
  attrd-hub --status=prometheus --socket $S | grep -x "attrd_hub_tree_version{socket=\"$S\"} 2"
  attrd-hub --check --language calc
  test "$(systemctl show -p NRestarts --value attrd-hub@calc)" = 0

  systemctl kill --signal=KILL attrd-hub@calc
  until python3 /root/ask.py $S "0 version" > /root/replies 2> /dev/null && [ -s /root/replies ]; do sleep 0.2; done
  ask $S "0 version" "0 show /Block/Stmt:1/Expr/Right" "0 where u" "0 drop /Block/Stmt:0"
  told "0 ok 2" "0 = Num(6)" "0 refused 3 mark" "0 ok 3"

  systemctl start attrd-hub@later
  cp /etc/attrd/wrong/bad.jrag /etc/attrd/later/calc.jrag
  attrd-hub --check --language later > /root/found || test $? = 1
  grep '^fault: .*calc.jrag:.*J' /root/found
  dpkg -i /root/attrd-hub.deb
  test "$(dpkg-query -W -f '${Status}' attrd-hub)" = "install ok installed"
  if systemctl is-active attrd-hub@later; then false; fi
  test "$(systemctl show -p NRestarts --value attrd-hub@later)" = 0
  ask $S "0 version"
  told "0 ok 3"
  systemctl enable attrd-hub@calc
  touch /root/second
  exit 0
fi

systemctl is-active attrd-hub@calc || systemctl start attrd-hub@calc
ask $S "0 version" "0 show /"
told "0 ok 3" '0 = Program(Block([Print(Add(Use("x"),Num(6)))]))'
journalctl --no-pager -u attrd-hub@calc | tail -n 40
dpkg -P attrd-hub
test ! -e /run/attrd-hub/calc
test ! -e /var/lib/attrd-hub
test ! -e /usr/lib/attrd-hub
dpkg -P attrd
test ! -e /usr/bin/attrd
if getent group attrd; then false; fi
touch /root/served
END
chmod +x "$system/root/serve.sh"
cat > "$system/etc/systemd/system/serve.service" << 'END'
[Unit]
Description=Tries the packages of attrd
After=multi-user.target

[Service]
Type=oneshot
ExecStart=-/root/serve.sh
ExecStart=/bin/systemctl poweroff
END
install -d "$system/etc/systemd/system/multi-user.target.wants"
ln -sf ../serve.service "$system/etc/systemd/system/multi-user.target.wants/serve.service"

for boot in 1 2; do
  timeout 300 systemd-nspawn --directory "$system" --register=no --keep-unit --boot > "$system/root/boot.log" 2>&1 || true
  test -e "$system/root/second" || break
done
cat "$system/root/log"
test -e "$system/root/served" || { echo "the units don't serve: see $system/root/boot.log" >&2; exit 1; }
echo "the units serve"
