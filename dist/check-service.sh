#!/bin/bash
# Installs the Debian package on a clean Debian in which systemd runs, sets a mirror up by the commands of the man page, and
# looks at what runs of the unit leave in journal, metrics, state and copies.
#
#   dist/check-service.sh [FOLDER [BASE]]      the folder of the release, dist/out unless given
#
# BASE is a folder with a Debian; if it isn't there, debootstrap makes it, by the network. What is changed is in a temporary
# folder over it (overlay). Processes, mounts, control groups and network are in namespaces of their own, which end with the
# script. Needs the superuser, debootstrap and a mounted cgroup2. A line for each thing says `ok`, or `failed` with what was
# seen, and the status is 1 where something failed, or 2 if nothing could be tried. It took five minutes beside much other
# work, and debootstrap seven.
set -u
export LC_ALL=C
if [ -z "${TUFCHECK_APART:-}" ] && [ "$(id -u)" = 0 ]; then
    TUFCHECK_APART=yes exec unshare -m -- "$0" "$@"
fi
top=$(cd "$(dirname "$0")/.." && pwd) || exit 1
from=$(realpath -m "${1:-$top/dist/out}") base=${2:+$(realpath -m "$2")}
version=$(sed -n 's/^version=//p' "$top/dist/package.sh")
deb=tufcheck_${version}_amd64.deb
work=$(mktemp -d) || exit 2
root=$work/root failed=0 outer='' init='' group=''

# untried WHY: the end of a script that can't try anything
untried() {
    echo "check-service.sh: $1" >&2
    exit 2
}

# ended: ends the Debian and removes what the script made
ended() {
    [ -z "$outer" ] || { kill -KILL "${init:-$outer}"; wait "$outer"; } 2> "$work/found"
    for _ in {1..50}; do
        [ -d "$group" ] || break
        find "$group" -depth -type d -exec rmdir {} + 2> "$work/found" || sleep 0.1
    done
    umount -l "$root" 2> "$work/found"
    rm -rf --one-file-system "$work"
}
trap ended EXIT

# report STATUS THING: `ok` or `failed` of a thing, by the status of what tried it and what it wrote to the file `seen`
report() {
    if [ "$1" = 0 ]; then
        echo "ok $2"
    else
        echo "failed $2: $(head -c 1000 "$work/seen" | tr '\n' ' ')"
        failed=1
    fi
}

# inside COMMAND..: runs a command in the Debian
inside() {
    nsenter -t "$init" -m -p -C -i -u -n -r -w env -i PATH=/usr/sbin:/usr/bin:/sbin:/bin HOME=/root TERM=dumb LC_ALL=C "$@"
}

# booted: starts systemd on the copy, as the first process of its namespaces, and waits until it has started all units
booted() {
    local groups state
    groups=$(findmnt -n -o TARGET -t cgroup2 | head -1)
    [ -n "$groups" ] || untried "no cgroup2 is mounted"
    group=$groups/tufcheck.$$
    mkdir "$group" || untried "no control group can be made"
    cat > "$work/boot" << 'END'
set -e
cd "$1"
mount --make-rprivate /
mount --bind . .
cd "$1"
mount -t proc proc proc
mount -t sysfs sysfs sys
mount -t cgroup2 cgroup2 sys/fs/cgroup
for folder in run tmp dev; do
    mount -t tmpfs -o mode=755 tmpfs $folder
done
chmod 1777 tmp
for device in null zero full random urandom tty; do
    touch dev/$device
    mount --bind /dev/$device dev/$device
done
mkdir dev/shm dev/pts outside
mount -t devpts -o newinstance,ptmxmode=666 devpts dev/pts
ln -s pts/ptmx dev/ptmx
ln -s /proc/self/fd dev/fd
pivot_root . outside
umount -l /outside
hostname clean
exec env -i container=other PATH=/usr/sbin:/usr/bin:/sbin:/bin /lib/systemd/systemd --log-target=console
END
    # shellcheck disable=SC2094 # a group of processes is no file
    (echo "$BASHPID" > "$group/cgroup.procs" &&
        exec unshare --kill-child -m -p -f -C -n -i -u sh "$work/boot" "$root") > "$work/console" 2>&1 < /dev/null &
    outer=$!
    for _ in {1..120}; do
        sleep 0.5
        init=$(tr -d ' ' < "/proc/$outer/task/$outer/children") || break
        [ -n "$init" ] && [ "$(cat "/proc/$init/comm")" = systemd ] || continue
        state=$(inside systemctl is-system-running 2> "$work/found")
        [[ $state == running || $state == degraded ]] && return
    done
    untried "systemd doesn't start here: $(tail -c 1000 "$work/console" | tr '\n' ' ')"
}

# ran NAME STATUS: makes a run by the unit, and returns whether systemd and the metrics have that status. Its lines, each
# after its priority, are then in `seen`
ran() {
    local cursor got metric
    cursor=$(inside journalctl --sync; inside journalctl -n 1 --show-cursor -o cat | sed -n 's/^-- cursor: //p')
    inside systemctl start "tufcheck@$1" > "$work/found" 2>&1
    inside journalctl --sync
    inside journalctl --after-cursor "$cursor" -t tufcheck-run -o json --no-pager | python3 -c '
import json, sys
for line in sys.stdin:
    line = json.loads(line)
    print(line["PRIORITY"], line["MESSAGE"])' > "$work/seen"
    got=$(inside systemctl show -P ExecMainStatus "tufcheck@$1")
    metric=$(sed -n "s/^tufcheck_status{name=\"$1\"} //p" "$root/var/lib/tufcheck-metrics/$1.prom")
    [ "$got" = "$2" ] && [ "$metric" = "$2" ] && return
    echo "status $got, in the metrics $metric" >> "$work/seen"
    return 1
}

# told LINE: whether a run's lines have this one
told() {
    grep -q -x -F -e "$1" "$work/seen"
}

# made EXAMPLE: makes the repository of an example in place of the mirror
made() {
    rm -rf "$root/srv/mirror" && inside tufcheck make "/usr/share/doc/tufcheck/examples/$1.script" /srv/mirror > "$work/found"
}

# unit NAME LINE..: a file of the unit's with these lines, which no line takes away
unit() {
    local folder=$root/etc/systemd/system/$1.d
    mkdir -p "$folder" && printf '%s\n' "${@:2}" > "$folder/trial.conf" && inside systemctl daemon-reload
}

[ "$(id -u)" = 0 ] || untried "it needs the superuser"
[ -f "$from/$deb" ] || untried "no $from/$deb: dist/package.sh makes it"
for tool in debootstrap findmnt nsenter python3 unshare; do
    command -v $tool > "$work/found" || untried "$tool is missing"
done
base=${base:-$work/base}
if [ ! -e "$base" ]; then
    debootstrap --variant=minbase --include=systemd-sysv,dbus,man-db,python3 stable "$base" > "$work/console" 2>&1 ||
        untried "debootstrap: $(tail -3 "$work/console")"
fi
mkdir "$root" "$work/changed" "$work/turned" &&
    mount -t overlay -o "lowerdir=$base,upperdir=$work/changed,workdir=$work/turned" overlay "$root" &&
    cp "$from/$deb" "$root/root" || untried "nothing can be laid over $base"
booted

inside apt-get install -y "/root/$deb" > "$work/seen" 2>&1 && inside id tufcheck > "$work/found" 2>> "$work/seen"
report $? "the package is installed, and there is its user"
inside env MANWIDTH=200 MANPAGER=cat man tufcheck-setup 2> "$work/seen" | sed -n '/^EXAMPLES/,/^[F]/s/^  *//p' | sed 's/NAME/trial/g' > "$work/examples"
mapfile -t examples < "$work/examples"
[ ${#examples[@]} = 3 ] && made rollback.1 && cp "$root/srv/mirror/metadata/1.root.json" "$root/root" &&
    inside sh -c "cd /root && ${examples[0]}" > "$work/seen" 2>&1 && inside systemctl is-active tufcheck@trial.timer > "$work/found"
report $? "the first command of the man page sets the mirror up, and its timer waits"
rm "$root/srv/mirror/metadata/1.root.json"

ran trial 0 && told '6 ok "abc.txt" 3 "targets"' && told "6 status 0: 1 accepted, 0 refused" && [ -f "$root/srv/verified/abc.txt" ]
report $? "a good run"
inside sh -c "${examples[1]} && ${examples[2]}" > "$work/seen" 2>&1 && grep -q 'ok "abc.txt"' "$work/seen"
report $? "the other commands of the man page make a run and show its lines"
cp "$root/srv/verified/abc.txt" "$work/copy" && cp "$root/srv/mirror/targets/abc.txt" "$work/target"
printf 'x' | dd of="$root/srv/mirror/targets/abc.txt" conv=notrunc status=none
ran trial 1 && told '4 no "abc.txt" HashWrong' && cmp "$work/copy" "$root/srv/verified/abc.txt"
report $? "a refused target is a warning in the journal, and the copy stays"
made rollback.2
ran trial 2 && told "3 end timestamp Rollback" && cmp "$work/copy" "$root/srv/verified/abc.txt" && inside systemctl is-failed tufcheck@trial > "$work/found"
report $? "a stop is an error in the journal, the unit has failed, and the copy stays"
mv "$root/srv/mirror" "$root/srv/gone"
ran trial 69 && grep -q "^2 status 69: the mirror isn't there" "$work/seen"
report $? "a mirror that isn't there"
made rollback.1

inside sh -c 'mount -t tmpfs -o size=4k tmpfs /srv/verified && chown tufcheck: /srv/verified && echo full > /srv/verified/fill'
ran trial 73 && grep -q "^2 status 73: copies take" "$work/seen"
report $? "a full disk of the copies"
inside umount /srv/verified
sed -i 's/^run .*/run 99999999999/' "$root/var/lib/tufcheck/trial/record"
ran trial 71 && grep -q "^2 status 71: the clock is before the last run" "$work/seen"
report $? "a clock that was set back"
rm "$root/var/lib/tufcheck/trial/record"
unit tufcheck@trial.timer "[Timer]" "OnCalendar=" "OnCalendar=*:*:*" "RandomizedDelaySec=0" "AccuracySec=100ms"
rm "$root/var/lib/tufcheck-metrics/trial.prom"
inside systemctl restart tufcheck@trial.timer
for _ in {1..100}; do
    [ -f "$root/var/lib/tufcheck-metrics/trial.prom" ] && break
    sleep 0.1
done
rm "$root/etc/systemd/system/tufcheck@trial.timer.d/trial.conf"
inside systemctl daemon-reload
inside systemctl restart tufcheck@trial.timer
grep -q '^tufcheck_status{name="trial"} 0$' "$root/var/lib/tufcheck-metrics/trial.prom" 2> "$work/seen"
report $? "the timer makes a run"

# What a hook may write, in folders that everybody may write without the unit.
mkdir "$root"/{etc,usr,home,srv,var/lib}/open && chmod 777 "$root"/{etc,usr,home,srv,var/lib}/open
cat > "$root/usr/local/lib/hook" << 'END'
#!/bin/sh
cp -r /srv/mirror/. /srv/brought
for folder in /etc/open /usr/open /home/open /srv/open /var/lib/open /var/lib/tufcheck/trial /srv/verified /srv/mirror /tmp \
    /srv/brought/metadata /srv/brought/targets /srv/brought-verified /var/lib/tufcheck/hooked; do
    (: > $folder/written) 2> /dev/null && echo "writes $folder"
done
rm -f /srv/brought/*/written /srv/brought-verified/written
END
chmod 755 "$root/usr/local/lib/hook" && mkdir "$root/srv/brought"
inside tufcheck-setup --no-timer --metadata /srv/brought/metadata --targets /srv/brought/targets --want every --into /srv/brought-verified \
    --fetch /usr/local/lib/hook hooked /root/1.root.json > "$work/seen" 2>&1
report $? "a mirror with a hook is set up"
ran hooked 0 && [ "$(grep -c "^6 fetch: writes" "$work/seen")" = 5 ] && [ "$(sort "$work/seen" | grep "fetch: writes" | tr -d '\n')" = \
    "6 fetch: writes /srv/brought-verified6 fetch: writes /srv/brought/metadata6 fetch: writes /srv/brought/targets6 fetch: writes /tmp6 fetch: writes /var/lib/tufcheck/hooked" ] &&
    ! inside test -e /tmp/written
report $? "the hook brings the mirror, and writes to its own folders alone"
printf '#!/bin/sh\nexec sleep 60\n' > "$root/usr/local/lib/hook"
unit tufcheck@hooked.service "[Service]" "TimeoutStartSec=2s"
ran hooked 143 && told "2 status 143: ended by signal 15"
report $? "a run that takes too long is ended"
rm "$root/etc/systemd/system/tufcheck@hooked.service.d/trial.conf" && inside systemctl daemon-reload
inside systemctl start --no-block tufcheck@hooked
sleep 2
inside runuser -u tufcheck -- tufcheck-run hooked > "$work/seen" 2>&1
[ $? = 75 ]
report $? "of two runs at once the second ends"
inside systemctl kill -s KILL tufcheck@hooked
printf '#!/bin/sh\n' > "$root/usr/local/lib/hook"
ran hooked 0
report $? "after a run that was killed the next one is good"

inside apt-get remove -y tufcheck > "$work/seen" 2>&1 && ! inside systemctl is-active tufcheck@trial.timer > "$work/found" &&
    [ -f "$root/etc/tufcheck/trial.conf" ] && [ -f "$root/var/lib/tufcheck/trial/state" ]
report $? "removing the package stops the timer, and leaves configuration and state"
inside apt-get install -y "/root/$deb" > "$work/seen" 2>&1 && ran trial 0
report $? "installed again, it goes on with them"
exit $failed
