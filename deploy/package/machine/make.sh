# shellcheck shell=bash
# Sourced by the trials in a virtual machine. They set `folder` and `root`, and source checks.sh first.
#
# shellcheck disable=SC2034,SC2054,SC2154 # they use `machine` and set `folder` and `root`; commas are qemu's

# Debian's packages that the machine needs, besides what the package needs and recommends.
around=(systemd-sysv linux-image-cloud-amd64 initramfs-tools dbus rsyslog iproute2 curl openssl procps sudo
    haproxy python3 python3-bottle python3-defusedxml python3-openpyxl python3-pil python3-polib python3-segno python3-waitress
    sqlite3)

# Makes the machine's disk, folder/disk: a Debian 12 with systemd and HAProxy, which at each start runs the script INSIDE
# as root. The further files are next to it, in /trial. folder/machine keeps the Debian that was fetched, and is made
# anew if other packages are needed.
make_machine() {
    local inside="$1" here
    here=$(CDPATH='' cd -- "$(dirname -- "${BASH_SOURCE[0]}")" && pwd)
    shift
    part "A machine"
    if [ "$(cat "$folder/machine/made" 2>/dev/null)" != "${around[*]}" ]; then
        rm -rf --one-file-system "$folder/machine"
        try "debootstrap" timeout 1800 \
            debootstrap --variant=minbase bookworm "$folder/machine" http://deb.debian.org/debian
        printf '#!/bin/sh\nexit 101\n' >"$folder/machine/usr/sbin/policy-rc.d"
        chmod 755 "$folder/machine/usr/sbin/policy-rc.d"
        # shellcheck disable=SC2016 # expanded inside
        try "systemd, a kernel, HAProxy" timeout 1800 unshare --mount --pid --fork --kill-child sh -c '
            root=$1; shift
            mount -t proc proc "$root/proc"
            export DEBIAN_FRONTEND=noninteractive
            chroot "$root" apt-get -qq update
            exec chroot "$root" apt-get -qq -y --no-install-recommends install "$@"' sh "$folder/machine" "${around[@]}"
        go_on_if_good
        echo "${around[*]}" >"$folder/machine/made"
    fi
    rm -rf --one-file-system "$root"
    cp -a "$folder/machine" "$root"
    rm -f "$root/usr/sbin/policy-rc.d" "$root/made"
    go_on_if_good
    mkdir "$root/trial"
    cp -r "$inside" "$root/trial/inside.sh"
    cp -r "$here/../checks.sh" "$@" "$root/trial"
    cp "$here/trial.service" "$root/etc/systemd/system/"
    mkdir -p "$root/etc/systemd/system/multi-user.target.wants"
    ln -s ../trial.service "$root/etc/systemd/system/multi-user.target.wants/trial.service"
    try "its disk" mke2fs -q -t ext4 -d "$root" -L root "$folder/disk" 2G
}

# The words of qemu for this machine, without its disk: one processor, no network. Its first serial line is its console;
# to the second it writes what it tried.
machine=(qemu-system-x86_64 -machine q35 -accel tcg,thread=single -cpu max -smp 1 -m 1024 -display none -nic none)
