#!/bin/bash
# Runs the steps of `probe` by hand against Linux' own J1939 stack, in a virtual machine of Debian's kernel: linux_j1939.sh [bare] [OPTION..].
#
# The machine's CAN is a serial line (slcan), which python-can opens as a socket here. Debian's packages: qemu-system-x86 busybox-static can-utils python3-can
# python3-serial; the kernel is fetched by apt-get and not installed. 'bare' is the box without an application. Files are kept in J39VM (/tmp/j39vm);
# J39ACCEL=kvm is quicker, where that is to be had.
set -euo pipefail
here=$(cd "$(dirname "$0")" && pwd)
work=${J39VM:-/tmp/j39vm}
port=${J39PORT:-29536}
kind=
if [ "${1:-}" = bare ]; then
  kind=bare
  shift
fi
mkdir -p "$work/box"
cd "$work"

if [ ! -e kernel/boot ]; then
  package=$(apt-cache depends linux-image-amd64 | awk '/Depends: linux-image-6/ { print $2 }')
  apt-get download "$package"
  dpkg -x linux-image-*.deb kernel
fi
release=$(basename kernel/lib/modules/*)
[ -e "kernel/lib/modules/$release/modules.dep" ] || depmod -b kernel "$release"

# What the machine starts by: its modules, and the files of this one, which it reads.
rm -rf initrd
mkdir -p initrd/{bin,proc,sys,dev,host,modules}
cp /bin/busybox initrd/bin/
modules=()
for name in virtio_pci 9pnet_virtio 9p can-raw can-j1939 slcan; do
  while read -r _ file; do
    [[ " ${modules[*]-} " == *" ${file##*/} "* ]] && continue
    cp "$file" initrd/modules/
    modules+=("${file##*/}")
  done < <(modprobe -d kernel -S "$release" --show-depends "$name" | grep '^insmod')
done
cat > initrd/init << INIT
#!/bin/busybox sh
/bin/busybox mount -t proc proc /proc
/bin/busybox mount -t sysfs sys /sys
/bin/busybox mount -t devtmpfs dev /dev
for file in ${modules[*]}; do /bin/busybox insmod /modules/\$file; done
/bin/busybox mount -t 9p -o trans=virtio,version=9p2000.L,ro root /host
/bin/busybox mount -t devtmpfs dev /host/dev
/bin/busybox mount -t proc proc /host/proc
/bin/busybox mount -t sysfs sys /host/sys
/bin/busybox chroot /host /usr/bin/slcand -o -s5 -S 115200 ttyS1 slcan0
/bin/busybox sleep 1
/bin/busybox ip link set slcan0 up
/bin/busybox chroot /host /usr/bin/python3 $here/linux_j1939_box.py slcan0 $kind
/bin/busybox poweroff -f
INIT
chmod +x initrd/init
(cd initrd && find . | cpio -o -H newc --quiet | gzip -1 > ../initrd.gz)

PYTHONPATH="$here/.." python3 -c "
from tests.probe_boxes import PLAN
print(PLAN.replace('CHOOSES', 'false').replace('CLAIMS', '').replace('ADDRESS', '130').replace('window = 4', 'window = 255'))" > plan.toml

rm -f console.txt
qemu-system-x86_64 -accel "${J39ACCEL:-tcg}" -nic none -m 512 -display none -no-reboot -kernel kernel/boot/vmlinuz-"$release" -initrd initrd.gz -append "console=ttyS0 quiet panic=-1" \
  -serial file:console.txt -serial "tcp:127.0.0.1:$port,server=on,wait=off" -virtfs local,path=/,mount_tag=root,security_model=none,readonly=on,multidevs=remap < /dev/null &
machine_id=$!
trap 'kill $machine_id 2> /dev/null || true' EXIT
for _ in $(seq 600); do
  grep -q 'the box has claimed' console.txt 2> /dev/null && break
  sleep 0.5
done
python3 "$here/../probe.py" plan.toml GEARBOX --interface slcan --channel "socket://127.0.0.1:$port" --jitter 100 --log linux.log "$@" < /dev/null
