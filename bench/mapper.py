"""What `bench/kernel` and `bench/kernel-overlay` share: devices that the programs make and change, their partitions as
tables of Linux's device mapper, and a virtual machine in which a script works on them. It needs `qemu-system-x86_64`,
`cpio`, `dmsetup`, a static `busybox`, and a folder into which a kernel with its modules was unpacked: on Debian
`apt-get download linux-image-VERSION-cloud-amd64` and `dpkg -x` of it."""
import os, re, shutil, struct, subprocess
from pathlib import Path

SUPER = 4096  # the sector of the disk in which super begins
MODULES = ["virtio_pci", "virtio_blk", "dm-snapshot"]
BLOCK = 4096
INIT = """#!/bin/busybox sh
/bin/busybox --install -s /bin
mount -t proc proc /proc
mount -t sysfs sysfs /sys
mount -t devtmpfs devtmpfs /dev
exec >/dev/ttyS0 2>&1
echo 3 >/proc/sys/kernel/printk
export DM_DISABLE_UDEV=1
for module in $(cat /modules); do insmod /lib/$module || echo "no module $module"; done
echo "kernel $(uname -r)"
# sum NAME WHAT DEVICE
sum() { echo "sum $1 $2 $(sha256sum </dev/mapper/$3)"; }
status() { echo "status $1 $(dmsetup status $2)"; }
# begin NAME CHUNK: the partition and its store, with chunks of so many sectors
begin() {
    dmsetup create $1 /tables/$1
    dmsetup create $1-cow /tables/$1-cow
    size=$(blockdev --getsz /dev/mapper/$1)
    over="/dev/mapper/$1 /dev/mapper/$1-cow P $2"
    sum $1 before $1
}
view() { dmsetup create view --table "0 $size snapshot $over"; }
# look NAME WHAT: reads the partition through its store
look() {
    view
    status $1 view
    sum $1 $2 view
    dmsetup remove view
}
end() {
    sum $1 base $1
    dmsetup remove $1-cow
    dmsetup remove $1
}
. /cases
sync
echo done
reboot -f
"""


def partitions(device, slot):
    """The partitions of a slot's primary table, each with its extents as sectors: where on the disk, and how many."""
    with open(device, "rb") as f:
        f.seek((SUPER + 8) * 512)
        most = struct.unpack_from("<I", f.read(52), 40)[0]
        f.seek(SUPER * 512 + 12288 + slot * most)
        text = f.read(most)
    size, tables = struct.unpack_from("<I", text, 8)[0], struct.unpack_from("<12I", text, 80)

    def entries(which):
        at, count, width = tables[which * 3 : which * 3 + 3]
        return [text[size + at + i * width : size + at + (i + 1) * width] for i in range(count)]

    extents = [struct.unpack("<QIQI", it) for it in entries(1)]
    found = {}
    for entry in entries(0):
        name, (_, first, count, _) = entry[:36].rstrip(b"\0").decode(), struct.unpack_from("<4I", entry, 36)
        found[name] = [(SUPER + extent[2], extent[0]) for extent in extents[first : first + count]]
    return found


def linear(disk, runs):
    """A table of device mapper: one target for each extent."""
    lines, at = [], 0
    for first, count in runs:
        lines.append(f"{at} {count} linear {disk} {first}\n")
        at += count
    return "".join(lines)


def tables(disk, device, slot, name):
    """The tables of a slot's partition and of its store, as files of the machine; their names begin with the disk's
    letter."""
    found = partitions(device, slot)
    return {f"tables/{disk[-1]}{part}": linear(disk, found[part]).encode() for part in (name, f"{name}-cow")}


def sums(lines):
    """Prints the machine's lines, and gives the sums among them by name and what was read; None for none."""
    found = {}
    for line in lines:
        print(line)
        if line.startswith("sum "):
            _, name, what, *came = line.split()
            found[name, what] = came[0] if came else None
    return found


class Bench:
    """The programs, and the folder of a kernel, that the first words of a script name."""

    def __init__(self, words):
        self.vab, self.pack, self.kernel = (os.path.abspath(word) for word in words[:3])

    def told(self, device, *words, given=b""):
        words = [self.vab, device, *words]
        return subprocess.run(words, input=given, stdout=subprocess.PIPE, check=True).stdout.decode()

    def session(self, device, packets):
        heard = b"FB01" + b"".join(struct.pack(">Q", len(packet)) + packet for packet in packets)
        answers = self.told(device, "serve", given=heard)
        assert "FAIL" not in answers, answers

    def made(self, device, former, images):
        """A device over these bytes, with these images in slot a."""
        Path(device).write_bytes(former)
        self.told(device, "make", given=self.packed(os.path.dirname(device), images))

    def packed(self, folder, images):
        words = []
        for name, image in images.items():
            Path(f"{folder}/{name}").write_bytes(image)
            words.append(f"{name}={folder}/{name}")
        return subprocess.run([self.pack, *words], stdout=subprocess.PIPE, check=True).stdout

    def modules(self):
        """The files of the modules that are needed, each behind those that it needs."""
        files = {path.stem.replace("-", "_"): path for path in Path(self.kernel).rglob("*.ko")}
        order = []

        def add(name):
            path = files.get(name.replace("-", "_"))
            if path is None or path in order:
                return
            for needed in re.search(rb"\0depends=([^\0]*)", path.read_bytes())[1].decode().split(","):
                add(needed)
            order.append(path)

        for name in MODULES:
            add(name)
        return order

    def initramfs(self, folder, files):
        """What the machine begins with. `cases` among the files is the script, with the functions of INIT."""
        root = Path(f"{folder}/root")
        for name in ("bin", "lib", "proc", "sys", "dev", "tmp"):
            (root / name).mkdir(parents=True)
        shutil.copy(shutil.which("busybox"), root / "bin/busybox")
        dmsetup = shutil.which("dmsetup") or "/sbin/dmsetup"
        shutil.copy(dmsetup, root / "bin/dmsetup")
        libraries = subprocess.run(["ldd", dmsetup], stdout=subprocess.PIPE, check=True, text=True).stdout
        for path in re.findall(r"(/\S+) \(0x", libraries):
            (root / path[1:]).parent.mkdir(parents=True, exist_ok=True)
            shutil.copy(path, root / path[1:])
        order = self.modules()
        for path in order:
            shutil.copy(path, root / "lib" / path.name)
        (root / "modules").write_text("".join(f"{path.name}\n" for path in order))
        for name, text in files.items():
            (root / name).parent.mkdir(exist_ok=True)
            (root / name).write_bytes(text)
        (root / "init").write_text(INIT)
        (root / "init").chmod(0o755)
        with open(f"{folder}/initramfs", "wb") as f:
            found = subprocess.run(["find", "."], cwd=root, stdout=subprocess.PIPE, check=True).stdout
            subprocess.run(["cpio", "-o", "-H", "newc", "--quiet"], cwd=root, input=found, stdout=f, check=True)

    def boot(self, folder, disks, files):
        """The lines that the machine prints."""
        self.initramfs(folder, files)
        image = next(Path(self.kernel).glob("boot/vmlinuz-*"))
        words = ["qemu-system-x86_64", "-m", "512", "-display", "none", "-serial", "stdio", "-monitor", "none"]
        words += ["-no-reboot", "-net", "none", "-kernel", image, "-initrd", f"{folder}/initramfs"]
        words += ["-append", "console=ttyS0 quiet panic=-1"]
        for disk in disks:
            words += ["-drive", f"file={disk},format=raw,if=virtio"]
        ran = subprocess.run(words, stdin=subprocess.DEVNULL, stdout=subprocess.PIPE, check=True, timeout=3600)
        return ran.stdout.decode(errors="replace").replace("\r", "").splitlines()
