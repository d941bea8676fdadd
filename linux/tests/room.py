"""A network namespace of its own, with devices eth1 .. whose other ends stand in a further one, as those of a container."""
import ctypes
import os
import subprocess
import sys
import traceback

CLONE_NEWNS, CLONE_NEWNET = 0x00020000, 0x40000000
# How long an ip may take, in seconds: a guest of a machine that is in use is slow.
WAIT = 300
# The process that holds the namespace of the other ends.
HOLDER = None
DEVICES = ("eth1", "eth2", "eth3", "eth4")


def sh(line, check=True):
    return subprocess.run(line, shell=True, check=check, capture_output=True, text=True).stdout


def ip(lines, *before):
    """Runs lines as one `ip -batch`."""
    subprocess.run([*before, "ip", "-batch", "-"], input="".join(it + "\n" for it in lines), text=True, check=True)


def has(kind):
    """Whether the kernel has a kind of links."""
    words = {"bond": "type bond", "vlan": "link eth1 type vlan id 9", "vrf": "type vrf table 999", "veth": "type veth peer name try1"}.get(kind, f"type {kind}")
    return not sh(f"ip link add name try0 {words} 2>&1 && ip link del try0", check=False)


def ip_some(lines):
    """As ip, and what the kernel lacks is passed over."""
    subprocess.run(["ip", "-force", "-batch", "-"], input="".join(it + "\n" for it in lines), text=True, check=False, capture_output=True)


def unshare(flags):
    libc = ctypes.CDLL(None, use_errno=True)
    if libc.unshare(flags):
        raise OSError(ctypes.get_errno(), "unshare")


def enter(devices=DEVICES):
    """Puts this process in a new namespace with such devices, down, each with a MAC address of its own. What holds the other one ends
    with this process."""
    global HOLDER
    unshare(CLONE_NEWNET | CLONE_NEWNS)
    sh("mount --make-rprivate / && mount -t sysfs sys /sys")
    holder = subprocess.Popen(["unshare", "-n", "cat"], stdin=subprocess.PIPE, stdout=subprocess.DEVNULL)
    own = os.readlink("/proc/self/ns/net")
    while os.readlink(f"/proc/{holder.pid}/ns/net") == own:
        pass
    lines = [(f"link add {name} address 52:54:00:00:00:0{at} type veth peer name far{at}", f"link set far{at} netns {holder.pid}")
             for at, name in enumerate(devices, 1)]
    ip([line for pair in lines for line in pair])
    ip([f"link set far{at} up" for at, _ in enumerate(devices, 1)], "nsenter", "-t", str(holder.pid), "-n")
    HOLDER = holder


def apart(work, *arguments):
    """Runs work in a process and a namespace of its own, and gives its status."""
    sys.stdout.flush()
    pid = os.fork()
    if pid == 0:
        status = 1
        try:
            enter()
            status = work(*arguments)
            HOLDER.stdin.close()
        except BaseException:
            traceback.print_exc()
        finally:
            sys.stdout.flush()
            os._exit(status)
    return os.waitstatus_to_exitcode(os.waitpid(pid, 0)[1])
