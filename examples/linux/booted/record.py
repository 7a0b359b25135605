#!/usr/bin/env python3
"""record.py KERNEL INITRD FOLDER CPU CPUS MEGABYTES CALLS CORE WORDS..: boots a kernel under QEMU and records its hypervisor's calls from outside.

KERNEL has `Image` and `names` (see `kernel`). QEMU's gdb stub stops the machine where a call begins and where it returns; nothing is
changed in it. FOLDER gets `calls`, lines of text, and `pages`, the pages that they name:

  name NAME VALUE              what is known of the machine: addresses are physical
  page FRAME INDEX             from here on the frame has the INDEX-th page of `pages`
  call NUMBER NAME ARGUMENTS   a call begins, in the state of all pages so far
  return NUMBER VALUE          it ends, in the state of all pages so far

Of several CPUs the one that begins a call runs alone until it ends, so that the states are those before and after it.

What is recorded: EL2's pool, its variables, and tables of guests and the pages of their VMs' structs. It ends after CALLS calls, when
the machine is off, or when `pages` has a gigabyte.

CORE, unless it is empty, gets a core of the machine when it is about to be turned off, whether calls are still recorded or not. Then
FOLDER also gets `dump`: how `dump` is to be asked for that core.
"""
import hashlib
import json
import mmap
import os
import re
import shlex
import socket
import struct
import subprocess
import sys
import time

BASE, PAGE, MOST_PAGES, PATIENCE, HANDLE_OF_SLOT_0 = 0x40000000, 4096, 1 << 18, 120, 0x1000
# The calls, and what each argument is: a number, a vCPU or a VM, of which the VM's physical address is told, or a place.
CALLS = {
    "__pkvm_host_share_hyp": "n",
    "__pkvm_host_unshare_hyp": "n",
    "__pkvm_host_donate_hyp": "nn",
    "__pkvm_hyp_donate_host": "nn",
    "handle_host_mem_abort": "",
    "__pkvm_host_share_guest": "nnncn",
    "__pkvm_host_unshare_guest": "nnv",
    "__pkvm_host_donate_guest": "nnc",
    "__pkvm_guest_share_host": "cn",
    "__pkvm_guest_unshare_host": "cn",
    "__pkvm_host_relax_perms_guest": "ncn",
    "__pkvm_host_reclaim_page_guest": "nv",
    "kvm_guest_prepare_stage2": "vp",
    "__pkvm_start_teardown_vm": "n",
    "__pkvm_finalize_teardown_vm": "n",
}
VARIABLES = ["host_mmu", "pkvm_pgtable", "host_s2_pool", "hpool", "hyp_memory", "hyp_memblock_nr", "__hyp_vmemmap"]


def refuse(why):
    print(f"examples/linux/live: {why}", file=sys.stderr)
    sys.exit(2)


class Gdb:
    """The stub's protocol: packets, registers and breakpoints."""

    def __init__(self, path):
        # The file is there a moment before QEMU listens.
        for _ in range(PATIENCE):
            self.socket = socket.socket(socket.AF_UNIX)
            if os.path.exists(path) and self.socket.connect_ex(path) == 0:
                break
            self.socket.close()
            time.sleep(0.1)
        else:
            raise OSError(f"QEMU doesn't listen at {path}")
        self.socket.settimeout(PATIENCE)
        self.buffer = b""
        self.here = None  # a breakpoint where the CPU stands
        self.cpu = None  # that stopped last
        self.ask("qSupported:multiprocess+")
        self.registers = {}
        number = 0
        for include in re.findall(r'href="([^"]+)"', self.xml("target.xml")):
            for it in re.findall(r"<reg ([^>]*)/?>", self.xml(include)):
                own = re.search(r'regnum="(\d+)"', it)
                number = int(own.group(1)) if own else number
                self.registers[re.search(r'name="([^"]+)"', it).group(1)] = number
                number += 1

    def ask(self, words):
        data = words.encode()
        self.socket.sendall(b"$%s#%02x" % (data, sum(data) & 255))
        while True:
            start = self.buffer.find(b"$")
            end = self.buffer.find(b"#", start + 1)
            if start >= 0 and end >= 0 and len(self.buffer) >= end + 3:
                packet = self.buffer[start + 1 : end].decode()
                self.buffer = self.buffer[end + 3 :]
                self.socket.sendall(b"+")
                return packet
            more = self.socket.recv(65536)
            if not more:
                raise EOFError
            self.buffer += more

    def xml(self, name):
        text = ""
        while True:
            part = self.ask(f"qXfer:features:read:{name}:{len(text):x},ffb")
            text += part[1:]
            if part[0] == "l":
                return text

    def register(self, name):
        return int.from_bytes(bytes.fromhex(self.ask(f"p{self.registers[name]:x}")), "little")

    def number_at(self, address):
        return int.from_bytes(bytes.fromhex(self.ask(f"m{address:x},8")), "little")

    def stop_at(self, address):
        assert self.ask(f"Z0,{address:x},4") == "OK"

    def stop_no_more_at(self, address):
        assert self.ask(f"z0,{address:x},4") == "OK"
        if self.here == address:
            self.here = None

    def resume(self, how):
        answer = self.ask(f"vCont;{how}")
        if answer[0] in "WX":
            raise EOFError
        self.cpu = re.search(r"thread:([^;]+)", answer).group(1)
        assert self.ask(f"Hg{self.cpu}") == "OK"

    def go_on(self, stops, is_alone=False):
        """Until a breakpoint. It would stop where it stands: so that one is taken out for a step."""
        if self.here is not None:
            here = self.here
            self.stop_no_more_at(here)
            self.resume(f"s:{self.cpu}")
            while self.register("pc") == here:
                self.resume(f"s:{self.cpu}")
            self.stop_at(here)
        pc = self.register("pc")
        if self.here is None or pc not in stops:
            self.resume(f"c:{self.cpu}" if is_alone else "c")
            pc = self.register("pc")
        self.here = pc if pc in stops else None
        return pc


class Record:
    """Pages as they change, each content once."""

    def __init__(self, folder, memory):
        self.calls = open(f"{folder}/calls", "w", encoding="ascii")
        self.pages = open(f"{folder}/pages", "wb")
        self.memory = memory
        self.now, self.index_of = {}, {}

    def line(self, *words):
        print(*words, file=self.calls)

    def see(self, frames):
        for frame in frames:
            at = frame * PAGE - BASE
            page = self.memory[at : at + PAGE]
            if self.now.get(frame) == page:
                continue
            self.now[frame] = page
            digest = hashlib.sha1(page).digest()
            if digest not in self.index_of:
                self.index_of[digest] = len(self.index_of)
                self.pages.write(page)
            self.line("page", hex(frame), self.index_of[digest])
        if len(self.index_of) > MOST_PAGES:
            raise EOFError

    def close(self):
        self.calls.close()
        self.pages.close()


def tables(memory, frame, level, found):
    """The frames of a tree's tables."""
    found.add(frame)
    if level == 3:
        return
    at = frame * PAGE - BASE
    for word in struct.unpack("<512Q", memory[at : at + PAGE]):
        below = (word >> 12) & ((1 << 36) - 1)
        if word & 3 == 3 and below not in found and 0 <= below * PAGE - BASE < len(memory):
            tables(memory, below, level + 1, found)


class Core:
    """A machine that is about to be turned off, its CPU in the host's kernel: a core of it, and how `dump` is to be asked for it."""

    def __init__(self, gdb, memory, names, physical, offset):
        self.gdb, self.memory, self.names, self.physical, self.offset = gdb, memory, names, physical, offset
        self.el2_has_guests = "pkvm_hyp_vm.pgt" in names
        self.release = "7.3" if self.el2_has_guests else "6.12"
        self.numbered = 0

    def number(self, at, size=8):
        return int.from_bytes(self.memory[at - BASE : at - BASE + size], "little")

    def of_el2(self, address):
        """The physical address of one in EL2's linear map."""
        return (address + self.offset) % (1 << 64)

    def root(self, bits, level, at):
        """FRAME:LEVEL:PAGES. A page of level 0 has 48 bits, one of level 1 has 39, .."""
        level -= (level & 0x80) * 2
        return f"{at // PAGE:#x}:{level}:{1 << max(0, bits - 48 + 9 * level)}"

    def root_of(self, pgt):
        """Of one of EL2's struct kvm_pgtable."""
        bits, level, at = (pgt + self.names[f"kvm_pgtable.{it}"] for it in ("ia_bits", "start_level", "pgd"))
        return self.root(self.number(bits, 4), self.number(level, 1), self.of_el2(self.number(at)))

    def guests(self):
        """Number, kind and root of each VM in the host's list that has tables."""
        head = self.names["kernel.vm_list"]
        at = self.gdb.number_at(head)
        while at != head:
            kvm = at - self.names["kvm.vm_list"]
            yield from self.guest_of_el2(kvm) if self.el2_has_guests else self.guest_of_host(kvm)
            at = self.gdb.number_at(at)

    def guest_of_el2(self, kvm):
        """7.3: the VM's handle says which slot of EL2's it has."""
        handle = self.gdb.number_at(kvm + self.names["kvm.arch.pkvm.handle"]) & 0xFFFF
        slot = handle - HANDLE_OF_SLOT_0
        vm = self.of_el2(self.number(self.of_el2(self.number(self.physical("vm_table"))) + 8 * slot)) if slot >= 0 else 0
        if 0 <= vm - BASE < len(self.memory):
            is_protected = self.number(vm + self.names["pkvm_hyp_vm.kvm.arch.pkvm.is_protected"], 1)
            yield slot, f"{'protected' if is_protected else 'plain'} handle {handle:#x}", self.root_of(vm + self.names["pkvm_hyp_vm.pgt"])

    def guest_of_host(self, kvm):
        """6.12: the host has the tables, and EL2 knows no VM. They are numbered as they come."""
        pgt = self.gdb.number_at(kvm + self.names["kvm.arch.mmu.pgt"])
        bits, level = (self.gdb.number_at(pgt + self.names[f"kvm_pgtable.{it}"]) for it in ("ia_bits", "start_level"))
        at = self.gdb.number_at(kvm + self.names["kvm.arch.mmu.pgd_phys"])
        yield self.numbered, "plain", self.root(bits & 0xFFFFFFFF, level & 0xFF, at)
        self.numbered += 1

    def ranges(self):
        """What EL2 maps apart from its linear map, as hyp_create_idmap lays it out: its own pages, first and last."""
        bits = self.number(self.physical("pkvm_pgtable") + self.names["kvm_pgtable.ia_bits"], 4)
        first, last = (self.physical(f"__hyp_idmap_text_{it}") for it in ("start", "end"))
        vmemmap = self.number(self.physical("__hyp_vmemmap")) % (1 << bits) // PAGE
        size = 1 << (bits - 3 - 12)
        yield "idmap", first // PAGE, (last - 1) // PAGE
        yield "private", vmemmap - size, vmemmap - 1
        yield "vmemmap", vmemmap, vmemmap + size - 1

    def lines(self, core):
        is_hvhe, is_fwb = (self.gdb.register("HCR_EL2") >> it & 1 for it in (34, 46))
        lpa2 = "-lpa2" * (self.gdb.register("VTCR_EL2") >> 32 & 1)
        stage_2 = self.release + "-fwb" * is_fwb + lpa2
        # 6.12 forces attributes in a guest's tables alone, where the processor can.
        of_guests = stage_2 if self.el2_has_guests else self.release + "-fwb" * (self.gdb.register("ID_AA64MMFR2_EL1") >> 40 & 1) + lpa2
        words = ["--host", self.root_of(self.physical("host_mmu") + self.names["host_mmu.pgt"]), "--profile", f"host={stage_2}"]
        words += ["--hyp", self.root_of(self.physical("pkvm_pgtable")), "--profile", f"hyp={self.release}{'-hvhe' * is_hvhe}{lpa2}"]
        for guest, kind, root in sorted(self.guests()):
            yield f"guest {guest} {kind} root {root}"
            words += ["--guest", f"{guest}={root}", "--profile", f"{guest}={of_guests}"]
        for name, first, last in self.ranges():
            yield f"hyp {first:#x}-{last:#x} {name}"
            words += ["--skip", f"hyp={first:#x}-{last:#x}"]
            if name == "vmemmap" and self.el2_has_guests:
                words += ["--vmemmap", f"{first:#x}"]
        yield f"./run dump {shlex.quote(core)} {' '.join(words)}"

    def write(self, folder, core):
        """By QEMU's own monitor."""
        with socket.socket(socket.AF_UNIX) as monitor:
            monitor.settimeout(PATIENCE)
            monitor.connect(f"{folder}/monitor")
            with monitor.makefile("rw") as lines:
                for command in (
                    {"execute": "qmp_capabilities"},
                    {"execute": "dump-guest-memory", "arguments": {"paging": False, "protocol": f"file:{os.path.abspath(core)}"}},
                ):
                    print(json.dumps(command), file=lines, flush=True)
                    answer = {}
                    while not answer.keys() & {"return", "error"}:
                        answer = json.loads(lines.readline() or '{"error": {"desc": "QEMU is gone"}}')
                    if "error" in answer:
                        refuse(f"no core of the machine: {answer['error']['desc']}")
        with open(f"{folder}/dump", "w", encoding="utf-8") as file:
            file.writelines(f"{line}\n" for line in self.lines(core))


def main():
    kernel, initrd, folder, cpu, cpus, megabytes, most, core, *words = sys.argv[1:]
    size, most = int(megabytes) << 20, int(most)
    with open(f"{kernel}/names", encoding="ascii") as file:
        names = {name: int(value, 0) for name, value in (line.split() for line in file)}
    # 6.12 leaves the tables of guests to the host: those calls of theirs aren't there, or don't matter.
    calls = {name: kinds for name, kinds in CALLS.items() if name in names and (kinds.strip("n") == "" or "pkvm_hyp_vm.pgt" in names)}
    with open(f"{folder}/memory", "w+b") as file:
        file.truncate(size)
        memory = mmap.mmap(file.fileno(), size)
    machine = ["-M", "virt,virtualization=on,gic-version=3,memory-backend=memory", "-cpu", cpu, "-smp", cpus, "-m", megabytes]
    with subprocess.Popen(
        ["qemu-system-aarch64", *machine, "-display", "none", "-nic", "none", "-no-reboot", "-S", "-kernel", f"{kernel}/Image"]
        + ["-object", f"memory-backend-file,id=memory,size={megabytes}M,mem-path={folder}/memory,share=on", "-initrd", initrd]
        + ["-append", "console=ttyAMA0 kvm-arm.mode=protected nokaslr rdinit=/init panic=-1 " + " ".join(words)]
        + ["-serial", f"file:{folder}/console", "-monitor", "none", "-qmp", f"unix:{folder}/monitor,server=on,wait=off"]
        + ["-chardev", f"socket,path={folder}/gdb,server=on,wait=off,id=gdb", "-gdb", "chardev:gdb"]
    ) as qemu:
        try:
            record = Record(folder, memory)
            made = run(Gdb(f"{folder}/gdb"), names, calls, memory, record, most, folder, core)
            record.close()
        finally:
            qemu.terminate()
            os.unlink(f"{folder}/memory")
    each = f" ({', '.join(map(str, made.values()))} by CPU)" if len(made) > 1 else ""
    print(f"recorded {sum(made.values())} calls{each} and {len(record.index_of)} pages", file=sys.stderr)


def run(gdb, names, calls, memory, record, most, folder, core):
    # The host's kernel, before it starts EL2: it knows by now where all lies.
    gdb.stop_at(names["kernel.kvm_arm_init"])
    gdb.go_on([names["kernel.kvm_arm_init"]])
    to_physical = gdb.number_at(names["kernel.kimage_voffset"])
    offset = gdb.number_at(names["hyp_physvirt_offset"])
    pool = gdb.number_at(names["kernel.hyp_mem_base"]) // PAGE
    pool_pages = gdb.number_at(names["kernel.hyp_mem_size"]) // PAGE
    gdb.stop_no_more_at(names["kernel.kvm_arm_init"])

    def physical(name):
        return (names[name] - to_physical) % (1 << 64)

    for name, value in [("hyp_physvirt_offset", offset), ("pool", pool), ("pool_pages", pool_pages)]:
        record.line("name", name, hex(value))
    for name in VARIABLES + ["__hyp_text_start", "__hyp_text_end"]:
        if name in names:
            record.line("name", name, hex(physical(name)))
    for name, value in names.items():
        if "." in name and not name.startswith("kernel.") or name in ("hyp_page", "memblock_region"):
            record.line("name", name, hex(value))

    at = {(physical(name) - offset) % (1 << 64): name for name in calls}
    off = names["kernel.kernel_power_off"]
    for address in list(at) + [off] * bool(core):
        gdb.stop_at(address)
    first = min(physical(name) for name in VARIABLES) // PAGE
    last = (max(physical(name) for name in VARIABLES) + 8191) // PAGE
    fixed = list(range(first, last + 1)) + list(range(pool, pool + pool_pages))
    vms = {}  # a VM's struct, and the frame of its root

    def frames():
        found = set()
        for vm, root in vms.items():
            pgt = vm - BASE + names["pkvm_hyp_vm.pgt"]
            level = memory[pgt + names["kvm_pgtable.start_level"]]
            for page in range(1 << max(0, memory[pgt + names["kvm_pgtable.ia_bits"]] - 48 + 9 * level)):
                tables(memory, root + page, level, found)
            found.update(range(vm // PAGE, vm // PAGE + 3))
        return fixed + sorted(found)

    def handle_of(vm):
        place = vm - BASE + names["pkvm_hyp_vm.kvm.arch.pkvm.handle"]
        return int.from_bytes(memory[place : place + 2], "little")

    def told(kind, value):
        value = value if kind == "n" else (value + offset) % (1 << 64)
        if kind == "c":
            place = value - BASE + names["kvm_vcpu.kvm"]
            value = (int.from_bytes(memory[place : place + 8], "little") + offset) % (1 << 64)
        return value

    number, open_calls, made, pc = 0, [], {}, 0
    try:
        while number < most or open_calls:
            pc = gdb.go_on(set(at) | {off} | {it[1] for it in open_calls}, is_alone=bool(open_calls))
            if pc == off:
                break
            if open_calls and pc == open_calls[-1][1]:
                own, back, name, arguments = open_calls.pop()
                gdb.stop_no_more_at(back)
                value = gdb.register("x0")
                if name == "kvm_guest_prepare_stage2" and value == 0:
                    vms[arguments[0]] = arguments[1] // PAGE
                record.see(frames())
                record.line("return", own, hex(value))
            elif pc in at:
                name = at[pc]
                arguments = [told(kind, gdb.register(f"x{i}")) for i, kind in enumerate(calls[name])]
                if name == "handle_host_mem_abort":
                    arguments = [gdb.register("HPFAR_EL2")]
                if number == 0:
                    record.line("name", "is_hvhe", hex(gdb.register("HCR_EL2") >> 34 & 1))
                    record.line("name", "is_fwb", hex(gdb.register("HCR_EL2") >> 46 & 1))
                    record.line("name", "is_lpa2", hex(gdb.register("VTCR_EL2") >> 32 & 1))
                back = gdb.register("x30")
                if name == "__pkvm_finalize_teardown_vm":
                    vms = {vm: root for vm, root in vms.items() if handle_of(vm) != arguments[0]}
                record.see(frames())
                record.line("call", number, name, *map(hex, arguments))
                open_calls.append((number, back, name, arguments))
                gdb.stop_at(back)
                number += 1
                made[gdb.cpu] = made.get(gdb.cpu, 0) + 1
                if len(open_calls) > 8:
                    refuse("calls lie in each other without end")
            else:
                refuse(f"the machine stopped at {pc:#x}")
    except (EOFError, ConnectionResetError, BrokenPipeError):
        pass
    except socket.timeout:
        print(f"examples/linux/live: the machine says nothing for {PATIENCE} seconds", file=sys.stderr)
    if core:
        try:
            for address in list(at) + [it[1] for it in open_calls]:
                gdb.stop_no_more_at(address)
            # Another CPU may have stopped at the same time, at one of those.
            while pc != off:
                pc = gdb.go_on([off])
            Core(gdb, memory, names, physical, offset).write(folder, core)
        except (EOFError, OSError):
            refuse("no core: the machine is off, or says nothing")
    return made


main()
