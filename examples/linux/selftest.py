#!/usr/bin/env python3
"""selftest.py MEM_PROTECT_C: prints the calls of Linux' ownership self-test as a trace, each with the reply that the test expects.

The test has one VM that both borrows and owns pages; here they are two, a plain one on CPU 0 and a protected one on CPU 1. Its page comes
from EL2's pool, and here from `donate_hyp`. Left out is what two VMs can't show, and what comes after the protected one's end.
"""
import re
import sys

FRAME, PAGE = 0x41100, 0x800000
# What leads to the test's first state: both VMs, and the page in the hypervisor's hands.
BEFORE = """memory 0x40000 0x4000
carve 0x40600 0x40
cpus 2
boot
0 vm_reserve plain 1
0 fund 0x40200 8
0 install
0 vm_open
0 vcpu_load 0.1 0
1 vm_reserve protected 1
1 fund 0x40210 8
1 install
1 vm_open
1 vcpu_load 1.1 0
0 donate_hyp {frame} 1"""
# The test asks for a page of a living VM back, which its hypercall wants dead.
END = ["1 vcpu_put", "1 teardown 1.1", "1 mark_dying"]
CALLS = {
    "__pkvm_host_donate_hyp": "0 donate_hyp {frame} 1",
    "__pkvm_host_share_hyp": "0 share_hyp {frame}",
    "__pkvm_host_unshare_hyp": "0 unshare_hyp {frame}",
    "__pkvm_hyp_donate_host": "0 hyp_donate_host {frame} 1",
    "__pkvm_host_share_ffa": "#linux share_ffa {frame} 1",
    "__pkvm_host_unshare_ffa": "#linux unshare_ffa {frame} 1",
    "hyp_pin_shared_mem": "#linux pin {frame}",
    "__pkvm_host_force_reclaim_page_guest": "#linux force_reclaim {frame}",
    "__pkvm_host_share_guest": "0 share_guest {frame} {page} rwx",
    "__pkvm_host_unshare_guest": "0 unshare_guest 0.1 {page}",
    "__pkvm_host_donate_guest": "1 donate_guest {frame} {page}",
    "__pkvm_guest_share_host": "1 guest_share_host {page}",
    "__pkvm_guest_unshare_host": "1 guest_unshare_host {page}",
    "__pkvm_host_reclaim_page_guest": "1 reclaim_page 1.1 {page}",
}
# As docs/LINUX.md pairs them.
REPLIES = {"0": "ok", "-EPERM": "perm", "-ENOENT": "perm", "-EHWPOISON": "perm", "-EBUSY": "busy"}

text = open(sys.argv[1], encoding="utf-8").read()
test = re.search(r"^void pkvm_ownership_selftest\b.*?^}", text, re.M | re.S)
if not test:
    print(f"selftest.py: {sys.argv[1]} has no ownership self-test", file=sys.stderr)
    sys.exit(2)
print(BEFORE.format(frame=hex(FRAME)))
is_poisoned = is_over = False
for it in re.finditer(r"assert_transition_res\((-?\w+),\s*(\w+),([^;]*)\);|(hyp_unpin_shared_mem)\(", test.group()):
    wanted, call, words, is_unpin = it.groups()
    if is_unpin:
        print(f"#linux unpin {FRAME:#x}")
        continue
    # A second VM's page isn't poisoned, and a VM that ended has no page to be tried.
    if call == "__pkvm_host_share_guest" and is_poisoned or call == "__pkvm_host_donate_guest" and is_over:
        print(f"# left out: {call} {wanted}")
        continue
    is_poisoned |= "force_reclaim" in call
    if "reclaim_page_guest" in call and "force" not in call:
        print(*END, sep="\n")
        is_over = True
    line = CALLS[call].format(frame=hex(FRAME), page=hex(PAGE + ("gfn + 1" in words)))
    print(line)
    print(f"#{'=' if line[0] != '#' else ''} {REPLIES[wanted]}")
