" Traces of hypercalls: docs/TRACES.md has the language. tests/editors/run compares the words with its definitions.
if exists("b:current_syntax")
    finish
endif
syntax case match
setlocal iskeyword=@,48-57,_

syntax match pkvmtraceComment "^#.*$"
syntax match pkvmtraceExpected "^#= .*$"
syntax match pkvmtraceWatch "^#! .*$"
syntax match pkvmtraceCpu "^\%(0x[0-9a-f]\{1,16}\|0\|[1-9]\d*\) " contains=pkvmtraceCpuNumber nextgroup=pkvmtraceCall
syntax match pkvmtraceCpuNumber "\S\+" contained
syntax keyword pkvmtraceCall contained donate_guest donate_hyp finish_guest fund guest_relax guest_share_host
syntax keyword pkvmtraceCall contained guest_translate guest_unshare_host host_abort host_translate hyp_donate_host hyp_translate install mark_dying
syntax keyword pkvmtraceCall contained owner_of reclaim_page reclaim_pool share_guest share_hyp teardown topup unfund unshare_guest unshare_hyp vcpu_load
syntax keyword pkvmtraceCall contained vcpu_put vm_open vm_release vm_reserve
syntax match pkvmtraceLine "^\%(geometry\|cpus\|log\|memory\|device\|carve\|boot\|start\)\ze\%( \|$\)" contains=pkvmtraceSetting
syntax keyword pkvmtraceSetting contained geometry cpus log memory device carve boot start
syntax match pkvmtraceLine "^\%(word\|free\|show\|poke\)\ze " contains=pkvmtraceQuery
syntax keyword pkvmtraceQuery contained word free show poke
syntax match pkvmtraceArgument " \zs\%(host\|hyp\|guest\|shared\|protected\|plain\|rwx\|rx\|rw\|r\)\ze\%( \|$\)" contains=pkvmtracePlace,pkvmtraceKind
syntax keyword pkvmtracePlace contained host hyp guest shared
syntax keyword pkvmtraceKind contained protected plain r rw rx rwx
syntax match pkvmtraceNumber " \zs\%(0x[0-9a-f]\{1,16}\|0\|[1-9]\d*\)\ze\%( \|$\)"
syntax match pkvmtraceVm " \zs\%(0\|[1-9]\d*\)\.\%(0\|[1-9]\d*\)\ze\%( \|$\)"

highlight default link pkvmtraceComment Comment
highlight default link pkvmtraceExpected SpecialComment
highlight default link pkvmtraceWatch SpecialComment
highlight default link pkvmtraceCpuNumber Identifier
highlight default link pkvmtraceCall Function
highlight default link pkvmtraceSetting PreProc
highlight default link pkvmtraceQuery Statement
highlight default link pkvmtracePlace Type
highlight default link pkvmtraceKind StorageClass
highlight default link pkvmtraceNumber Number
highlight default link pkvmtraceVm Constant

let b:current_syntax = "pkvmtrace"
