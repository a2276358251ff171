" Colours scripts of vmosim in vim. Made from the grammar in tools/machine_model by .ci/manuals.
" To use it: au BufRead *.vms source tools/vmosim.vim
if exists("b:current_syntax")
  finish
endif
syntax match vmosimComment /^\s*#.*$/
syntax match vmosimWrong /^\s*[^# \t]\S*/
syntax match vmosimCommand /^\s*\(vmo_create\|vmo_create_child\|vmo_close\|vmo_size\|vmo_set_size\|vmo_read\|vmo_write\|vmo_fill\|vmo_commit\|vmo_decommit\|vmo_zero\|vmo_pin\|vmo_unpin\|vmo_info\|root_create\|vmar_allocate\|vmar_map\|vmar_unmap\|vmar_protect\|vmar_destroy\|maps\|mem_read\|mem_write\|stat\|begin\|step\|drop\|source_create\|supply\|evict\)\ze\(\s\|$\)/
syntax match vmosimName /\s\zs[vrpj]\(0\|[1-9]\d*\)\ze\(\s\|$\)/
syntax match vmosimNumber /\s\zs\(0x\x\+\|\d\+\)\ze\(\s\|$\)/
syntax match vmosimKind /\s\zs\(snapshot\|slice\|reference\|snapshot_at_least_on_write\|commit\|zero\|decommit\|none\|r\|w\|rw\|x\|rx\|wx\|rwx\)\ze\(\s\|$\)/
syntax match vmosimFlag /\s\zs\(allow_faults\|can_execute\|can_read\|can_write\|resizable\|specific\|specific_overwrite\|upper_limit\)\ze\(\s\|$\)/
highlight default link vmosimComment Comment
highlight default link vmosimWrong Error
highlight default link vmosimCommand Statement
highlight default link vmosimName Identifier
highlight default link vmosimNumber Number
highlight default link vmosimKind Type
highlight default link vmosimFlag PreProc
let b:current_syntax = "vmosim"
